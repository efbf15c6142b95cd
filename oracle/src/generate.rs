//! Sheets by seed, of laws 0 to 6; trains.rs has those with gears, turns.rs those with joints of many turns. `sheet(rng, index)` is valid: it passes
//! tests 1 to 7. Its first relation goes through every law, joint kind, flag and pair of primitives as the index grows; the rest is by chance.
//! `damaged` and `calls` put faults into sheets and into what is lent with them.

use crate::answer::{Call, Set};
use crate::plain::{body_of, frame_of, list, rel_of};
use crate::rng::Rng;
use crate::sheet::*;
use crate::whole;
use tenon::math::{M3, rotation_between};
use tenon::solve::{self, Motion};
use tenon::{Frame, Vec3};

/// The kind of one relation: law, joint, flag, primitives of its three ends.
#[derive(Clone, Copy)]
pub struct Kind {
    pub law: u8,
    pub joint: u8,
    pub flag: u8,
    pub prims: [u8; 3],
}

pub fn kinds() -> Vec<Kind> {
    let mut out = Vec::new();
    for law in 0..7 {
        let joints = if law == JOINT { 0..6 } else { 0..1 };
        let flags = if matches!(law, INSERT | TANGENT | JOINT) { 0..2 } else { 0..1 };
        let planes = if law == SYMMETRY { 0..4 } else { 0..1 };
        for (joint, flag) in joints.flat_map(|j| flags.clone().map(move |f| (j, f))) {
            for (a, b) in (0..4).flat_map(|a| (0..4).map(move |b| (a, b))) {
                out.extend(planes.clone().map(|p| Kind { law, joint, flag, prims: [a, b, p] }));
            }
        }
    }
    out
}

/// How coordinates are chosen: small halves and axes (many exact zeros), or any.
#[derive(Clone, Copy, PartialEq)]
pub enum Style {
    Lattice,
    Any,
}

pub struct Maker<'a> {
    pub rng: &'a mut Rng,
    pub style: Style,
    /// The bodies at a placement that the relations are made to hold at, with their true frames.
    pub bodies: Vec<Body>,
}

impl Maker<'_> {
    pub fn number(&mut self, most: f64) -> f64 {
        match self.style {
            Style::Lattice => self.rng.pick(&[0.0, 0.0, -0.0, 0.5, 1.0, -1.0, 2.0, -3.0]),
            Style::Any => self.rng.range(-most, most),
        }
    }
    pub fn position(&mut self) -> Vec3 {
        Vec3::new(self.number(20.0), self.number(20.0), self.number(20.0))
    }
    pub fn direction(&mut self) -> Vec3 {
        if self.style == Style::Lattice {
            return self.rng.pick(&[Vec3::X, Vec3::Y, Vec3::Z, -Vec3::X, -Vec3::Y, -Vec3::Z]);
        }
        loop {
            let v = Vec3::new(self.rng.range(-1.0, 1.0), self.rng.range(-1.0, 1.0), self.rng.range(-1.0, 1.0));
            if v.len() > 0.1 && v.len() < 1.0 {
                return v.normalized();
            }
        }
    }
    /// A unit direction across d.
    fn across(&mut self, d: Vec3) -> Vec3 {
        loop {
            let c = d.cross(self.direction());
            if c.len() > 0.1 {
                return c.normalized();
            }
        }
    }
    pub fn turning(&mut self) -> M3 {
        if self.style == Style::Lattice {
            let z = self.direction();
            let x = self.across(z);
            return M3::from_columns(x, z.cross(x), z);
        }
        M3::exp(self.direction() * self.rng.range(0.0, 3.1))
    }
    pub fn body(&mut self) -> Body {
        let (r, t) = (self.turning(), self.position());
        let mut b = Body { size: self.rng.pick(&[0.0, 2.0, 3.0, 10.0, 100.0, -4.0]), ..Body::default() };
        b.frame = [list(t), list(r.col(0)), list(r.col(1)), list(r.col(2))];
        b.center = if self.rng.one_in(3) { [0.0; 3] } else { list(t + self.position() * 0.25) };
        b
    }
    fn frame(&self, body: u16) -> Frame {
        self.bodies.get(body as usize).map_or(Frame::WORLD, |b| frame_of(b.frame))
    }
    /// An end on a body with the given geometry of the assembly.
    pub fn end(&mut self, body: u16, prim: u8, point: Vec3, direction: Vec3) -> End {
        let f = self.frame(body);
        End {
            prim,
            body,
            point: list(f.to_local(point)),
            direction: list(f.dir_to_local(direction)),
            circle_radius: self.rng.pick(&[0.0, 1.0, 2.5, -1.0]),
            ..End::default()
        }
    }

    /// A relation of the given kind that holds where the bodies now stand, wherever that can be.
    pub fn relation(&mut self, kind: Kind, bodies: [u16; 3]) -> Relation {
        let mut r = Relation { law: kind.law, joint: kind.joint, flag: kind.flag, ..Relation::default() };
        r.offset = self.number(5.0);
        r.angle = self.number(3.0);
        let (ra, rb) = (self.rng.pick(&[0.0, 1.0, 2.0, 4.0]), self.rng.pick(&[0.5, 1.0, 3.0]));
        let (p, d) = (self.position(), self.direction());
        let (u, s) = (self.across(d), self.number(8.0));
        let n = if self.rng.one_in(2) { -d } else { d };
        // Circles count as lines except where a law looks for circles.
        let line = |prim: u8| if prim == CIRCLE && kind.law != INSERT && kind.law != TANGENT { LINE } else { prim };
        let (a, b) = (line(kind.prims[0]), line(kind.prims[1]));
        // The geometry of the two ends; `swap` where it is given for (b, a).
        let swap = a > b && kind.law != JOINT;
        let first = (p, d);
        let second = match (kind.law, a.min(b), a.max(b)) {
            (MATE, PLANE, PLANE) => (p + d * r.offset + u * s, -d),
            (FLUSH, PLANE, PLANE) => (p + d * r.offset + u * s, d),
            (MATE, PLANE, LINE) => (p + d * r.offset + u * s, u),
            (MATE, PLANE, POINT) => (p + d * r.offset + u * s, d),
            (MATE, LINE, _) => (p + d * s, n),
            (MATE, _, _) => (p, d),
            (INSERT, _, _) => (p + d * r.offset, if kind.flag == 1 { d } else { -d }),
            (TANGENT, PLANE, _) => {
                let gap = solve::tangent_gap(ra, rb, r.offset, kind.flag == 1, true);
                (p + d * gap + u * s, u)
            }
            (TANGENT, _, _) => {
                let gap = solve::tangent_gap(ra, rb, r.offset, kind.flag == 1, false);
                (p + u * gap + if a == LINE { d * s } else { Vec3::ZERO }, n)
            }
            (JOINT, _, _) => {
                let along = match kind.joint {
                    0 | 1 => d * r.offset,
                    2 | 3 => d * s,
                    4 => d * r.offset + u * s,
                    _ => Vec3::ZERO,
                };
                (p + along, if kind.flag == 1 { d } else { -d })
            }
            _ => (self.position(), self.direction()),
        };
        let (mut first, mut second) = if swap { (second, first) } else { (first, second) };
        if kind.law == SYMMETRY {
            first = (p, d);
            let (s0, ns) = (self.position(), self.direction());
            second = (p - ns * (2.0 * (p - s0).dot(ns)), d - ns * (2.0 * d.dot(ns)));
            r.ends[2] = self.end(bodies[2], kind.prims[2], s0, ns);
        }
        r.ends[0] = self.end(bodies[0], kind.prims[0], first.0, first.1);
        r.ends[1] = self.end(bodies[1], kind.prims[1], second.0, second.1);
        (r.ends[0].radius, r.ends[1].radius) = (ra, rb);
        r.ends[0].mirrored = self.rng.below(2) as u8;
        r.ends[1].mirrored = self.rng.below(2) as u8;
        let axis = first.1.cross(second.1);
        let axis = if axis.len() > 0.1 { axis.normalized() } else { u };
        r.reference = list(self.frame(bodies[0]).dir_to_local(axis));
        let placed: Vec<_> = self.bodies.iter().map(body_of).collect();
        let open = rel_of(&r.cleared());
        if kind.law == JOINT {
            r.angle = solve::joint_reading(&open, &placed).1;
        }
        if kind.law == ANGLE {
            r.angle = solve::turn(first.1, second.1, axis);
        }
        r.cleared()
    }
}

/// A body's frame and centre moved by a motion.
pub fn moved(b: &mut Body, m: &Motion) {
    let turned = |v: [f64; 3]| list(m.r.apply(crate::plain::vec3(v)));
    let [o, x, y, z] = b.frame;
    let place = |v: [f64; 3]| list(m.r.apply(crate::plain::vec3(v)) + m.t);
    b.frame = [place(o), turned(x), turned(y), turned(z)];
    b.center = place(b.center);
}

/// Moves a body off the place where its relations hold.
pub fn displace(maker: &mut Maker, b: &mut Body) {
    let center = crate::plain::vec3(b.center);
    let (r, t) = match maker.rng.below(6) {
        0 => return,
        1 => (M3::exp(maker.direction() * 0.01), maker.position() * 0.01),
        2 => (M3::exp(maker.direction() * 0.4), maker.position() * 0.2),
        3 => (maker.turning(), maker.position()),
        // Half a turn, exact for lattice frames.
        4 => (rotation_between(Vec3::Z, -Vec3::Z), Vec3::ZERO),
        _ => {
            let [o, x, y, z] = b.frame;
            let neg = |v: [f64; 3]| v.map(|c| -c);
            b.frame = maker.rng.pick(&[[o, x, neg(y), neg(z)], [o, neg(x), y, neg(z)], [o, neg(x), neg(y), z]]);
            return;
        }
    };
    moved(b, &Motion { r, t: center - r.apply(center) + t });
}

/// Brings every double within its limit, and a NaN to 0.
pub fn limited(sheet: &mut Sheet) {
    let fit = |v: &mut f64, most: f64| *v = if v.is_nan() { 0.0 } else { v.clamp(-most, most) };
    for b in &mut sheet.bodies {
        b.frame[0].iter_mut().chain(&mut b.center).for_each(|v| fit(v, SIZE));
        b.frame[1..].as_flattened_mut().iter_mut().for_each(|v| fit(v, AXIS));
        fit(&mut b.size, SIZE);
    }
    for r in &mut sheet.relations {
        [&mut r.offset, &mut r.angle].into_iter().for_each(|v| fit(v, SIZE));
        r.reference.iter_mut().for_each(|v| fit(v, AXIS));
        for e in &mut r.ends {
            e.point.iter_mut().chain([&mut e.circle_radius, &mut e.radius]).for_each(|v| fit(v, SIZE));
            e.direction.iter_mut().for_each(|v| fit(v, AXIS));
        }
    }
}

/// Makes something odd of a valid sheet, which stays valid.
pub fn degrade(rng: &mut Rng, sheet: &mut Sheet) {
    let odd = |rng: &mut Rng| {
        rng.pick(&[
            0.0,
            -0.0,
            1e-7,
            1e-9,
            1e-12,
            1e-80,
            1e-155,
            1e-300,
            5e-324,
            -1.0,
            1.01,
            1000.0,
            -1000.0,
            0.5,
            std::f64::consts::PI,
            -std::f64::consts::PI,
        ])
    };
    for _ in 0..1 + rng.below(4) {
        let value = odd(rng);
        let count = sheet.relations.len();
        if count > 0 && !rng.one_in(3) {
            let r = &mut sheet.relations[rng.below(count)];
            let e = rng.below(3);
            let end = &mut r.ends[e];
            match rng.below(13) {
                0 => end.direction = [0.0; 3],
                1 => end.direction = [value; 3],
                2 => end.direction[rng.below(3)] = value,
                3 => end.direction = end.direction.map(|d| d * value),
                4 => end.point = [value; 3],
                5 => end.point[rng.below(3)] = value,
                6 => (end.circle_radius, end.radius) = (value, value),
                7 => end.prim = rng.below(4) as u8,
                8 => r.offset = value,
                9 => r.angle = value,
                10 => r.reference[rng.below(3)] = value,
                // A direction of nearly unit length: what slides along it is nearly free.
                11 => {
                    let near = 1.0 - rng.unit() * rng.pick(&[1e-5, 1e-6, 1e-7, 1e-8]);
                    r.ends.iter_mut().for_each(|e| e.direction = e.direction.map(|d| d * near));
                }
                _ => r.ends[1] = r.ends[0],
            }
        } else if !sheet.bodies.is_empty() {
            let at = rng.below(sheet.bodies.len());
            let b = &mut sheet.bodies[at];
            match rng.below(6) {
                0 => b.frame[1 + rng.below(3)] = [0.0; 3],
                1 => b.frame[1 + rng.below(3)] = [value; 3],
                2 => b.frame[rng.below(4)][rng.below(3)] = value,
                3 => b.frame = b.frame.map(|axis| axis.map(|v| v * value)),
                4 => b.center = [value; 3],
                _ => b.size = value,
            }
        }
    }
    for r in &mut sheet.relations {
        *r = r.cleared();
    }
    limited(sheet);
}

pub fn kind_count() -> usize {
    kinds().len()
}

/// One relation of the kind that the index names, and three bodies for its ends.
pub fn single(rng: &mut Rng, index: usize) -> (Relation, [Body; 3]) {
    let kinds = kinds();
    let style = if rng.one_in(3) { Style::Lattice } else { Style::Any };
    let mut maker = Maker { rng, style, bodies: Vec::new() };
    maker.bodies = (0..3).map(|_| maker.body()).collect();
    let on = |rng: &mut Rng, i: u16| if rng.one_in(4) { GROUND } else { i };
    let ends = [on(maker.rng, 0), on(maker.rng, 1), on(maker.rng, 2)];
    let relation = maker.relation(kinds[index % kinds.len()], ends);
    let mut bodies = maker.bodies.clone();
    bodies.iter_mut().for_each(|b| displace(&mut maker, b));
    let mut sheet = Sheet { bodies, relations: vec![relation] };
    limited(&mut sheet);
    if maker.rng.one_in(4) {
        degrade(maker.rng, &mut sheet);
        sheet.relations[0].ends[0].prim = relation.ends[0].prim;
        sheet.relations[0].ends[1].prim = relation.ends[1].prim;
        sheet.relations[0] = sheet.relations[0].cleared();
    }
    (sheet.relations[0], sheet.bodies.try_into().unwrap())
}

/// A valid sheet of up to `most` bodies.
pub fn sheet(rng: &mut Rng, index: usize, most: usize) -> Sheet {
    let style = if rng.one_in(3) { Style::Lattice } else { Style::Any };
    let kinds = kinds();
    let m = 1 + rng.below(most);
    let mut maker = Maker { rng, style, bodies: Vec::new() };
    let mut relations = Vec::new();
    // Each body is tied to an earlier one or to the ground, and put where that tie holds.
    for i in 0..m {
        let body = maker.body();
        maker.bodies.push(body);
        if i > 0 && maker.rng.one_in(6) {
            continue;
        }
        let kind = kinds[if i == 0 { index } else { maker.rng.below(kinds.len()) } % kinds.len()];
        let other = |rng: &mut Rng| if i == 0 || rng.one_in(4) { GROUND } else { rng.below(i) as u16 };
        let (a, plane) = (other(maker.rng), other(maker.rng));
        let relation = maker.relation(kind, [a, i as u16, plane]);
        if kind.law == JOINT {
            let placed: Vec<_> = maker.bodies.iter().map(body_of).collect();
            let motion = solve::snap(&placed, &rel_of(&relation));
            moved(&mut maker.bodies[i], &motion);
        }
        relations.push(relation);
    }
    // More relations between bodies that stand already.
    for _ in 0..maker.rng.below(m + 1) {
        let kind = kinds[maker.rng.below(kinds.len())];
        let any = |rng: &mut Rng| if rng.one_in(6) { GROUND } else { rng.below(m) as u16 };
        let ends = [any(maker.rng), any(maker.rng), any(maker.rng)];
        let relation = maker.relation(kind, ends);
        relations.push(relation);
    }
    let mut bodies = maker.bodies.clone();
    for (i, b) in bodies.iter_mut().enumerate() {
        if maker.rng.one_in(if i == 0 { 3 } else { 8 }) {
            b.fixed = 1;
        } else {
            displace(&mut maker, b);
        }
    }
    let mut sheet = Sheet { bodies, relations };
    limited(&mut sheet);
    if maker.rng.one_in(3) {
        degrade(maker.rng, &mut sheet);
    }
    sheet
}

/// One free body on lines of nearly unit length: a slide along such a line is resisted so little that what
/// `dof` finds free at once and one by one differs.
pub fn nearly_free(rng: &mut Rng) -> Sheet {
    let mut maker = Maker { rng, style: Style::Any, bodies: Vec::new() };
    let body = maker.body();
    maker.bodies.push(body);
    let mut relations = Vec::new();
    for _ in 0..1 + maker.rng.below(2) {
        let prims = maker.rng.pick(&[[LINE, POINT, PLANE], [POINT, LINE, PLANE], [LINE, LINE, PLANE]]);
        let law = maker.rng.pick(&[MATE, MATE, SYMMETRY]);
        let mut r = maker.relation(Kind { law, joint: 0, flag: 0, prims }, [GROUND, 0, GROUND]);
        let away = 10f64.powf(maker.rng.range(-7.4, -5.8));
        for e in &mut r.ends {
            e.direction = e.direction.map(|d| d * (1.0 - away));
            e.point = list(crate::plain::vec3(e.point) + maker.direction() * maker.rng.pick(&[0.0, 0.0, 1.0, 30.0]));
        }
        relations.push(r.cleared());
    }
    let mut sheet = Sheet { bodies: maker.bodies, relations };
    limited(&mut sheet);
    sheet
}

/// Sheets at the limits of counts, rows and numbers, and two found by search; all pass tests 1 to 7. `full` adds those that take seconds.
pub fn limits(full: bool) -> Vec<(&'static str, Sheet)> {
    let body = |x: f64| Body { frame: [[x, 0.0, 0.0], [1.0, 0.0, 0.0], [0.0, 1.0, 0.0], [0.0, 0.0, 1.0]], size: 2.0, ..Body::default() };
    let point = |body: u16, x: f64| End { prim: POINT, body, point: [x, 0.0, 0.0], ..End::default() };
    let mate = |a: End, b: End| Relation { ends: [a, b, End::default()], ..Relation::default() };
    let plane = |body: u16, z: f64| End { prim: PLANE, body, point: [0.0, 0.0, z], direction: [0.0, 0.0, 1.0], ..End::default() };
    let line = |body: u16| End { prim: LINE, body, direction: [1.0, 0.0, 0.0], ..End::default() };
    let rigid = Relation { law: JOINT, flag: 1, ends: [plane(GROUND, 0.0), plane(0, 0.0), End::default()], ..Relation::default() };
    let world = body(0.0);
    let example = Sheet { bodies: vec![world], relations: vec![mate(point(GROUND, 0.0), point(0, 0.0))] };
    // 114 rigid joints of 7 rows and one relation of 2 or 3 rows: 800 are iterated and hold at the end, 801 are not.
    let rows = |last: Relation| {
        let mut relations = vec![rigid; 114];
        relations.push(last);
        Sheet { bodies: vec![body(1.0), Body { fixed: 1, ..world }], relations }
    };
    // A normal so short that the damping is measured by its least figure, not by the slopes.
    let short_normal = End { direction: [0.0, 0.0, 1e-8], ..plane(GROUND, 0.0) };
    let short = Relation { offset: 1e-7, ..mate(short_normal, point(0, 0.5)) };
    let fixed_at = |x: f64| Sheet { bodies: vec![Body { fixed: 1, ..body(x) }], relations: vec![mate(point(GROUND, 0.0), point(0, 0.0))] };
    let within = 1e-9f64;
    let mut largest =
        Sheet { bodies: vec![Body { center: [SIZE; 3], size: SIZE, ..body(-SIZE) }], relations: vec![mate(plane(GROUND, SIZE), plane(0, -SIZE))] };
    largest.bodies[0].frame[1] = [AXIS, -AXIS, AXIS];
    let mut out = vec![
        ("nothing", Sheet::default()),
        ("the worked example", example.clone()),
        ("an unnamed free body", Sheet { bodies: vec![world], relations: vec![] }),
        ("a fixed point off by 1e-9", fixed_at(within)),
        ("a fixed point off by the next double", fixed_at(f64::from_bits(within.to_bits() + 1))),
        ("numbers at their limits", largest),
        ("64 unnamed bodies", Sheet { bodies: vec![world; 64], relations: vec![] }),
        ("128 relations of the ground", Sheet { bodies: vec![world], relations: vec![mate(point(GROUND, 0.0), point(GROUND, 0.0)); 128] }),
        ("half a turn off", Sheet { bodies: vec![world], relations: vec![mate(plane(GROUND, 0.0), plane(0, 0.0))] }),
        ("slopes of 1e-8", Sheet { bodies: vec![world], relations: vec![short] }),
        ("800 rows", rows(mate(plane(GROUND, 0.0), line(0)))),
        ("801 rows", rows(mate(point(GROUND, 0.0), point(0, 0.0)))),
    ];
    // Sheets found by search. In both `dof` counts a turn whose axis is zero: a slider joint that turns by
    // rounding alone, and a motion that turns by so little that its square is 0.
    out.push(("a turn without an axis", read(include_bytes!("../sheets/turn_without_axis.sheet")).unwrap()));
    out.push(("a turn at the centre", read(include_bytes!("../sheets/turn_at_centre.sheet")).unwrap()));
    if full {
        let chain = |i: u16| mate(point(if i == 0 { GROUND } else { i - 1 }, 0.5), point(i, -0.5));
        let links: Vec<Relation> = (0..64).map(chain).collect();
        out.push(("64 bodies in a chain", Sheet { bodies: (0..64).map(|i| body(i as f64)).collect(), relations: links }));
    }
    out
}

/// 64 bodies and 65, 128 relations and 129, with bytes to match.
pub fn counts() -> Vec<Sheet> {
    let body = Body { frame: [[0.0; 3], [1.0, 0.0, 0.0], [0.0, 1.0, 0.0], [0.0, 0.0, 1.0]], size: 2.0, ..Body::default() };
    let point = End { prim: POINT, body: GROUND, ..End::default() };
    let mate = Relation { ends: [point, point, End::default()], ..Relation::default() };
    let counts = [(64, 0), (65, 0), (0, 128), (0, 129), (64, 128), (65, 128), (64, 129)];
    counts.map(|(m, k)| Sheet { bodies: vec![body; m], relations: vec![mate; k] }).into()
}

/// Sheets of 64 bodies and 128 relations that take the Rust seconds, and the drags to solve them with.
pub fn large() -> Vec<(Sheet, Vec<u16>)> {
    let mut jammed = full(2, 0.01);
    let insert = jammed.relations[INSERT as usize];
    jammed.relations[MOST_RELATIONS - 1] = Relation { offset: insert.offset + 0.05, ..insert };
    vec![
        // Every law, near where all hold, and so far off that the second run alone finds the place.
        (full(1, 0.01), vec![GROUND, 63]),
        (full(3, 0.3), vec![GROUND]),
        // An insert twice, 0.05 mm apart.
        (jammed, vec![GROUND]),
        // 800 rows and 801.
        (most_rows([PLANE, LINE]), vec![7]),
        (most_rows([POINT, POINT]), vec![GROUND, 7]),
    ]
}

/// 64 bodies and 128 relations by seed. `choose` gives a relation's kind by its number. The first relations tie each body to an
/// earlier one or to the ground, the others any two. All hold together, and all bodies but two fixed ones stand off that place by
/// up to `off` millimetres and radians.
fn crowd(seed: u64, off: f64, mut choose: impl FnMut(&mut Rng, usize) -> Kind) -> Sheet {
    let mut rng = Rng(seed);
    let mut maker = Maker { rng: &mut rng, style: Style::Any, bodies: Vec::new() };
    maker.bodies = (0..MOST_BODIES).map(|_| maker.body()).collect();
    let place = |b: &Body| -> [f64; 12] {
        let [o, x, y, z] = b.frame;
        let row = |i: usize| [x[i], y[i], z[i]];
        [row(0), row(1), row(2), o].concat().try_into().unwrap()
    };
    let poses: Vec<[f64; 12]> = maker.bodies.iter().map(place).collect();
    let mut relations = Vec::new();
    while relations.len() < MOST_RELATIONS {
        let i = relations.len();
        let b = if i < MOST_BODIES { i } else { maker.rng.below(MOST_BODIES) };
        let other = |rng: &mut Rng| if b == 0 || rng.one_in(8) { GROUND } else { rng.below(b) as u16 };
        let ends = [other(maker.rng), b as u16, other(maker.rng)];
        let kind = choose(maker.rng, i);
        let relation = maker.relation(kind, ends);
        if tenon::lm::max_abs(&crate::plain::rows(&relation, &poses)) < 1e-10 {
            relations.push(relation);
        }
    }
    let mut bodies = maker.bodies.clone();
    for (i, b) in bodies.iter_mut().enumerate() {
        let center = crate::plain::vec3(b.center);
        let r = M3::exp(maker.direction() * maker.rng.range(0.0, off));
        let t = center - r.apply(center) + maker.direction() * maker.rng.range(0.0, off);
        if i % 40 == 0 {
            b.fixed = 1;
        } else {
            moved(b, &Motion { r, t });
        }
    }
    let mut sheet = Sheet { bodies, relations };
    limited(&mut sheet);
    sheet
}

/// The laws in turn, with any joint, flag and pair that suits, and a few that do not.
fn full(seed: u64, off: f64) -> Sheet {
    let kinds = kinds();
    let suits = |k: &Kind| {
        let r = Relation { law: k.law, ends: k.prims.map(|prim| End { prim, ..End::default() }), ..Relation::default() };
        let rel = rel_of(&r);
        solve::check(&rel.law, &rel.a.prim, &rel.b.prim).is_ok()
    };
    crowd(seed, off, |rng, i| {
        loop {
            let kind = rng.pick(&kinds);
            if kind.law as usize == i % 7 && (suits(&kind) || rng.one_in(100)) {
                return kind;
            }
        }
    })
}

/// 114 rigid joints of 7 rows, one mate, and 13 flush points, which have no rows.
fn most_rows(last: [u8; 2]) -> Sheet {
    crowd(7, 0.01, |_, i| {
        let (law, [a, b]) = match i {
            0..114 => (JOINT, [PLANE, PLANE]),
            114 => (MATE, last),
            _ => (FLUSH, [POINT, POINT]),
        };
        Kind { law, joint: 0, flag: 0, prims: [a, b, PLANE] }
    })
}

/// Sheets about the 8192 doubles that `report` lends: 8192 for `solve`, by an odd number of rows and by an even one, where two squares of R by R
/// would take over 9000; 8193 for `solve` alone; 8192 and 8194 for `dof` alone; less for `solve` where two squares would take 8194; and 64 bodies
/// with 128 relations that need less, where two squares would too, and where they would not. Each has so many mates of one row on so many bodies,
/// out of so many bodies and relations.
pub fn scratch_of_report() -> Vec<Sheet> {
    let mut rng = Rng(6);
    let mut made = |(rows, named, m, k): (usize, usize, usize, usize)| {
        let mut maker = Maker { rng: &mut rng, style: Style::Any, bodies: Vec::new() };
        maker.bodies = (0..m).map(|_| maker.body()).collect();
        let kind = |law, a| Kind { law, joint: 0, flag: 0, prims: [a, POINT, PLANE] };
        let relations = (0..k).map(|i| {
            let kind = if i < rows { kind(MATE, PLANE) } else { kind(FLUSH, POINT) };
            maker.relation(kind, [GROUND, (i % named) as u16, GROUND])
        });
        let relations = relations.collect();
        let mut bodies = maker.bodies.clone();
        bodies.iter_mut().for_each(|b| moved(b, &Motion { r: M3::exp(maker.direction() * 0.02), t: maker.direction() * 0.1 }));
        let mut sheet = Sheet { bodies, relations };
        limited(&mut sheet);
        sheet
    };
    let of_solve = [(57, 3, 52, 57), (64, 2, 20, 64), (62, 3, 20, 62)];
    let others = [(48, 8, 16, 48), (11, 9, 39, 11), (55, 4, 6, 55), (40, 5, 64, 128), (48, 5, 64, 128)];
    of_solve.into_iter().chain(others).map(&mut made).collect()
}

const ODD_DOUBLES: [u64; 10] = [
    0x8000000000000000, // −0
    0x7FF8000000000000, // NaN
    0xFFF0000000000001, // NaN
    0x7FF0000000000000, // ∞
    0x0000000000000001, // the smallest
    0x3FF028F5C28F5C29, // 1.01
    0x3FF028F5C28F5C2A, // the next
    0xC08F400000000000, // −1000
    0xC08F400000000001, // the next
    0x408F440000000000, // 1000.5
];

/// Sheets of one body and one relation, of every law with every primitive at every end: 53 words each.
pub fn field_bases() -> Vec<Sheet> {
    let mut rng = Rng(11);
    let mut maker = Maker { rng: &mut rng, style: Style::Any, bodies: Vec::new() };
    maker.bodies = vec![maker.body()];
    let mut out = Vec::new();
    for (law, prim) in (0..7).flat_map(|law| (0..4).map(move |prim| (law, prim))) {
        let kind = Kind { law, joint: prim, flag: prim % 2, prims: [prim, (prim + 2) % 4, (prim + 1) % 4] };
        let relation = maker.relation(kind, [GROUND, 0, 0]);
        out.push(Sheet { bodies: maker.bodies.clone(), relations: vec![relation] });
    }
    out
}

/// Words of such a sheet and what to put there instead, one at a time: each byte of the header and of the
/// records' first words, and for each double −0, NaN, its limits and the next doubles.
pub fn field_faults(words: &[u64]) -> Vec<(usize, u64)> {
    let mut out = Vec::new();
    for (i, word) in words.iter().enumerate() {
        if matches!(i, 0..=3 | 20 | 26 | 35 | 44) {
            for byte in 0..8 {
                // Bytes with values of their own, an end's body, and bytes that are to be 0.
                let values: &[u64] = match (i, byte) {
                    (0..=2, _) => &[1, 255],
                    (3, 0) | (20, 0..=2) | (26.., 0..=1) => &[0, 1, 2, 3, 4, 5, 6, 7],
                    (26.., 2..=3) => &[0, 1, 254, 255],
                    _ => &[1],
                };
                let changed = values.iter().map(|value| word & !(0xFF << (8 * byte)) | value << (8 * byte));
                out.extend(changed.filter(|c| c != word).map(|c| (i, c)));
            }
        } else {
            let sign = (i as u64 & 1) << 63;
            let limits = [AXIS, SIZE].map(f64::to_bits);
            let near = limits.iter().flat_map(|l| [sign | l, sign | (l + 1)]);
            out.extend(near.chain([1 << 63, f64::NAN.to_bits()]).map(|value| (i, value)));
        }
    }
    out
}

/// The bytes of a sheet with one fault, or something near a fault, put in.
fn damage(rng: &mut Rng, bytes: &mut Vec<u8>) {
    let half = |bytes: &[u8], at: usize| u16::from_le_bytes([bytes[at], bytes[at + 1]]) as usize;
    if bytes.len() < 24 || rng.one_in(12) {
        let n = rng.pick(&[0, 1, 22, 23, 24, 25, bytes.len().saturating_sub(1), bytes.len() + 1, bytes.len() + 264]);
        return bytes.resize(n, 0);
    }
    let (m, k) = (half(bytes, 2), half(bytes, 4));
    let records = bytes.len() >= 32;
    match rng.below(if records { 12 } else { 4 }) {
        // The header.
        0 => {
            let at = rng.pick(&[0, 1, 2, 3, 4, 5, 6, 7, 8, 11, 12, 13, 15, 16, 17, 19, 20, 23]);
            bytes[at] = bytes[at].wrapping_add(rng.pick(&[1, 255, 2, 128]));
        }
        1 => {
            let m = rng.pick(&[0, 1, 64, 65, 65535]);
            bytes[2..4].copy_from_slice(&(m as u16).to_le_bytes());
        }
        2 => {
            let k = rng.pick(&[0, 1, 128, 129, 65535]);
            bytes[4..6].copy_from_slice(&(k as u16).to_le_bytes());
        }
        3 => {
            // Counts, offsets and length that agree, with bytes to match.
            let (m, k) = rng.pick(&[(64u16, 128u16), (65, 0), (0, 129), (65, 129), (0, 0), (1, 0), (0, 1)]);
            let whole = Sheet { bodies: vec![Body::default(); m as usize], relations: vec![Relation::default(); k as usize] };
            *bytes = whole.bytes();
        }
        // Any byte of a record.
        4 => {
            let at = 24 + rng.below(bytes.len() - 24);
            bytes[at] ^= 1 << rng.below(8);
        }
        // A double of a record.
        5..=7 => {
            let at = 24 + 8 * rng.below((bytes.len() - 24) / 8);
            bytes[at..at + 8].copy_from_slice(&rng.pick(&ODD_DOUBLES).to_le_bytes());
        }
        // A relation's first bytes, or an end's.
        8..=10 if k > 0 && bytes.len() >= 24 + 136 * m + 264 * k => {
            let start = 24 + 136 * m + 264 * rng.below(k);
            let end = start + 48 + 72 * rng.below(3);
            match rng.below(6) {
                0 => bytes[start] = rng.below(9) as u8,
                1 => bytes[start + 1] = rng.below(8) as u8,
                2 => bytes[start + 2] = rng.below(4) as u8,
                3 => bytes[end] = rng.below(6) as u8,
                4 => bytes[end + 1] = rng.below(4) as u8,
                _ => {
                    let body = rng.pick(&[m, m.wrapping_sub(1), m + 1, 0, 65534, 65535, 255, 256]) as u16;
                    bytes[end + 2..end + 4].copy_from_slice(&body.to_le_bytes());
                }
            }
        }
        // A body's first bytes.
        _ if m > 0 && bytes.len() >= 24 + 136 * m => {
            let start = 24 + 136 * rng.below(m);
            bytes[start + rng.below(8)] = rng.pick(&[0, 1, 2, 255]);
        }
        _ => {}
    }
}

/// A sheet's bytes with one to three faults.
pub fn damaged(rng: &mut Rng, sheet: &Sheet) -> Vec<u8> {
    let mut bytes = sheet.bytes();
    for _ in 0..rng.pick(&[1, 1, 1, 2, 2, 3]) {
        damage(rng, &mut bytes);
    }
    bytes
}

/// What the calls of `solve` below name.
const NAMED: Option<Set> = Some(Set::TWO_HUNDRED);

/// Calls on a sheet with lengths and numbers at, just under and over what they must be.
/// `sheet` is what the bytes hold where they hold one.
pub fn calls(rng: &mut Rng, sheet: Option<&Sheet>) -> Vec<Call> {
    let (m, k) = sheet.map_or((1, 1), |s| (s.bodies.len(), s.relations.len()));
    let (solve, dof) = sheet.map_or((9, 9), whole::scratch);
    let near = |rng: &mut Rng, n: usize| match rng.below(12) {
        0 => n.saturating_sub(1),
        1 => n + 1,
        2 => n + 17,
        3 if rng.one_in(4) => 0,
        _ => n,
    };
    let number = |rng: &mut Rng, count: usize| match rng.below(10) {
        0 => count as u16,
        1 => rng.pick(&[65535, 65534, 256, count as u16 + 1]),
        _ => rng.below(count.max(1)) as u16,
    };
    let relation = number(rng, k);
    let drag = if rng.one_in(2) { GROUND } else { number(rng, m) };
    vec![
        Call::Judge { relation },
        Call::Reading { relation },
        Call::Snap { relation, motion: near(rng, 12) },
        Call::Solve { drag, set: NAMED, scratch: near(rng, solve), poses: near(rng, 12 * m), frames: near(rng, 12 * m), errors: near(rng, k) },
        Call::Dof { scratch: near(rng, dof), freedoms: near(rng, 29 * m) },
    ]
}

/// The same calls with nothing short, some lengths longer than they must be: every relation, and one drag.
pub fn good_calls(rng: &mut Rng, sheet: &Sheet) -> Vec<Call> {
    let (solve, dof) = whole::scratch(sheet);
    let (m, k) = (sheet.bodies.len(), sheet.relations.len());
    let drag = if rng.one_in(2) { GROUND } else { rng.below(m.max(1)) as u16 };
    let mut out = Vec::new();
    for relation in 0..k as u16 {
        out.extend([Call::Judge { relation }, Call::Reading { relation }, Call::Snap { relation, motion: 12 }]);
    }
    let drag = if m == 0 { GROUND } else { drag };
    let mut more = |n: usize| n + rng.pick(&[0, 0, 1, 17]);
    out.push(Call::Solve { drag, set: NAMED, scratch: more(solve), poses: more(12 * m), frames: more(12 * m), errors: more(k) });
    out.push(Call::Dof { scratch: more(dof), freedoms: more(29 * m) });
    out
}

/// All five calls on a sheet of one body and one relation, with enough lent.
pub fn calls_on_one() -> [Call; 5] {
    [
        Call::Judge { relation: 0 },
        Call::Reading { relation: 0 },
        Call::Snap { relation: 0, motion: 12 },
        Call::Solve { drag: GROUND, set: NAMED, scratch: 300, poses: 12, frames: 12, errors: 1 },
        Call::Dof { scratch: 300, freedoms: 29 },
    ]
}

/// Calls with exact lengths: those of every relation and of the number after the last, `solve` with each drag, and `dof`; and `solve`
/// and `dof` with each slice one double short.
pub fn exact_calls(sheet: &Sheet, drags: &[u16]) -> Vec<Call> {
    let (for_solve, for_dof) = whole::scratch(sheet);
    let (m, k) = (sheet.bodies.len(), sheet.relations.len());
    let mut out = Vec::new();
    for relation in 0..=k as u16 {
        out.extend([Call::Judge { relation }, Call::Reading { relation }, Call::Snap { relation, motion: 12 }]);
    }
    let need = [for_solve, 12 * m, 12 * m, k];
    let solve = |drag: u16, [scratch, poses, frames, errors]: [usize; 4]| Call::Solve { drag, set: NAMED, scratch, poses, frames, errors };
    out.extend(drags.iter().map(|drag| solve(*drag, need)));
    for i in 0..4 {
        let mut short = need;
        short[i] = short[i].saturating_sub(1);
        out.push(solve(GROUND, short));
    }
    let (scratch, freedoms) = (for_dof, 29 * m);
    out.extend([Call::Dof { scratch, freedoms }, Call::Dof { scratch, freedoms: freedoms.saturating_sub(1) }]);
    out.push(Call::Dof { scratch: scratch.saturating_sub(1), freedoms });
    out
}
