//! Sheets with gears by seed: single gears at the edges of their fields, and small trains among other laws.
//! All pass tests 1 to 7 and 14 but those that `damaged` and `orders` make.

use crate::generate::{self, Maker, Style, degrade, displace, limited, moved};
use crate::plain::{list, vec3};
use crate::rng::Rng;
use crate::sheet::*;
use tenon::Vec3;
use tenon::math::M3;
use tenon::solve::Motion;

/// A relation of law 7 as the second program takes it.
fn gear_of(r: &Relation) -> gear::Gear {
    let end = |e: End| gear::End { point: e.point, direction: (e.prim != POINT).then_some(e.direction), mirrored: e.mirrored == 1 };
    gear::Gear { teeth: r.teeth, angle: r.angle, ends: r.ends.map(end) }
}

/// A gear's row with the bodies at these poses, each its turning by row, then its position.
pub fn worked(r: &Relation, poses: &[[f64; 12]]) -> gear::Worked {
    let turning = |e: End| poses.get(e.body as usize).map_or(gear::IDENTITY, |p| [0, 3, 6].map(|i| [p[i], p[i + 1], p[i + 2]]));
    gear_of(r).worked(&r.ends.map(turning))
}

/// The pose that a body's frame stands for.
pub fn pose_of(b: &Body) -> [f64; 12] {
    let [o, x, y, z] = b.frame;
    let row = |i: usize| [x[i], y[i], z[i]];
    [row(0), row(1), row(2), o].concat().try_into().unwrap()
}

fn teeth(rng: &mut Rng) -> u16 {
    if rng.one_in(3) { 1 + rng.below(MOST_TEETH as usize) as u16 } else { rng.pick(&[1, 2, 3, 12, 30, 200, 399, 400]) }
}

/// A double or one of its neighbours.
fn near(rng: &mut Rng, d: f64) -> f64 {
    rng.pick(&[d.next_down(), d, d.next_up()])
}

/// An axis of the world or its opposite, with zeros of either sign.
fn axis(rng: &mut Rng) -> [f64; 3] {
    let mut v = [(); 3].map(|()| rng.pick(&[0.0, -0.0]));
    v[rng.below(3)] = rng.pick(&[1.0, -1.0]);
    v
}
fn any(rng: &mut Rng, most: f64) -> [f64; 3] {
    [(); 3].map(|()| rng.range(-most, most))
}

/// An end's direction: along an axis, zero, about the length that a frame needs, about where a frame's X comes of the world's Y, or any.
fn direction(rng: &mut Rng) -> [f64; 3] {
    match rng.below(9) {
        0..=3 => axis(rng),
        4 => axis(rng).map(|v| v * 0.0),
        5 => {
            let short = rng.pick(&[1e-7, 1e-7, 1e-8, 1e-9, 1e-155, 5e-324]);
            let short = near(rng, short);
            axis(rng).map(|v| v * short)
        }
        6 => {
            let x = near(rng, 0.9);
            let mut v = [x, (1.0 - x * x).sqrt(), 0.0];
            v.iter_mut().for_each(|part| *part *= rng.pick(&[1.0, -1.0]));
            if rng.one_in(2) { [v[0], v[2], v[1]] } else { v }
        }
        _ => any(rng, AXIS),
    }
}

/// X, Y and Z of a frame: quarter turns with zeros of either sign, axes that are not square, any turning, the same askew, any entries.
fn axes(rng: &mut Rng) -> [[f64; 3]; 3] {
    let turning = |rng: &mut Rng| {
        let r = M3::exp(vec3(any(rng, 3.0)));
        [0, 1, 2].map(|i| list(r.col(i)))
    };
    match rng.below(8) {
        0..=3 => {
            let z = axis(rng);
            let at = z.iter().position(|v| *v != 0.0).unwrap();
            let mut x = axis(rng);
            while x[at] != 0.0 {
                x = axis(rng);
            }
            let y = list(vec3(z).cross(vec3(x)));
            [x, y.map(|v| if v == 0.0 { rng.pick(&[0.0, -0.0]) } else { v }), z]
        }
        4 => [(); 3].map(|()| axis(rng)),
        5 => turning(rng),
        6 => turning(rng).map(|v| v.map(|part| part * rng.range(0.5, 1.005))),
        _ => [(); 3].map(|()| any(rng, AXIS)),
    }
}

/// An angle for a gear whose teeth times turns are `total`: a row of 0 or about half a turn, an angle at its limits, or any.
fn angle(rng: &mut Rng, total: f64) -> f64 {
    use std::f64::consts::PI;
    let total = if total.abs() < SIZE - 4.0 { total } else { gear::wrap(total) };
    match rng.below(8) {
        0 => rng.pick(&[0.0, -0.0]),
        1 => {
            let half = rng.pick(&[PI, -PI]);
            near(rng, half)
        }
        2 => rng.pick(&[SIZE, -SIZE]),
        3 => near(rng, total),
        4 => {
            let half = rng.pick(&[total + PI, total - PI]);
            near(rng, half)
        }
        5 => rng.range(-SIZE, SIZE),
        _ => rng.range(-3.2, 3.2),
    }
}

/// A gear on these bodies with every field by chance.
fn loose(rng: &mut Rng, prims: [u8; 3], bodies: [u16; 3], placed: &[Body]) -> Relation {
    let mut r = Relation { law: GEAR, teeth: [teeth(rng), teeth(rng)], ..Relation::default() };
    r.ends = [0, 1, 2].map(|i| End {
        prim: prims[i],
        mirrored: rng.below(2) as u8,
        body: bodies[i],
        point: if rng.one_in(3) { [0.0; 3] } else { any(rng, 20.0) },
        direction: direction(rng),
        circle_radius: rng.pick(&[0.0, 1.0, -2.5]),
        radius: 0.0,
    });
    // At times two ends are the same geometry.
    if rng.one_in(4) {
        let (from, to) = rng.pick(&[(0, 1), (2, 0), (2, 1)]);
        r.ends[to] = End { prim: r.ends[to].prim, body: r.ends[to].body, ..r.ends[from] };
    }
    let mut r = r.cleared();
    let poses: Vec<_> = placed.iter().map(pose_of).collect();
    r.angle = angle(rng, worked(&r, &poses).difference);
    r
}

/// All triples of primitives, one after the other.
fn triple(index: usize) -> [u8; 3] {
    [index % 4, index / 4 % 4, index / 16 % 4].map(|prim| prim as u8)
}
fn any_triple(rng: &mut Rng) -> [u8; 3] {
    triple(rng.below(64))
}

/// One gear with the primitives that the index names, and three bodies for its ends, all fixed.
pub fn single(rng: &mut Rng, index: usize) -> (Relation, [Body; 3]) {
    let bodies = [(); 3].map(|()| {
        let [x, y, z] = axes(rng);
        Body { fixed: 1, frame: [any(rng, 20.0), x, y, z], center: any(rng, 20.0), size: rng.pick(&[0.0, 2.0, 3.0, 10.0]) }
    });
    let on = [0, 1, 2].map(|own| match rng.below(8) {
        0 | 1 => GROUND,
        2 => rng.below(3) as u16,
        _ => own,
    });
    let r = loose(rng, triple(index), on, &bodies);
    (r, bodies)
}

/// Ties b to a so that it may turn about a line of the assembly, by a joint or by mates.
fn axle(maker: &mut Maker, a: u16, b: u16, p: Vec3, d: Vec3) -> Vec<Relation> {
    let (along, flag) = (maker.number(3.0), maker.rng.below(2) as u8);
    let [pa, pb] = [(); 2].map(|()| maker.rng.pick(&[PLANE, LINE, CIRCLE]));
    let q = p + d * along;
    let mut tie = |law: u8, [pa, pb]: [u8; 2], joint: u8, d_b: Vec3| {
        let ends = [maker.end(a, pa, p, d), maker.end(b, pb, q, d_b), End::default()];
        Relation { law, joint, flag, offset: along, angle: 0.25, ends, ..Relation::default() }.cleared()
    };
    let facing = if flag == 1 { d } else { -d };
    match tie(JOINT, [pa, pb], 1, facing) {
        revolute if maker.rng.one_in(2) => vec![revolute],
        revolute if maker.rng.one_in(2) => vec![Relation { joint: 3, ..revolute }],
        _ => {
            let line = maker.end(b, LINE, q, d);
            let mates = [(LINE, line), (PLANE, maker.end(b, POINT, q, d))].map(|(prim, end)| {
                let ends = [maker.end(a, prim, p, d), end, End::default()];
                Relation { law: MATE, offset: along, ends, ..Relation::default() }.cleared()
            });
            mates.into()
        }
    }
}

/// A gear of two wheels about lines along d that holds where the bodies stand.
fn mesh(maker: &mut Maker, bodies: [u16; 3], points: [Vec3; 3], d: Vec3) -> Relation {
    let prims = any_triple(maker.rng);
    let mut r = Relation { law: GEAR, teeth: [teeth(maker.rng), teeth(maker.rng)], ..Relation::default() };
    r.ends = [0, 1, 2].map(|i| {
        let along = if maker.rng.one_in(2) { d } else { -d };
        End { mirrored: maker.rng.below(2) as u8, ..maker.end(bodies[i], prims[i], points[i], along) }
    });
    let mut r = r.cleared();
    let poses: Vec<_> = maker.bodies.iter().map(pose_of).collect();
    r.angle = gear::wrap(worked(&r, &poses).difference);
    r
}

/// Turns a body about a line of the assembly.
fn turn(maker: &mut Maker, b: &mut Body, p: Vec3, d: Vec3) {
    let by = match maker.rng.below(4) {
        0 => 0.0,
        1 => maker.rng.range(-0.02, 0.02),
        2 => maker.rng.range(-3.0, 3.0),
        _ => std::f64::consts::PI,
    };
    let r = M3::exp(d * by);
    moved(b, &Motion { r, t: p - r.apply(p) });
}

/// Wheels on lines of one direction, each meshing with the one before. They turn on the ground, on a fixed body, or on an arm that turns
/// itself, and that is the carrier. All hold together; then the wheels, the arm too, are turned or displaced.
fn train(rng: &mut Rng) -> Sheet {
    let style = if rng.one_in(3) { Style::Lattice } else { Style::Any };
    let mut maker = Maker { rng, style, bodies: Vec::new() };
    let (p, d) = (maker.position(), maker.direction());
    let on = maker.rng.below(3);
    let carrier = if on == 0 { GROUND } else { 0 };
    let (mut relations, mut lines) = (Vec::new(), Vec::new());
    if on > 0 {
        let body = maker.body();
        maker.bodies.push(Body { fixed: (on == 1) as u8, ..body });
        lines.push(p);
        if on == 2 {
            relations.extend(axle(&mut maker, GROUND, 0, p, d));
        }
    }
    let first = maker.bodies.len();
    for _ in 0..2 + maker.rng.below(2) {
        let body = maker.body();
        maker.bodies.push(body);
        lines.push(maker.position());
        let i = maker.bodies.len() - 1;
        relations.extend(axle(&mut maker, carrier, i as u16, lines[i], d));
    }
    for i in first + 1..maker.bodies.len() {
        let gear = mesh(&mut maker, [i as u16 - 1, i as u16, carrier], [lines[i - 1], lines[i], p], d);
        relations.push(gear);
    }
    // At times the first wheel rolls in one of the ground, and at times the last gear stands twice, by another angle: a jam.
    if maker.rng.one_in(3) {
        let gear = mesh(&mut maker, [GROUND, first as u16, carrier], [p, lines[first], p], d);
        relations.push(gear);
    }
    if maker.rng.one_in(6) {
        let last = relations[relations.len() - 1];
        relations.push(Relation { angle: gear::wrap(last.angle + 0.5), ..last });
    }
    let mut bodies = maker.bodies.clone();
    for (b, p) in bodies.iter_mut().zip(lines) {
        if b.fixed == 0 {
            turn(&mut maker, b, p, d);
            if maker.rng.one_in(4) {
                displace(&mut maker, b);
            }
        }
    }
    Sheet { bodies, relations }
}

/// Gears alone, on up to four bodies, some fixed; at times the carrier is all that names a body.
fn alone(rng: &mut Rng) -> Sheet {
    let style = if rng.one_in(3) { Style::Lattice } else { Style::Any };
    let mut maker = Maker { rng, style, bodies: Vec::new() };
    maker.bodies = (0..1 + maker.rng.below(4)).map(|_| maker.body()).collect();
    maker.bodies.iter_mut().for_each(|b| b.fixed = maker.rng.one_in(5) as u8);
    let (m, rng) = (maker.bodies.len(), maker.rng);
    let relations = (0..1 + rng.below(3)).map(|_| {
        let on = |rng: &mut Rng| if rng.one_in(4) { GROUND } else { rng.below(m) as u16 };
        let bodies = if rng.one_in(4) { [GROUND, GROUND, rng.below(m) as u16] } else { [on(rng), on(rng), on(rng)] };
        let prims = any_triple(rng);
        loose(rng, prims, bodies, &maker.bodies)
    });
    Sheet { relations: relations.collect(), bodies: maker.bodies }
}

/// A sheet of laws 0 to 6 with one or two gears among its relations.
fn mixed(rng: &mut Rng, index: usize) -> Sheet {
    let mut sheet = generate::sheet(rng, index, 3);
    for _ in 0..1 + rng.below(2) {
        let m = sheet.bodies.len();
        let bodies = [(); 3].map(|()| if rng.one_in(4) { GROUND } else { rng.below(m) as u16 });
        let prims = any_triple(rng);
        let gear = loose(rng, prims, bodies, &sheet.bodies);
        sheet.relations.insert(rng.below(sheet.relations.len() + 1), gear);
    }
    sheet
}

/// A valid sheet with a gear.
pub fn sheet(rng: &mut Rng, index: usize) -> Sheet {
    let mut sheet = match index % 4 {
        0 | 1 => train(rng),
        2 => alone(rng),
        _ => mixed(rng, index / 4 * 7),
    };
    limited(&mut sheet);
    if rng.one_in(4) {
        degrade(rng, &mut sheet);
    }
    sheet
}

/// 64 bodies and 128 gears that hold together, the bodies then turned a little.
pub fn full() -> Sheet {
    let mut rng = Rng(1);
    let mut maker = Maker { rng: &mut rng, style: Style::Any, bodies: Vec::new() };
    maker.bodies = (0..MOST_BODIES).map(|_| maker.body()).collect();
    let d = maker.direction();
    let relations = (0..MOST_RELATIONS).map(|i| {
        let a = (i % MOST_BODIES) as u16;
        let b = if i < MOST_BODIES { (a + 1) % MOST_BODIES as u16 } else { GROUND };
        mesh(&mut maker, [a, b, GROUND], [Vec3::ZERO; 3], d)
    });
    let relations = relations.collect();
    let mut bodies = maker.bodies.clone();
    for b in &mut bodies {
        let (r, p) = (M3::exp(d * maker.rng.range(-1e-3, 1e-3)), vec3(b.center));
        moved(b, &Motion { r, t: p - r.apply(p) });
    }
    let mut sheet = Sheet { bodies, relations };
    limited(&mut sheet);
    sheet
}

/// Sheets of one body and one gear, with every primitive at every end: 53 words each.
pub fn field_bases() -> Vec<Sheet> {
    let mut rng = Rng(12);
    let mut maker = Maker { rng: &mut rng, style: Style::Any, bodies: Vec::new() };
    maker.bodies = vec![maker.body()];
    let base = |prim: u8| {
        let points = [(); 3].map(|()| maker.position());
        let d = maker.direction();
        let mut r = mesh(&mut maker, [GROUND, 0, 0], points, d);
        for (i, end) in r.ends.iter_mut().enumerate() {
            let prim = (prim + [0, 2, 1][i]) % 4;
            *end = End { mirrored: end.mirrored, ..maker.end(end.body, prim, points[i], d) };
        }
        Sheet { bodies: maker.bodies.clone(), relations: vec![r.cleared()] }
    };
    (0..4).map(base).collect()
}

/// The word of such a sheet that holds the law, joint and flag bytes and the teeth.
const LAW_WORD: usize = 20;

/// A relation's first word with this law and these teeth.
fn with_teeth(word: u64, law: u8, [a, b]: [u64; 2]) -> u64 {
    word & 0xFFFFFF00 | law as u64 | a << 32 | b << 48
}

/// What `generate::field_faults` leaves of a sheet of one relation: the law after the last, and the teeth of each wheel at their limits.
fn teeth_faults(words: &[u64]) -> Vec<(usize, u64)> {
    let word = words[LAW_WORD];
    let law = word as u8;
    let [a, b] = [word >> 32 & 0xFFFF, word >> 48];
    let counts = [0, 1, 2, 255, 256, 399, 400, 401, 402, 512, 656, 32768, 65535];
    let one_wheel = counts.iter().flat_map(|n| [[*n, b], [a, *n]]);
    let both = [[0, 0], [1, 1], [400, 400], [401, 401], [0, 401], [12, 30], [400, 0]];
    let mut out: Vec<u64> = one_wheel.chain(both).map(|teeth| with_teeth(word, law, teeth)).collect();
    // A gear of another law's fields, and any law with a gear's.
    out.extend([[0, 0], [12, 30], [401, 30]].map(|teeth| with_teeth(word, GEAR, teeth)));
    out.extend((0..GEAR).chain([8, 9, 128, 255]).flat_map(|law| [with_teeth(word, law, [a, b]), with_teeth(word, law, [0, 0])]));
    let mut seen = std::collections::BTreeSet::from([word]);
    out.into_iter().filter(|changed| seen.insert(*changed)).map(|changed| (LAW_WORD, changed)).collect()
}

/// Three of these sheets with a fault of the gear each: refused by 14, by 6 and by 7.
fn spoiled_bases() -> Vec<Sheet> {
    let spoiled = |(mut s, number): (Sheet, u32)| {
        spoil(&mut s.relations[0], number);
        s
    };
    field_bases().into_iter().zip([14, 6, 7]).map(spoiled).collect()
}

/// A sheet of one body and a mate of two points without offset. Its relation is 0 but for ends a and b, so that law and teeth alone decide.
fn bare() -> Sheet {
    let point = |body: u16| End { prim: POINT, body, ..End::default() };
    let mate = Relation { ends: [point(GROUND), point(0), End::default()], ..Relation::default() };
    Sheet { bodies: field_bases().remove(0).bodies, relations: vec![mate] }
}

/// Every change that is tried about gears, with the sheet of one relation that it is made to: in gears, valid and spoiled, each field and
/// law and teeth; in other laws law and teeth.
pub fn changes() -> Vec<(Sheet, Vec<(usize, u64)>)> {
    let words = |s: &Sheet| crate::lists::record_words(&s.bytes());
    let with_fields = |s: Sheet| [(s.clone(), generate::field_faults(&words(&s))), (s.clone(), teeth_faults(&words(&s)))];
    let with_teeth = |s: Sheet| (s.clone(), teeth_faults(&words(&s)));
    let gears = [field_bases(), spoiled_bases()].concat();
    gears.into_iter().flat_map(with_fields).chain(generate::field_bases().into_iter().chain([bare()]).map(with_teeth)).collect()
}

/// Puts the fault that a refusal's number names into a gear.
fn spoil(r: &mut Relation, number: u32) {
    match number {
        5 => r.flag = 1,
        14 => r.teeth[0] = 0,
        6 => r.ends[2].body = MOST_BODIES as u16,
        _ => r.angle = SIZE.next_up(),
    }
}

/// The tests of a relation in their order.
pub const ORDER: [u32; 4] = [5, 14, 6, 7];

/// Sheets of two gears with faults, each the numbers whose faults the first gear has and the second has: all sets of faults in one gear,
/// and one fault in each.
pub fn orders() -> Vec<([Vec<u32>; 2], Sheet)> {
    let base = field_bases().remove(0);
    let one_each = ORDER.iter().flat_map(|i| ORDER.iter().map(|j| [vec![*i], vec![*j]]));
    let sets = (1..16).map(|set| [ORDER.iter().enumerate().filter(|(i, _)| set >> i & 1 == 1).map(|(_, n)| *n).collect(), vec![]]);
    let made = |faults: [Vec<u32>; 2]| {
        let mut s = base.clone();
        s.relations.push(s.relations[0]);
        for (r, numbers) in s.relations.iter_mut().zip(&faults) {
            numbers.iter().for_each(|number| spoil(r, *number));
        }
        (faults, s)
    };
    sets.chain(one_each).map(made).collect()
}

/// A sheet's bytes with a gear's first bytes changed, or with any fault.
pub fn damaged(rng: &mut Rng, sheet: &Sheet) -> Vec<u8> {
    let mut s = sheet.clone();
    if rng.one_in(3) {
        return generate::damaged(rng, &s);
    }
    let gears: Vec<usize> = (0..s.relations.len()).filter(|i| s.relations[*i].law == GEAR).collect();
    for _ in 0..rng.pick(&[1, 1, 2]) {
        let r = &mut s.relations[rng.pick(&gears)];
        match rng.below(8) {
            0..=3 => r.teeth[rng.below(2)] = rng.pick(&[0, 1, 400, 401, 402, 65535]),
            4 => r.law = rng.below(10) as u8,
            5 => spoil(r, 5),
            6 => spoil(r, 6),
            _ => spoil(r, 7),
        }
    }
    if rng.one_in(4) { generate::damaged(rng, &s) } else { s.bytes() }
}
