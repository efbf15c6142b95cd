//! Rigid and slider joints of many turns. `snap` turns B's axis onto A's, and then about it by the joint's angle less what it reads there; angles go
//! to 1000, so sine and cosine are taken of t over 64 (request 3/14). What the comparison must meet is entered at 0 by `want_turns`, and counted.

use crate::answer::{Answer, Call, bits};
use crate::arguments as args;
use crate::cover::{Cover, JOINTS, PRIMS};
use crate::generate::{Kind, Maker, Style, displace, limited};
use crate::plain::{body_of, rel_of};
use crate::rng::Rng;
use crate::sheet::*;
use arcs::rule;
use tenon::Vec3;
use tenon::math::{M3, rotation_between};
use tenon::solve::{self, Pose};

const RIGID: u8 = 0;
const SLIDER: u8 = 2;

/// How `snap` turns a joint: B's axis onto A's, then about that by the joint's angle less `now`.
struct Turn {
    onto: M3,
    axis: Vec3,
    now: f64,
}

impl Turn {
    fn of(r: &Relation, bodies: &[Body]) -> Turn {
        let rel = rel_of(r);
        let axes = |e: &solve::End| {
            let turning = e.body.map_or(M3::IDENTITY, |i| Pose::of(&body_of(&bodies[i]).frame).r);
            let frame = e.prim.joint_frame(e.mirrored);
            (turning.apply(frame.x), turning.apply(frame.z))
        };
        let ((xa, axis), (xb, zb)) = (axes(&rel.a), axes(&rel.b));
        let onto = rotation_between(zb, if r.flag == 1 { axis } else { -axis });
        Turn { onto, axis, now: solve::turn(xa, onto.apply(xb), axis) }
    }
    fn about(&self, angle: f64) -> Vec3 {
        self.axis * (angle - self.now)
    }
    /// How far it turns with this angle, below 0 backwards; the magnitude is the t of sine and cosine.
    fn by(&self, angle: f64) -> f64 {
        self.about(angle).len().copysign(angle - self.now)
    }
    /// The angle that turns it so far, if one of the doubles there does; else one of these.
    fn angle(&self, by: f64) -> f64 {
        let middle = self.now + by / self.axis.len();
        args::around(middle, 4).find(|angle| self.by(*angle) == by).unwrap_or(middle)
    }
    /// The turning of the motion with this angle.
    fn turning(&self, angle: f64) -> M3 {
        M3::exp(self.about(angle)).mul(&self.onto)
    }
}

/// An angle within its limits, by number: one that turns the joint by 64 or a double beside it, the limit itself, one that turns it by 64 to 1000,
/// and, twice, one that turns it by k·(T1 + T2) or a double beside that. There k goes through 10 to 159 in leaps, from 159 on.
fn angle(rng: &mut Rng, number: usize, turn: &Turn) -> f64 {
    let edge = args::turn_edges().nth((149 + number / 5 * 47) % 150).unwrap();
    loop {
        let near = |rng: &mut Rng, d: f64| rng.pick(&[d.next_down(), d, d.next_up()]);
        let by = match number % 5 {
            0 => near(rng, 64.0),
            1 => return rng.pick(&[SIZE, -SIZE]),
            2 => rng.range(64.0, SIZE),
            _ => near(rng, edge),
        };
        let angle = turn.angle(rng.pick(&[by, -by]));
        if angle.abs() <= SIZE {
            return angle;
        }
    }
}

/// After so many numbers every joint, flip, pair of mirrored bytes, pair of ends and sort of angle has met each of the others.
pub const NUMBERS: usize = 1280;

/// Three bodies, and the joints of these numbers, rigid and slider in turn, between each and the next. A body is fixed or free, or the ends that would
/// be on it are on the ground.
pub fn sheet(rng: &mut Rng, first: usize, joints: usize) -> Sheet {
    let style = if rng.one_in(3) { Style::Lattice } else { Style::Any };
    let mut maker = Maker { rng, style, bodies: Vec::new() };
    maker.bodies = (0..3).map(|_| maker.body()).collect();
    let stands = [first % 3, first / 3 % 3, maker.rng.below(3)];
    let mut relations = Vec::new();
    for i in 0..joints {
        let number = first + i;
        let joint = [RIGID, SLIDER][number % 2];
        let pair = (number / 2 % 16) as u8;
        let bytes = ((number / 32 % 8) as u8 + pair) % 8;
        let kind = Kind { law: JOINT, joint, flag: bytes & 1, prims: [pair / 4, pair % 4, PLANE] };
        let on = [i, i + 1].map(|body| if stands[body] == 0 { GROUND } else { body as u16 });
        let mut r = maker.relation(kind, [on[0], on[1], GROUND]);
        (r.ends[0].mirrored, r.ends[1].mirrored) = (bytes >> 1 & 1, bytes >> 2);
        relations.push(r);
    }
    let mut bodies = maker.bodies.clone();
    for (b, stand) in bodies.iter_mut().zip(stands) {
        displace(&mut maker, b);
        b.fixed = (stand == 1) as u8;
    }
    let mut sheet = Sheet { bodies, relations };
    limited(&mut sheet);
    for (i, r) in sheet.relations.iter_mut().enumerate() {
        r.angle = angle(maker.rng, first + i, &Turn::of(r, &sheet.bodies));
    }
    sheet
}

/// The joint of this number, and three bodies for its ends.
pub fn single(rng: &mut Rng, number: usize) -> (Relation, [Body; 3]) {
    let sheet = sheet(rng, number, 1);
    (sheet.relations[0], sheet.bodies.try_into().unwrap())
}

impl Cover {
    pub fn want_turns(&mut self) {
        for joint in [RIGID, SLIDER].map(|joint| JOINTS[joint as usize]) {
            let mut want = |by: &str| self.add(format!("snap of a {joint} joint by {by}"), 0);
            for way in ["forwards", "backwards"] {
                ["64 or less", "64", "the double after 64", "over 64", "over 64, angle 1000"].iter().for_each(|by| want(&format!("{by}, {way}")));
            }
            want("over 64, where the floor of t/T in doubles is another k");
            for (a, b) in PRIMS.iter().flat_map(|a| PRIMS.iter().map(move |b| (a, b))) {
                want(&format!("over 64, {a}-{b}"));
            }
            for (f, a, b) in (0..8).map(|i| (i & 1, i >> 1 & 1, i >> 2)) {
                want(&format!("over 64, flip {f} mirrored {a}{b}"));
            }
            for (end, on) in ["a", "b"].iter().flat_map(|end| ["the ground", "a fixed body", "a free body"].map(|on| (end, on))) {
                want(&format!("over 64, {end} on {on}"));
            }
        }
    }
    /// A call on a sheet of such joints, answered by the Rust. What `snap` is counted for is what it did: its turning must come of it.
    pub fn turned(&mut self, sheet: &Sheet, call: Call, answer: &Result<Answer, u32>) {
        let (Call::Snap { relation, .. }, Ok(Answer::Snap { motion })) = (call, answer) else { return };
        let r = &sheet.relations[relation as usize];
        let turn = Turn::of(r, &sheet.bodies);
        let turning = turn.turning(r.angle).0;
        assert!(motion.iter().zip(turning.as_flattened()).all(|(a, b)| bits(*a) == bits(*b)), "snap turned otherwise: {motion:?}");
        let by = turn.by(r.angle);
        let (t, way) = (by.abs(), if by > 0.0 { "forwards" } else { "backwards" });
        let mut count = |met: bool, by: &str| self.add(format!("snap of a {} joint by {by}", JOINTS[r.joint as usize]), met as u64);
        let over = t > 64.0;
        count(!over, &format!("64 or less, {way}"));
        count(t == 64.0, &format!("64, {way}"));
        count(t == 64f64.next_up(), &format!("the double after 64, {way}"));
        count(over, &format!("over 64, {way}"));
        count(over && r.angle.abs() == SIZE, &format!("over 64, angle 1000, {way}"));
        let floor = (t / rule::T).floor();
        count(over && floor != rule::turns(t) as f64, "over 64, where the floor of t/T in doubles is another k");
        let [a, b, _] = r.ends.map(|e| PRIMS[e.prim as usize]);
        count(over, &format!("over 64, {a}-{b}"));
        count(over, &format!("over 64, flip {} mirrored {}{}", r.flag, r.ends[0].mirrored, r.ends[1].mirrored));
        for (e, end) in r.used_ends().iter().zip(["a", "b"]) {
            let on = match sheet.bodies.get(e.body as usize) {
                None => "the ground",
                Some(b) if b.fixed == 1 => "a fixed body",
                _ => "a free body",
            };
            count(over, &format!("over 64, {end} on {on}"));
        }
    }
}
