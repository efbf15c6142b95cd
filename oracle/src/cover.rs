//! Counts of what was tried: kinds of relations and bodies, refusals, branches of the Rust.

use crate::answer::{Answer, Call, FIVE, NAMES};
use crate::sheet::*;
use std::collections::BTreeMap;
use std::sync::atomic::Ordering;

pub const LAWS: [&str; 8] = ["mate", "flush", "angle", "insert", "tangent", "symmetry", "joint", "gear"];
pub const JOINTS: [&str; 6] = ["rigid", "revolute", "slider", "cylindrical", "planar", "ball"];
pub const PRIMS: [&str; 4] = ["plane", "line", "point", "circle"];
/// The refusals that each of the five calls can give where its set is in range.
const REFUSALS: [&[u32]; 5] = [
    &[1, 2, 3, 4, 5, 6, 7, 11, 12, 13, 14],
    &[1, 2, 3, 4, 5, 6, 7, 13, 14],
    &[1, 2, 3, 4, 5, 6, 7, 10, 13, 14],
    &[1, 2, 3, 4, 5, 6, 7, 8, 9, 10, 14],
    &[1, 2, 3, 4, 5, 6, 7, 9, 10, 14],
];

/// Branches that no sheet within the limits is known to reach. Rows and slopes stay finite there, so the first
/// five are for functions alone (the frozen lists reach the last three of them); the sixth needs a free motion
/// that is neither a slide nor a turn.
const OUT_OF_REACH: [&str; 6] = [
    "branch jacobian: slope not finite",
    "branch lm::solve: step too far, squares not finite",
    "branch max_abs: row not finite",
    "branch solve_dense: step not finite",
    "branch sym_eigen: 100 sweeps done",
    "branch body_dof: no extra slide",
];

#[derive(Default)]
pub struct Cover(BTreeMap<String, u64>);

impl Cover {
    /// All kinds of relations of laws 0 to 6, bodies, refusals and answers, at 0.
    pub fn new() -> Cover {
        let mut c = Cover::default();
        let flags = |law: usize| if matches!(law as u8, INSERT | TANGENT | JOINT) { 0..2 } else { 0..1 };
        for (law, name) in LAWS[..GEAR as usize].iter().enumerate() {
            for (a, b) in PRIMS.iter().flat_map(|a| PRIMS.iter().map(move |b| (a, b))) {
                flags(law).for_each(|f| c.add(format!("relation {name} flag {f} {a}-{b}"), 0));
            }
        }
        for j in JOINTS {
            for (f, a, b) in (0..8).map(|i| (i & 1, i >> 1 & 1, i >> 2)) {
                c.add(format!("joint {j} flip {f} mirrored {a}{b}"), 0);
            }
        }
        PRIMS.iter().for_each(|p| c.add(format!("symmetry plane is a {p}"), 0));
        ["a", "b", "plane"].iter().for_each(|e| c.add(format!("end {e} on the ground"), 0));
        ["fixed named", "fixed unnamed", "free named", "free unnamed"].iter().for_each(|b| c.add(format!("body {b}"), 0));
        c.want_calls();
        (0..4).flat_map(|s| (0..4).map(move |t| (s, t))).for_each(|(s, t)| c.add(format!("freedom {s} slides {t} turns"), 0));
        c
    }
    /// Each of the five calls accepted, refused by each number that it can give, and `solve` with each outcome.
    pub fn want_calls(&mut self) {
        for (call, refusals) in FIVE.map(|call| NAMES[call]).iter().zip(REFUSALS) {
            self.add(format!("call {call} accepted"), 0);
            refusals.iter().for_each(|r| self.add(format!("call {call} refused {r:2}"), 0));
        }
        ["solve converged", "solve not converged", "solve with drag"].iter().for_each(|s| self.add(s.to_string(), 0));
    }
    pub fn add(&mut self, what: String, n: u64) {
        *self.0.entry(what).or_insert(0) += n;
    }
    /// Counts a kind that is wanted; any other is left out.
    pub fn meet(&mut self, what: &str) {
        if let Some(n) = self.0.get_mut(what) {
            *n += 1;
        }
    }
    /// Whether a kind is wanted and was never met.
    pub fn lacks(&self, what: &str) -> bool {
        self.0.get(what) == Some(&0)
    }

    pub fn sheet(&mut self, s: &Sheet) {
        for r in &s.relations {
            let [a, b, _] = r.ends.map(|e| PRIMS[e.prim as usize]);
            self.add(format!("relation {} flag {} {a}-{b}", LAWS[r.law as usize], r.flag), 1);
            if r.law == JOINT {
                let key = format!("joint {} flip {} mirrored {}{}", JOINTS[r.joint as usize], r.flag, r.ends[0].mirrored, r.ends[1].mirrored);
                self.add(key, 1);
            }
            if r.law == SYMMETRY {
                self.add(format!("symmetry plane is a {}", PRIMS[r.ends[2].prim as usize]), 1);
            }
            for (e, name) in r.used_ends().iter().zip(["a", "b", "plane"]) {
                if e.body == GROUND {
                    self.add(format!("end {name} on the ground"), 1);
                }
            }
        }
        for (i, b) in s.bodies.iter().enumerate() {
            let named = s.relations.iter().any(|r| r.used_ends().iter().any(|e| e.body as usize == i));
            let name = if named { "named" } else { "unnamed" };
            self.add(format!("body {} {name}", if b.fixed == 1 { "fixed" } else { "free" }), 1);
        }
    }

    pub fn call(&mut self, call: Call, answer: &Result<Answer, u32>) {
        let name = call.name();
        match answer {
            Ok(_) => self.add(format!("call {name} accepted"), 1),
            Err(r) => self.add(format!("call {name} refused {r:2}"), 1),
        }
        match answer {
            Ok(Answer::Solve { converged, .. }) => {
                self.add(if *converged { "solve converged" } else { "solve not converged" }.into(), 1);
                if !matches!(call, Call::Solve { drag: GROUND, .. }) {
                    self.add("solve with drag".into(), 1);
                }
            }
            Ok(Answer::Dof { freedoms, .. }) => freedoms.chunks(29).for_each(|f| self.add(format!("freedom {} slides {} turns", f[0], f[1]), 1)),
            _ => {}
        }
    }

    /// How much of what is to be reached was.
    pub fn reached(&self) -> usize {
        self.0.values().filter(|n| **n > 0).count()
    }

    /// Enters how often the Rust took each of its branches.
    pub fn branches(&mut self) {
        for (name, count) in tenon::NAMES.iter().zip(&tenon::COVER) {
            self.add(format!("branch {name}"), count.load(Ordering::Relaxed));
        }
    }

    /// Prints all counts.
    pub fn print(&self) {
        for (what, n) in &self.0 {
            println!("{n:10}  {what}");
        }
    }

    /// Prints how much was reached and what never was; whether the latter is no more than what is out of reach.
    pub fn done(&self) -> bool {
        let never: Vec<&String> = self.0.iter().filter(|(_, n)| **n == 0).map(|(what, _)| what).collect();
        println!("kinds of cases: {} of {} reached", self.0.len() - never.len(), self.0.len());
        let known = |what: &str| OUT_OF_REACH.contains(&what);
        never.iter().for_each(|what| println!("never reached{}: {what}", if known(what) { ", as known" } else { "" }));
        never.iter().all(|what| known(what))
    }
}
