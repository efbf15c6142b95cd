//! What the comparisons must meet at the edges: lent lengths, drags, doubles at their limits, the most bodies, relations and rows.
//! Each function that begins with `want` enters its kinds at 0; the one after it counts them.

use crate::answer::{Answer, Call, FIVE, NAMES, Set};
use crate::cover::Cover;
use crate::sheet::*;
use crate::whole;
use std::sync::atomic::Ordering;

/// How often the Rust, with gears and without, has taken these branches in all.
pub fn taken<const N: usize>(branches: [&str; N]) -> [u64; N] {
    branches.map(|branch| {
        let at = tenon::NAMES.iter().position(|name| *name == branch).unwrap();
        tenon::COVER[at].load(Ordering::Relaxed) + tenon_gear::COVER[at].load(Ordering::Relaxed)
    })
}
/// How many rounds it has taken, and how many second runs.
pub fn rounds() -> [u64; 2] {
    taken(["lm::solve: round", "solve: tried again"])
}

/// What a call is lent: each slice's name, its length, what it must be at least, and the number that a shorter one is refused by.
fn slices(sheet: &Sheet, call: Call) -> Vec<(&'static str, usize, usize, u32)> {
    let ((solve, dof), m, k) = (whole::scratch(sheet), sheet.bodies.len(), sheet.relations.len());
    match call {
        Call::Judge { .. } | Call::Reading { .. } => vec![],
        Call::Snap { motion, .. } => vec![("motion", motion, 12, 10)],
        Call::Solve { scratch, poses, frames, errors, .. } => {
            vec![("scratch", scratch, solve, 9), ("poses", poses, 12 * m, 10), ("frames", frames, 12 * m, 10), ("errors", errors, k, 10)]
        }
        Call::Dof { scratch, freedoms } => vec![("scratch", scratch, dof, 9), ("freedoms", freedoms, 29 * m, 10)],
    }
}

/// The row counts that the scratch of `solve` is tried with. From 2 rows on a triangle with its diagonal is less than a square; of R and R + 1
/// the one that is even can be halved.
pub const ROW_COUNTS: [&str; 4] = ["no rows", "1 row", "an even number of rows", "an odd number of rows"];
/// The largest sheets that it is tried with.
pub const LARGEST: [&str; 2] = ["64 bodies and 128 relations", "800 rows"];

/// The scratch of `solve` on a sheet: what it needs, what two squares would take, and the sizes that the sheet is of.
pub struct Figure {
    pub need: usize,
    two_squares: usize,
    sizes: Vec<&'static str>,
}

impl Figure {
    pub fn of(sheet: &Sheet) -> Figure {
        let rows = whole::rows(sheet);
        let largest = [sheet.bodies.len() == MOST_BODIES && sheet.relations.len() == MOST_RELATIONS, rows == 800];
        let mut sizes = vec![ROW_COUNTS[if rows < 2 { rows } else { 2 + rows % 2 }]];
        sizes.extend(LARGEST.iter().zip(largest).filter(|(_, is)| *is).map(|(size, _)| *size));
        Figure { need: whole::scratch(sheet).0, two_squares: whole::two_squares(sheet), sizes }
    }
    /// The kinds that must be met for a size: just what is needed, from 2 rows on too short for two squares, and one double less.
    pub fn wanted(size: &str) -> [String; 2] {
        let exact = if ROW_COUNTS[..2].contains(&size) { "exact" } else { "exact and too short for two squares" };
        [format!("scratch {exact}, accepted, {size}"), format!("scratch one short, refused 9, {size}")]
    }
    /// The kinds that a call shows which is lent so much and gives a number.
    pub fn shown(&self, lent: usize, number: u32) -> Vec<String> {
        let how = match number {
            0 if lent == self.need && lent < self.two_squares => "exact and too short for two squares, accepted",
            0 if lent == self.need => "exact, accepted",
            9 if lent + 1 == self.need => "one short, refused 9",
            _ => return vec![],
        };
        self.sizes.iter().map(|size| format!("scratch {how}, {size}")).collect()
    }
}

impl Cover {
    /// On sheets with these row counts.
    pub fn want_lengths(&mut self, row_counts: &[&str]) {
        let lent = [
            Call::Snap { relation: 0, motion: 0 },
            Call::Solve { drag: GROUND, set: Some(Set::TWO_HUNDRED), scratch: 0, poses: 0, frames: 0, errors: 0 },
            Call::Dof { scratch: 0, freedoms: 0 },
        ];
        for call in lent {
            for (slice, _, _, number) in slices(&Sheet::default(), call) {
                let how = [format!("one short, refused {number}"), "exact, accepted".into(), "longer, accepted".into()];
                how.iter().for_each(|how| self.add(format!("{} {slice} {how}", call.name()), 0));
            }
        }
        row_counts.iter().flat_map(|rows| Figure::wanted(rows)).for_each(|kind| self.add(format!("solve_with {kind}"), 0));
        self.add("solve with drag, another answer than without".into(), 0);
    }
    /// A slice one short counts where nothing else is.
    pub fn lengths(&mut self, sheet: &Sheet, call: Call, answer: &Result<Answer, u32>) {
        let lent = slices(sheet, call);
        let short = lent.iter().filter(|(_, length, need, _)| length < need).count();
        for (slice, length, need, number) in lent {
            let how = match answer {
                Err(given) if *given == number && length + 1 == need && short == 1 => format!("one short, refused {number}"),
                Ok(_) if length == need && need > 0 => "exact, accepted".into(),
                Ok(_) if length > need => "longer, accepted".into(),
                _ => continue,
            };
            self.add(format!("{} {slice} {how}", call.name()), 1);
        }
        self.scratch(sheet, call, answer);
    }
    /// The scratch of `solve`.
    fn scratch(&mut self, sheet: &Sheet, call: Call, answer: &Result<Answer, u32>) {
        if let Call::Solve { scratch, .. } = call {
            let kinds = Figure::of(sheet).shown(scratch, answer.as_ref().err().copied().unwrap_or(0));
            kinds.iter().for_each(|kind| self.meet(&format!("{} {kind}", call.name())));
        }
    }

    pub fn want_doubles(&mut self) {
        for (call, limit) in FIVE.iter().flat_map(|call| [SIZE, AXIS].map(|limit| (NAMES[*call], limit))) {
            self.add(format!("{call} accepted, a double of {limit}"), 0);
            self.add(format!("{call} refused 7, the double after {limit}"), 0);
        }
    }
    /// A call on a sheet one of whose doubles is `double`; `with` gives the sheet with another in its place. An accepted limit counts
    /// where the double after it is refused, and that one where the limit is accepted.
    pub fn double(&mut self, double: f64, with: impl Fn(f64) -> Vec<u8>, call: Call, answer: &Result<Answer, u32>) {
        let beside = |by: i64| read(&with(f64::from_bits(double.to_bits().wrapping_add_signed(by)))).err();
        for limit in [SIZE, AXIS] {
            if double.abs() == limit && answer.is_ok() && beside(1) == Some(7) {
                self.add(format!("{} accepted, a double of {limit}", call.name()), 1);
            }
            if double.abs() == limit.next_up() && *answer == Err(7) && beside(-1).is_none() {
                self.add(format!("{} refused 7, the double after {limit}", call.name()), 1);
            }
        }
    }

    pub fn want_most(&mut self) {
        for call in FIVE.map(|call| NAMES[call]) {
            for size in ["64 bodies", "128 relations", "64 bodies and 128 relations"] {
                self.add(format!("{call} accepted, {size}"), 0);
            }
            self.add(format!("{call} refused 3, 65 bodies"), 0);
            self.add(format!("{call} refused 3, 129 relations"), 0);
        }
        for size in ["fewer bodies", "64 bodies and 128 relations"] {
            self.add(format!("solve of 800 rows iterated, {size}"), 0);
            self.add(format!("solve of 801 rows not iterated, {size}"), 0);
        }
        for how in ["converged", "converged by the second run", "not converged", "with drag"] {
            self.add(format!("solve iterated, {how}, 64 bodies and 128 relations"), 0);
        }
        LARGEST.iter().flat_map(|size| Figure::wanted(size)).for_each(|kind| self.add(format!("solve_with {kind}"), 0));
    }
    /// A call on a whole header and more, and how many rounds and second runs the Rust took for it.
    pub fn most(&mut self, bytes: &[u8], call: Call, answer: &Result<Answer, u32>, [rounds, again]: [u64; 2]) {
        let half = |at: usize| u16::from_le_bytes([bytes[at], bytes[at + 1]]) as usize;
        let (m, k) = (half(2), half(4));
        let (bodies, relations) = (m == MOST_BODIES, k == MOST_RELATIONS);
        let name = call.name();
        match answer {
            Err(3) if m == MOST_BODIES + 1 && k <= MOST_RELATIONS => self.add(format!("{name} refused 3, 65 bodies"), 1),
            Err(3) if m <= MOST_BODIES && k == MOST_RELATIONS + 1 => self.add(format!("{name} refused 3, 129 relations"), 1),
            _ => {}
        }
        if let (Call::Solve { .. }, Ok(sheet)) = (call, read(bytes)) {
            self.scratch(&sheet, call, answer);
        }
        let Ok(answer) = answer else { return };
        for (met, size) in [(bodies, "64 bodies"), (relations, "128 relations"), (bodies && relations, "64 bodies and 128 relations")] {
            self.add(format!("{name} accepted, {size}"), met as u64);
        }
        let (Answer::Solve { converged, .. }, Call::Solve { drag, .. }) = (answer, call) else { return };
        let size = if bodies && relations { "64 bodies and 128 relations" } else { "fewer bodies" };
        match (whole::rows(&read(bytes).unwrap()), rounds) {
            (800, 1..) => self.add(format!("solve of 800 rows iterated, {size}"), 1),
            // Where the relations hold at the start, no number of rows is iterated.
            (801, 0) if !converged => self.add(format!("solve of 801 rows not iterated, {size}"), 1),
            _ => {}
        }
        if bodies && relations && rounds > 0 {
            let how = match (converged, again) {
                (true, 0) => "converged",
                (true, _) => "converged by the second run",
                _ => "not converged",
            };
            self.add(format!("solve iterated, {how}, {size}"), 1);
            self.add(format!("solve iterated, with drag, {size}"), (drag != GROUND) as u64);
        }
    }

    pub fn want_report(&mut self) {
        self.add("report accepted".into(), 0);
        (1..=7).chain([9]).for_each(|number| self.add(format!("report refused {number}"), 0));
        for what in [
            "64 bodies and 128 relations",
            "64 bodies and 128 relations, over 8192 doubles for two squares",
            "8192 doubles for solve, more for two squares",
            "8194 doubles for two squares",
            "8192 doubles for dof",
        ] {
            self.add(format!("report accepted, {what}"), 0);
        }
        for what in ["64 bodies and 128 relations", "8193 doubles for solve alone", "8194 doubles for dof alone"] {
            self.add(format!("report refused 9, {what}"), 0);
        }
        self.add("report refused 4, input too long".into(), 0);
        self.want_named();
    }
    /// Inputs that tell `report`, which names 200 rounds, from one that names none.
    pub fn want_named(&mut self) {
        ["another error", "another flag"].iter().for_each(|what| self.add(format!("report accepted, {what} than without a set"), 0));
    }
    /// An input and what `report` is to print, beside what it would print without a set.
    pub fn named(&mut self, input: &[u8], text: &str) {
        let of = |text: &str, head: &str| text.lines().filter(|line| line.starts_with(head)).map(String::from).collect::<Vec<_>>();
        let without = whole::report_without(input);
        for (head, what) in [("relation", "another error"), ("converged", "another flag")] {
            if of(text, head) != of(&without, head) {
                self.add(format!("report accepted, {what} than without a set"), 1);
            }
        }
    }
    /// An input of `report` and what it is to print. What `dof` needs is even, and so are two squares: 8194 is the next after 8192.
    pub fn report(&mut self, input: &[u8], text: &str) {
        let said = text.lines().next().unwrap();
        let said = if said.starts_with("refused") { said } else { "accepted" };
        self.add(format!("report {said}"), 1);
        if input.len() > 42_521 {
            self.add(format!("report {said}, input too long"), 1);
        }
        self.named(input, text);
        let Ok(sheet) = read(input) else { return };
        let ((solve, dof), two_squares) = (whole::scratch(&sheet), whole::two_squares(&sheet));
        let most = sheet.bodies.len() == MOST_BODIES && sheet.relations.len() == MOST_RELATIONS;
        for (met, what) in [
            (most, "64 bodies and 128 relations"),
            (most && two_squares > 8192, "64 bodies and 128 relations, over 8192 doubles for two squares"),
            (solve == 8192 && two_squares > 8192, "8192 doubles for solve, more for two squares"),
            (two_squares == 8194, "8194 doubles for two squares"),
            (dof == 8192, "8192 doubles for dof"),
            (solve == 8193 && dof <= 8192, "8193 doubles for solve alone"),
            (solve <= 8192 && dof == 8194, "8194 doubles for dof alone"),
        ] {
            if met {
                self.add(format!("report {said}, {what}"), 1);
            }
        }
    }
}
