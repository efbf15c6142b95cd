//! What `solve` is asked with a set of parameters (parameters.rs): every value at the edges of a range, the order of the tests, row limits about a
//! sheet's rows, rounds about those that it takes, tolerances about its errors, drags, sets by chance, and just the scratch that a sheet needs.

use crate::answer::{Call, Set, words};
use crate::compare::kept;
use crate::cover::LAWS;
use crate::generate;
use crate::parameters::{Asked, OTHERS, SLICES, Trials, With, named, of_rows, rounds_of_runs};
use crate::plain::{list, vec3};
use crate::rng::Rng;
use crate::sets::{self, LEAST_TOLERANCE, MOST_ROWS, MOST_TOLERANCE};
use crate::sheet::*;
use crate::{trains, whole};
use tenon::math::M3;

/// A free body in the middle, 2 mm large.
pub fn body() -> Body {
    Body { frame: [[0.0; 3], [1.0, 0.0, 0.0], [0.0, 1.0, 0.0], [0.0, 0.0, 1.0]], size: 2.0, ..Body::default() }
}
fn end(prim: u8, body: u16) -> End {
    End { prim, body, direction: [0.0, 0.0, if prim == POINT { 0.0 } else { 1.0 }], ..End::default() }
}
fn tie(law: u8, [a, b]: [u8; 2]) -> Relation {
    let flag = (law == JOINT) as u8;
    Relation { law, flag, ends: [end(a, GROUND), end(b, 0), End::default()], ..Relation::default() }
}

/// A body 0.25 mm off where its relations hold: rigid joints, of seven rows, and mates of a plane and a point, of one.
pub fn of_many_rows(rows: usize) -> Sheet {
    let relations = [vec![tie(JOINT, [PLANE, PLANE]); rows / 7], vec![tie(MATE, [PLANE, POINT]); rows % 7]].concat();
    let mut sheet = Sheet { bodies: vec![body()], relations };
    sheet.bodies[0].frame[0] = [0.0, 0.0, 0.25];
    sheet
}

/// A body's point so far off the ground's.
pub fn off_by(fixed: u8, by: f64) -> Sheet {
    let mut sheet = Sheet { bodies: vec![Body { fixed, ..body() }], relations: vec![tie(MATE, [POINT, POINT])] };
    sheet.bodies[0].frame[0][0] = by;
    sheet
}

/// A body that stands off its rigid joint by so much of the second run's slight turn, backwards.
pub fn turned_back(by: f64) -> Sheet {
    let turning = M3::exp(vec3([0.05, -0.03, 0.07]) * -by);
    let mut sheet = Sheet { bodies: vec![body()], relations: vec![tie(JOINT, [PLANE, PLANE])] };
    (0..3).for_each(|i| sheet.bodies[0].frame[1 + i] = list(turning.col(i)));
    sheet
}

/// A sheet that the test of a number refuses.
pub fn spoiled(base: &Sheet, number: u32) -> Vec<u8> {
    let mut sheet = base.clone();
    match number {
        5 => sheet.bodies[0].fixed = 2,
        6 => sheet.relations[0].ends[2].body = sheet.bodies.len() as u16,
        7 => sheet.bodies[0].size = SIZE.next_up(),
        14 => sheet.relations[0].teeth[1] = MOST_TEETH + 1,
        _ => {}
    }
    let mut bytes = sheet.bytes();
    match number {
        1 => bytes.truncate(23),
        2 => bytes[0] = 2,
        3 => bytes[2] = MOST_BODIES as u8 + 1,
        4 => bytes[16] += 1,
        _ => {}
    }
    bytes
}

/// Adds a relation of the sheet once more, off by one of these: a jam. Where it may be aside, every third has the point of its end b off too.
pub fn jammed(rng: &mut Rng, mut sheet: Sheet, offs: &[f64], aside: bool) -> Sheet {
    if !sheet.relations.is_empty() && sheet.relations.len() < MOST_RELATIONS {
        let mut relation = rng.pick(&sheet.relations);
        let by = rng.pick(offs);
        (relation.offset, relation.angle) = (relation.offset + by, relation.angle + by);
        if aside && rng.one_in(3) {
            relation.ends[1].point[rng.below(3)] += by;
        }
        sheet.relations.push(relation.cleared());
        generate::limited(&mut sheet);
    }
    sheet
}

/// A sheet by its number, every third with gears.
pub fn drawn(rng: &mut Rng, i: usize) -> Sheet {
    let sheet = match i % 6 {
        1 | 4 => trains::sheet(rng, i / 3),
        5 if rng.one_in(3) => generate::nearly_free(rng),
        _ => generate::sheet(rng, i - i / 3, if i % 20 == 0 { 4 } else { 2 }),
    };
    if i % 5 == 3 { jammed(rng, sheet, &[1e-3, 1e-4, 1e-6, 1e-8, 1e-10], false) } else { sheet }
}

impl Trials<'_> {
    fn drag(&mut self, sheet: &Sheet) -> u16 {
        if sheet.bodies.is_empty() || self.rng.one_in(2) { GROUND } else { self.rng.below(sheet.bodies.len()) as u16 }
    }
    fn with(&mut self, sheet: &Sheet) -> With {
        (self.drag(sheet), sets::drawn(&mut self.rng, whole::rows(sheet)))
    }
    /// The set with refused values of the parameters that the bits name.
    fn spoiled(&mut self, set: Set, bad: usize) -> Set {
        (0..4).filter(|p| bad >> p & 1 == 1).fold(set, |set, p| sets::with(set, p, sets::bad(&mut self.rng, p)))
    }

    /// Each parameter with every value at the edges of its range, and every choice of bad parameters.
    fn ranges(&mut self, sheet: &Sheet) {
        for p in 0..4 {
            for value in sets::accepted(p).into_iter().chain(sets::refused(p)) {
                let (drag, set) = self.with(sheet);
                let asked = self.solve(sheet, (drag, sets::with(set, p, value)));
                self.meet(&sets::kind(p, value, &asked.said()), &asked);
            }
        }
        for bad in 1..16 {
            let (drag, set) = self.with(sheet);
            let set = self.spoiled(set, bad);
            let asked = self.solve(sheet, (drag, set));
            self.meet(&format!("{}, a bad {} alone", asked.said(), named(bad)), &asked);
        }
    }

    /// The tests before 15, and those after it, each with no parameter bad, one, and all.
    fn order(&mut self) {
        let base = trains::field_bases().remove(0);
        let need = [whole::scratch(&base).0, 12, 12, 1];
        let sheets = [1, 2, 3, 4, 5, 6, 7, 14].map(|number| spoiled(&base, number)).into_iter().map(|bytes| (bytes, GROUND));
        let drags = [1, 64, 256, 65534].map(|drag| (base.bytes(), drag)).into_iter();
        for (bytes, drag) in sheets.chain(drags).flat_map(|(bytes, drag)| [(bytes.clone(), drag), (bytes, 1)]) {
            for lent in [need, [0; 4]] {
                self.each_bad(&bytes, drag, lent, "");
            }
        }
        let bytes = base.bytes();
        for (i, slice) in SLICES.iter().enumerate() {
            let mut short = need;
            short[i] -= 1;
            self.each_bad(&bytes, GROUND, short, &format!(", {slice} short"));
        }
        self.each_bad(&bytes, 0, need.map(|n| n - 1), ", every slice short");
        self.each_bad(&bytes, 0, [0; 4], ", every slice short");
    }
    fn each_bad(&mut self, bytes: &[u8], drag: u16, [scratch, poses, frames, errors]: [usize; 4], short: &str) {
        for bad in [0, 1, 2, 4, 8, 15] {
            let set = sets::drawn(&mut self.rng, 1);
            let set = self.spoiled(set, bad);
            let asked = self.call(bytes, Call::Solve { drag, set: Some(set), scratch, poses, frames, errors });
            let of = if bad == 0 { "a good set".into() } else { format!("a bad {}", named(bad)) };
            self.meet(&format!("{}, {of}{short}", asked.said()), &asked);
        }
    }

    /// A call without a set, and the plain set; then 200 rounds, which is given back.
    fn named(&mut self, sheet: &Sheet, drag: u16) -> Asked {
        let call = self.lent(sheet, drag, None);
        let bare = self.call(&sheet.bytes(), call);
        let Call::Solve { scratch, poses, frames, errors, .. } = call else { unreachable!() };
        let plain = self.call(&sheet.bytes(), Call::Solve { drag, set: Some(Set::PLAIN), scratch, poses, frames, errors });
        self.plain.case(bare.same(&plain), || format!("drag {drag}, {}", kept("plain-set", &plain.bytes)));
        let named = self.solve(sheet, (drag, Set::TWO_HUNDRED));
        for (asked, set) in [(&plain, "the plain set"), (&named, "200 rounds and else the plain set")] {
            if asked.rounds > 0 {
                self.meet(&format!("{set}, iterated"), asked);
            }
        }
        named
    }

    /// Row limits about the sheet's rows, with few rounds.
    fn row_limits(&mut self, sheet: &Sheet) {
        let (rows, (drag, set)) = (whole::rows(sheet), self.with(sheet));
        let set = Set { rounds: 1 + self.rng.below(2) as u32, ..set };
        let mut limited = |limit: usize| {
            let fits = (1..=MOST_ROWS).contains(&limit);
            fits.then(|| self.solve(sheet, (drag, Set { row_limit: limit as u32, ..set })))
        };
        let [under, at, over] = [rows.wrapping_sub(1), rows, rows + 1].map(&mut limited);
        let moves = at.as_ref().is_none_or(|at| at.rounds > 0);
        for (asked, limit) in [(&under, "one under"), (&at, "the same"), (&over, "one over")] {
            if let Some(asked) = asked.as_ref().filter(|_| moves) {
                let iterated = if asked.rounds > 0 { "iterated" } else { "no rounds" };
                self.meet(&format!("{} rows, row limit {limit}, {iterated}", of_rows(rows)), asked);
            }
        }
    }

    /// Rounds about those that the sheet takes.
    fn rounds(&mut self, sheet: &Sheet) {
        let (drag, set) = self.with(sheet);
        let with = |rounds: u64| (drag, Set { rounds: rounds as u32, row_limit: MOST_ROWS as u32, ..set });
        let (one, all) = (self.solve(sheet, with(1)), self.solve(sheet, with(40)));
        match (one.rounds, one.flag()) {
            (1, true) => self.meet("rounds, 1 converges in the first run", &one),
            (2, false) => self.meet("rounds, 1 does not converge in either run", &one),
            _ => {}
        }
        let [first, second] = rounds_of_runs(sheet, with(40), &all);
        let (k, run) = if all.again { (second, " in the second run") } else { (first, "") };
        if !all.flag() || k < 2 {
            return;
        }
        let [less, exact, more] = [k - 1, k, k + 1].map(|rounds| self.solve(sheet, with(rounds)));
        if exact.same(&more) {
            self.meet("rounds, k + 1 give what k do", &more);
        }
        if exact.flag() && !less.flag() {
            self.meet(&format!("rounds, k converge{run}, where k - 1 do not"), &exact);
            self.meet(&format!("rounds, k - 1 do not converge, where k do{run}"), &less);
        }
    }

    /// More than 200 rounds, on a small sheet that takes as many. `named` is the answer with 200.
    fn many_rounds(&mut self, sheet: &Sheet, drag: u16, named: &Asked) {
        if self.long == 0 || named.rounds < 200 || whole::rows(sheet) > 15 {
            return;
        }
        self.long -= 1;
        let with = |rounds: u32| (drag, Set { rounds, ..Set::TWO_HUNDRED });
        let [next, before, most] = [201, 999, 1000].map(|rounds| self.solve(sheet, with(rounds)));
        let [first, second] = rounds_of_runs(sheet, with(1000), &most);
        for (met, what) in [
            (first > 200 && !most.kept, "more than 200 in the first run, which is kept"),
            (second > 200 && most.kept, "more than 200 in the second run, which is kept"),
            (first.max(second) == 1000, "1000 in one run"),
            (!next.same(named), "201 give another answer than 200"),
            (!most.same(named), "1000 give another answer than 200"),
            (!most.same(&before), "1000 give another answer than 999"),
        ] {
            if met {
                self.meet(&format!("rounds, {what}"), if what.starts_with("201") { &next } else { &most });
            }
        }
    }

    /// A coarse tolerance, the plain one and a fine one; then tolerances that the errors just meet and just miss.
    fn tolerances(&mut self, sheet: &Sheet) {
        let (drag, set) = self.with(sheet);
        let with = |tolerance: f64| (drag, Set { tolerance, rounds: 40, row_limit: MOST_ROWS as u32, ..set });
        let [coarse, plain, fine] = [MOST_TOLERANCE, 1e-9, LEAST_TOLERANCE].map(|tolerance| self.solve(sheet, with(tolerance)));
        if [&coarse, &plain, &fine].iter().all(|asked| asked.flag() && !asked.again) {
            if coarse.rounds < plain.rounds {
                self.meet("a coarse tolerance takes fewer rounds than 1e-9", &coarse);
            }
            if fine.rounds > plain.rounds {
                self.meet("a fine tolerance takes more rounds than 1e-9", &fine);
            }
        }
        self.just(sheet, with(LEAST_TOLERANCE), &coarse);
        self.just(sheet, with(LEAST_TOLERANCE), &fine);
    }
    /// The largest error of an answer as the tolerance, and the double before it.
    fn just(&mut self, sheet: &Sheet, (drag, set): With, asked: &Asked) {
        let worst = asked.worst();
        if worst > LEAST_TOLERANCE && worst <= MOST_TOLERANCE {
            for tolerance in [worst, worst.next_down()] {
                self.solve(sheet, (drag, Set { tolerance, ..set }));
            }
        }
    }

    /// A body off by the tolerance and by the double after it.
    fn just_off(&mut self) {
        for (end, tolerance) in [("the least", LEAST_TOLERANCE), ("the most", MOST_TOLERANCE), ("another", 1e-9), ("another", 3e-7)] {
            for (by, what) in [(tolerance, "the tolerance"), (tolerance.next_up(), "the double after it")] {
                let [fixed, free] = [1, 0].map(|fixed| {
                    let sheet = off_by(fixed, by);
                    let with = self.with(&sheet);
                    self.solve(&sheet, (with.0, Set { tolerance, row_limit: 800, ..with.1 }))
                });
                let off = |body: &str| format!("{end} tolerance, a {body} body off by {what}");
                self.meet(&format!("{}, flag {}", off("fixed"), fixed.flag() as u8), &fixed);
                let how = match (free.rounds, free.flag()) {
                    (0, true) => "flag 1 with no rounds",
                    (0, false) => "no rounds",
                    _ => "iterated",
                };
                self.meet(&format!("{}, {how}", off("free")), &free);
            }
        }
    }

    /// Drags with several weights, on a body that may move, on one that may not, and on none.
    fn drags(&mut self, sheet: &Sheet) {
        let (_, set) = self.with(sheet);
        let bodies = 0..sheet.bodies.len() as u16;
        let is_named = |i: u16| sheet.relations.iter().any(|r| r.used_ends().iter().any(|e| e.body == i));
        let fixed = |i: u16| sheet.bodies[i as usize].fixed == 1;
        let free: Vec<u16> = bodies.clone().filter(|i| !fixed(*i) && is_named(*i)).collect();
        let idle = [
            bodies.clone().find(|i| fixed(*i)).map(|i| (i, "drag of a fixed body")),
            bodies.clone().find(|i| !is_named(*i)).map(|i| (i, "drag of an unnamed body")),
        ];
        let between = sets::drawn(&mut self.rng, 1).drag_weight;
        let mut of = |drag: u16| [1.0, 1e4, 1e8, between].map(|drag_weight| self.solve(sheet, (drag, Set { drag_weight, ..set })));
        let none = of(GROUND);
        let dragged = free.first().map(|i| of(*i));
        let idle = idle.into_iter().flatten().map(|(i, what)| (of(i), what)).collect::<Vec<_>>();
        for (all, what) in idle.iter().map(|(all, what)| (all, *what)).chain([(&none, "no drag")]) {
            if all.iter().all(|asked| asked.rounds > 0 && asked.same(&all[1])) {
                self.meet(&format!("{what}, every weight gives the answer of 10000"), &all[3]);
            }
        }
        if free.is_empty()
            && let Some((all, _)) = idle.first()
        {
            self.meet("drag where no body may move", &all[0]);
        }
        let Some([one, plain, most, other]) = dragged else { return };
        for (met, asked, what) in [
            (one.same(&none[0]) && !one.same(&plain), &one, "1 gives the answer of no drag, 10000 another"),
            (!most.same(&plain), &most, "1e8 gives another answer than 10000"),
            (!other.same(&plain) && !other.same(&one), &other, "between gives another answer than 10000 and 1"),
        ] {
            if met {
                self.meet(&format!("drag weight {what}"), asked);
            }
        }
    }

    /// A set by chance.
    fn any_set(&mut self, sheet: &Sheet, with: With) {
        let asked = self.solve(sheet, with);
        let how = match (asked.flag(), asked.rounds > 0, asked.again) {
            (true, false, false) => "stands",
            (true, true, false) => "converges",
            (true, true, true) => "converges in the second run",
            (false, true, _) => "does not converge",
            (false, _, false) => "does not converge, nothing may move",
            _ => "is over the row limit",
        };
        self.meet(&format!("any set, {how}, {} gears", if sheet.has_gear() { "with" } else { "without" }), &asked);
        if asked.rounds > 0 {
            sheet.relations.iter().for_each(|r| self.meet(&format!("any set, {} iterated", LAWS[r.law as usize]), &asked));
            if sheet.bodies.len() == MOST_BODIES && sheet.relations.len() == MOST_RELATIONS {
                self.meet("any set, 64 bodies and 128 relations iterated", &asked);
            }
        }
        self.just(sheet, with, &asked);
        if whole::rows(sheet) < 30 && self.rng.one_in(4) {
            self.other_runs(sheet, with, &asked);
        }
    }

    /// Whether the answer would be another if one of the runs went by another set.
    fn other_runs(&mut self, sheet: &Sheet, (drag, set): With, asked: &Asked) {
        let differs = |of_runs: [Set; 2]| words(&Ok(whole::by_runs(sheet, drag, of_runs))) != words(&asked.answer);
        let others = [Set { tolerance: 1e-9, ..set }, Set { rounds: 200, ..set }, Set { row_limit: 800, ..set }];
        for (other, what) in others.into_iter().zip(OTHERS).chain([(Set { rounds: 60, ..set }, "60 rounds")]) {
            for (of_runs, run) in [([other, set], "first"), ([set, other], "second")] {
                if other != set && differs(of_runs) {
                    self.meet(&format!("another answer if the {run} run had {what}"), asked);
                }
            }
        }
        if drag != GROUND && differs([Set { drag_weight: 1e4, ..set }; 2]) {
            self.meet("another answer if the drag weight were 10000", asked);
        }
        let [first, second] = rounds_of_runs(sheet, (drag, set), asked);
        if second > 0 && differs([set, Set { rounds: set.rounds.saturating_sub(first as u32), ..set }]) {
            self.meet("another answer if the rounds of both runs were counted together", asked);
        }
    }

    /// The sheet, at times damaged, with lengths and drags about what they must be, and with bad parameters or none.
    fn refusals(&mut self, sheet: &Sheet) {
        let bytes = if self.rng.one_in(2) { generate::damaged(&mut self.rng, sheet) } else { sheet.bytes() };
        let read = read(&bytes).ok().filter(|s| s.bodies.len() < 20);
        for call in (0..4).flat_map(|_| generate::calls(&mut self.rng, read.as_ref())).collect::<Vec<_>>() {
            if let Call::Solve { drag, scratch, poses, frames, errors, .. } = call {
                let set = sets::drawn(&mut self.rng, 10);
                let bad = self.rng.pick(&[0, 0, 0, 1, 2, 4, 8, 15]);
                let set = Some(self.spoiled(set, bad));
                self.call(&bytes, Call::Solve { drag, set, scratch, poses, frames, errors });
            }
        }
    }

    /// All that is asked about a sheet.
    fn sheet(&mut self, sheet: &Sheet) {
        let drag = self.drag(sheet);
        let named = self.named(sheet, drag);
        self.many_rounds(sheet, drag, &named);
        if named.flag() && self.rng.one_in(4) {
            self.ranges(sheet);
        }
        for _ in 0..6 {
            let with = self.with(sheet);
            self.any_set(sheet, with);
        }
        self.row_limits(sheet);
        self.rounds(sheet);
        self.tolerances(sheet);
        self.drags(sheet);
        self.refusals(sheet);
    }

    /// Every case: N sheets by chance, those at the limits that take little time, and these.
    pub fn cases(&mut self, n: usize, sheets: &[Sheet]) {
        self.order();
        self.just_off();
        for i in 0..n {
            let sheet = drawn(&mut self.rng, i);
            self.sheet(&sheet);
        }
        let limits = generate::limits(false).into_iter().map(|(_, sheet)| sheet).filter(|sheet| whole::rows(sheet) < 400);
        let others = [1.0, 1.7, -1.0].map(turned_back).into_iter().chain(sheets.iter().cloned()).chain(limits);
        others.for_each(|sheet| self.sheet(&sheet));
        for _ in 0..20 {
            self.row_limits(&turned_back(1.0));
        }
        for rows in [1, 2, 6, 7, 8, 9, 10, 99, 100, 101, 256, 799, 800, 801] {
            self.row_limits(&of_many_rows(rows));
        }
        for sheet in [trains::full(), generate::large().remove(0).0] {
            let (drag, set) = self.with(&sheet);
            self.any_set(&sheet, (drag, Set { rounds: 1, row_limit: MOST_ROWS as u32, ..set }));
            self.scratch(&sheet);
        }
        [0, 1, 2, 3, 800].map(of_many_rows).iter().for_each(|sheet| self.scratch(sheet));
    }
}
