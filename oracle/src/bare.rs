//! `solve` without a set, which means 60 rounds (request 8/14): the library's `sheet_solve` beside the Rust that is built for 60 (adapt.py), and beside
//! the plain set named. Most of its sheets are jams, on many of which runs make all their rounds. `want` enters at 0 the kinds of cases that must be
//! met.

use crate::answer::{Answer, Call, Set, words};
use crate::compare::{Library, Tally, kept};
use crate::cover::{Cover, LAWS};
use crate::edges::{Figure, LARGEST, ROW_COUNTS};
use crate::jams::{about_sixty, meshed, pulled};
use crate::parameters::{Ask, Asked, Kinds, SLICES, rounds_of_runs, sheets_in};
use crate::rng::Rng;
use crate::sheet::*;
use crate::trials::{drawn, jammed, of_many_rows, off_by, spoiled, turned_back};
use crate::{generate, lists, trains, whole};

/// The rounds of a run.
const ROUNDS: u64 = 60;
/// Rounds that a wrong call might take in place of 60.
const OTHER_ROUNDS: [u32; 3] = [59, 61, 200];
const RUNS: [&str; 2] = ["first", "second"];
const GEARS: [&str; 2] = ["with gears", "without gears"];
/// The tests of the sheet, in their order, and drags that no sheet of one body has.
const OF_SHEET: [u32; 8] = [1, 2, 3, 4, 5, 14, 6, 7];
const DRAGS: [u16; 4] = [1, 64, 256, 65534];

/// How a sheet is solved.
const WAYS: [&str; 10] = [
    "stands",
    "converges in the first run, before its 60th round",
    "converges in the second run, before its 60th round",
    "does not converge, both runs end in vain",
    "does not converge, the first run alone makes 60 rounds",
    "does not converge, the second run alone makes 60 rounds",
    "does not converge, both runs make 60 rounds, the first is kept",
    "does not converge, both runs make 60 rounds, the second is kept",
    "does not converge, nothing may move",
    "converges in the second run, after 60 rounds of the first",
];

/// The kinds that must be met, or those that a list is to show, which has fewer refusals and nothing large.
fn want(for_a_list: bool) -> Cover {
    let mut all = Vec::new();
    for number in OF_SHEET {
        all.push(format!("refused {number}"));
        if !for_a_list || number == 7 {
            all.push(format!("refused {number}, a bad drag too"));
            all.push(format!("refused {number}, every slice short too"));
        }
    }
    all.extend(DRAGS[..if for_a_list { 1 } else { 4 }].iter().map(|drag| format!("refused 8, drag {drag}")));
    for slice in SLICES {
        let number = if slice == "scratch" { 9 } else { 10 };
        all.push(format!("refused {number}, {slice} one short alone"));
        all.extend(["exact", "longer"].map(|length| format!("accepted, {slice} {length}")));
        if !for_a_list {
            all.push(format!("refused {number}, {slice} not lent"));
            all.push(format!("refused 8, {slice} short too"));
            all.extend((number == 10).then(|| format!("refused 10, {slice} and scratch short")));
        }
    }
    all.push("refused 8, every slice short too".into());
    all.push("refused 10, every slice short".into());
    for (way, gears) in WAYS.iter().flat_map(|way| GEARS.map(|gears| (way, gears))) {
        all.push(format!("{way}, {gears}"));
    }
    all.extend(RUNS.map(|run| format!("converges in the {run} run by its 60th round")));
    for (run, gears) in RUNS.iter().flat_map(|run| GEARS.map(|gears| (run, gears))) {
        all.extend(OTHER_ROUNDS.map(|n| format!("another answer than with {n} rounds, the {run} run is kept, {gears}")));
    }
    for (n, run) in OTHER_ROUNDS.iter().flat_map(|n| RUNS.map(|run| (n, run))) {
        all.push(format!("another answer if the {run} run alone had {n} rounds"));
    }
    all.extend(RUNS.map(|run| format!("converges with 200 rounds in the {run} run, and not with 60")));
    all.extend(["60", "120"].map(|n| format!("another answer if both runs together had {n} rounds")));
    for what in [
        "a drag, another answer than without",
        "a drag of a fixed body, the answer of none",
        "a drag of an unnamed body, the answer of none",
        "another answer than with the drag weight 9999",
        "another answer than with the drag weight 10001",
        "another answer than with the tolerance 1e-8",
        "another answer than with the tolerance 1e-10",
        "a fixed body off by 1e-9, flag 1",
        "a fixed body off by the double after it, flag 0",
        "a free body off by 1e-9, no rounds",
        "a free body off by the double after it, iterated",
    ] {
        all.push(what.into());
    }
    all.extend(LAWS.map(|law| format!("{law} in a run of 60 rounds")));
    if !for_a_list {
        all.extend(ROW_COUNTS.iter().chain(&LARGEST).flat_map(|size| Figure::wanted(size)));
        for what in ["800 rows, iterated", "801 rows, no rounds", "64 bodies and 128 relations, iterated", "32 bodies, both runs make 60 rounds"] {
            all.push(what.into());
        }
        for limit in [SIZE, AXIS] {
            all.push(format!("solve accepted, a double of {limit}"));
            all.push(format!("solve refused 7, the double after {limit}"));
        }
    }
    let mut cover = Cover::default();
    all.into_iter().for_each(|kind| cover.add(kind, 0));
    cover
}

/// What asks the calls, and what was met.
struct Trials<'a> {
    ask: Ask<'a>,
    rng: Rng,
    kinds: Kinds,
    /// How many calls made 60 rounds in one of their runs, and in both.
    jams: [u64; 2],
    /// The plain set beside no set, by the Rust.
    plain: Tally,
    /// How many sheets are worked with other rounds.
    beside: usize,
}

impl<'a> Trials<'a> {
    fn new(seed: u64, ask: Ask<'a>, beside: usize) -> Trials<'a> {
        let plain = Tally::new("the plain set and no set, by the Rust");
        Trials { ask, rng: Rng(seed), kinds: Kinds::new(want(false), want(true)), jams: [0; 2], plain, beside }
    }

    /// A call without a set. None is refused by 15.
    fn call(&mut self, bytes: &[u8], drag: u16, [scratch, poses, frames, errors]: [usize; 4]) -> Asked {
        let asked = Asked::of(self.ask, bytes, Call::Solve { drag, set: None, scratch, poses, frames, errors });
        assert_ne!(asked.answer, Err(15), "a call without a set is refused for one");
        assert!(asked.rounds <= 2 * ROUNDS, "{} rounds", asked.rounds);
        asked
    }
    /// What a sheet's call must be lent.
    fn need(sheet: &Sheet) -> [usize; 4] {
        let (m, k) = (sheet.bodies.len(), sheet.relations.len());
        [whole::scratch(sheet).0, 12 * m, 12 * m, k]
    }

    /// A call that is lent enough, at times more, and beside it the plain set.
    fn solve(&mut self, sheet: &Sheet, drag: u16) -> Asked {
        let (bytes, need) = (sheet.bytes(), Self::need(sheet));
        let lent = need.map(|n| n + self.rng.pick(&[0, 0, 1, 17]));
        let asked = self.call(&bytes, drag, lent);
        let [scratch, poses, frames, errors] = lent;
        let named = (self.ask)(&bytes, Call::Solve { drag, set: Some(Set::PLAIN), scratch, poses, frames, errors });
        self.plain.case(words(&named) == words(&asked.answer), || format!("drag {drag}, {}", kept("bare-plain", &bytes)));
        for ((slice, length), need) in SLICES.iter().zip(lent).zip(need).filter(|(_, need)| *need > 0) {
            self.kinds.meet(&format!("accepted, {slice} {}", if length == need { "exact" } else { "longer" }), &asked);
        }
        asked
    }

    /// All that is asked about a sheet.
    fn sheet(&mut self, sheet: &Sheet, drag: u16) {
        let asked = self.solve(sheet, drag);
        let runs = rounds_of_runs(sheet, (drag, Set::PLAIN), &asked);
        assert!(runs.iter().all(|rounds| *rounds <= ROUNDS), "{runs:?} rounds");
        let gears = GEARS[!sheet.has_gear() as usize];
        let (rows, moves) = (whole::rows(sheet), whole::unknowns(sheet) > 0);
        let last = runs.map(|rounds| rounds == ROUNDS);
        self.jams[0] += (last[0] != last[1]) as u64;
        self.jams[1] += (last == [true; 2]) as u64;
        let way = match (asked.flag(), asked.again, last) {
            (true, false, _) if asked.rounds == 0 => "stands",
            (true, false, [true, _]) => "converges in the first run by its 60th round",
            (true, false, _) => "converges in the first run, before its 60th round",
            (true, true, [_, true]) => "converges in the second run by its 60th round",
            (true, true, [true, _]) => "converges in the second run, after 60 rounds of the first",
            (true, true, _) => "converges in the second run, before its 60th round",
            (false, ..) if !moves => "does not converge, nothing may move",
            (false, _, [true, true]) if asked.kept => "does not converge, both runs make 60 rounds, the second is kept",
            (false, _, [true, true]) => "does not converge, both runs make 60 rounds, the first is kept",
            (false, _, [true, false]) => "does not converge, the first run alone makes 60 rounds",
            (false, _, [false, true]) => "does not converge, the second run alone makes 60 rounds",
            _ if asked.rounds > 0 => "does not converge, both runs end in vain",
            _ => "is over the row limit",
        };
        self.kinds.meet(way, &asked);
        self.kinds.meet(&format!("{way}, {gears}"), &asked);
        if last == [true; 2] {
            self.kinds.meet(&format!("{} bodies, both runs make 60 rounds", sheet.bodies.len()), &asked);
        }
        self.size(sheet, &asked);
        if last != [false; 2] {
            sheet.relations.iter().for_each(|r| self.kinds.meet(&format!("{} in a run of 60 rounds", LAWS[r.law as usize]), &asked));
        }
        if drag != GROUND {
            self.dragged(sheet, drag, &asked);
        }
        if rows < 40 && self.beside > 0 && (last != [false; 2] || self.rng.one_in(8)) {
            self.beside -= 1;
            self.other_rounds(sheet, drag, &asked, runs);
            self.other_sets(sheet, drag, &asked);
        }
    }

    /// A drag beside none.
    fn dragged(&mut self, sheet: &Sheet, drag: u16, asked: &Asked) {
        let none = self.solve(sheet, GROUND);
        let named = sheet.relations.iter().any(|r| r.used_ends().iter().any(|e| e.body == drag));
        let what = match (none.same(asked), sheet.bodies[drag as usize].fixed == 1) {
            (false, _) => "a drag, another answer than without",
            (true, true) => "a drag of a fixed body, the answer of none",
            (true, false) if !named => "a drag of an unnamed body, the answer of none",
            _ => return,
        };
        if asked.rounds > 0 {
            self.kinds.meet(what, asked);
        }
    }

    /// Whether the answer would be another with other rounds, in both runs, in one of them, and for both together.
    fn other_rounds(&mut self, sheet: &Sheet, drag: u16, asked: &Asked, runs: [u64; 2]) {
        let by = |of_runs: [u32; 2]| whole::by_runs(sheet, drag, of_runs.map(|rounds| Set { rounds, ..Set::PLAIN }));
        let differs = |of_runs: [u32; 2]| words(&Ok(by(of_runs))) != words(&asked.answer);
        let (run, gears) = (RUNS[asked.kept as usize], GEARS[!sheet.has_gear() as usize]);
        let plain = ROUNDS as u32;
        for n in OTHER_ROUNDS {
            if differs([n; 2]) {
                self.kinds.meet(&format!("another answer than with {n} rounds, the {run} run is kept, {gears}"), asked);
            }
            for (of_runs, run) in [([n, plain], RUNS[0]), ([plain, n], RUNS[1])] {
                if differs(of_runs) {
                    self.kinds.meet(&format!("another answer if the {run} run alone had {n} rounds"), asked);
                }
            }
        }
        // The call with 200 rounds, and which of its runs converged.
        let Call::Solve { scratch, poses, frames, errors, .. } = asked.call else { return };
        let named = Call::Solve { drag, set: Some(Set::TWO_HUNDRED), scratch, poses, frames, errors };
        let most = Asked::of(&mut whole::answer, &asked.bytes, named);
        if most.flag() && !asked.flag() {
            self.kinds.meet(&format!("converges with 200 rounds in the {} run, and not with 60", RUNS[most.again as usize]), asked);
        }
        let [first, second] = runs.map(|rounds| rounds as u32);
        if second > 0 && differs([plain, plain - first]) {
            self.kinds.meet("another answer if both runs together had 60 rounds", asked);
        }
        // Of 120 together a first run that ends in vain leaves the second more than 60.
        if first < plain && differs([2 * plain, 2 * plain - first]) {
            self.kinds.meet("another answer if both runs together had 120 rounds", asked);
        }
    }

    /// Whether the answer would be another with another tolerance or drag weight.
    fn other_sets(&mut self, sheet: &Sheet, drag: u16, asked: &Asked) {
        let tolerance = |tolerance: f64| Set { tolerance, ..Set::PLAIN };
        let weight = |drag_weight: f64| Set { drag_weight, ..Set::PLAIN };
        for (set, what) in [
            (weight(9999.0), "the drag weight 9999"),
            (weight(10001.0), "the drag weight 10001"),
            (tolerance(1e-8), "the tolerance 1e-8"),
            (tolerance(1e-10), "the tolerance 1e-10"),
        ] {
            if words(&Ok(whole::by_runs(sheet, drag, [set; 2]))) != words(&asked.answer) {
                self.kinds.meet(&format!("another answer than with {what}"), asked);
            }
        }
    }

    /// The sheet's refusals, the drag's, and those of what is lent, alone and with others.
    fn refusals(&mut self) {
        let base = trains::field_bases().remove(0);
        let (need, bytes) = (Self::need(&base), base.bytes());
        for number in OF_SHEET {
            let bytes = spoiled(&base, number);
            for (drag, lent, what) in
                [(GROUND, need, ""), (1, need, ", a bad drag too"), (GROUND, [0; 4], ", every slice short too"), (1, [0; 4], "")]
            {
                let asked = self.call(&bytes, drag, lent);
                self.kinds.meet(&format!("{}{what}", asked.said()), &asked);
            }
        }
        for drag in DRAGS {
            let asked = self.call(&bytes, drag, need);
            self.kinds.meet(&format!("{}, drag {drag}", asked.said()), &asked);
            for (lent, what) in (0..4).map(|i| (short(need, &[i]), SLICES[i])).chain([([0; 4], "every slice")]) {
                let asked = self.call(&bytes, drag, lent);
                self.kinds.meet(&format!("{}, {what} short too", asked.said()), &asked);
            }
        }
        for (i, slice) in SLICES.iter().enumerate() {
            let mut none = need;
            none[i] = 0;
            for (lent, what) in [(short(need, &[i]), "one short alone"), (none, "not lent")] {
                let asked = self.call(&bytes, 0, lent);
                self.kinds.meet(&format!("{}, {slice} {what}", asked.said()), &asked);
            }
            let asked = self.call(&bytes, GROUND, short(need, &[0, i]));
            self.kinds.meet(&format!("{}, {slice} and scratch short", asked.said()), &asked);
        }
        for lent in [short(need, &[0, 1, 2, 3]), [0; 4]] {
            let asked = self.call(&bytes, 0, lent);
            self.kinds.meet(&format!("{}, every slice short", asked.said()), &asked);
        }
    }

    /// Every field of a sheet of one body and one relation, of laws 0 to 6 and of gears, with the values at its edges.
    fn fields(&mut self) {
        let changes = |base: Sheet| (base.clone(), generate::field_faults(&lists::record_words(&base.bytes())));
        for (base, faults) in generate::field_bases().into_iter().map(changes).chain(trains::changes()) {
            let sheet = lists::record_words(&base.bytes());
            for (at, word) in faults {
                let with = |word: u64| lists::with_word(&sheet, at, word);
                let asked = self.call(&with(word), GROUND, [300, 12, 12, 1]);
                self.kinds.cover.double(f64::from_bits(word), |d| with(d.to_bits()), asked.call, &asked.answer);
            }
        }
    }

    /// The sheet damaged, or lengths and drags about what they must be.
    fn damaged(&mut self, sheet: &Sheet) {
        let bytes = if self.rng.one_in(2) { generate::damaged(&mut self.rng, sheet) } else { sheet.bytes() };
        let read = read(&bytes).ok().filter(|s| s.bodies.len() < 20);
        for call in (0..4).flat_map(|_| generate::calls(&mut self.rng, read.as_ref())).collect::<Vec<_>>() {
            if let Call::Solve { drag, scratch, poses, frames, errors, .. } = call {
                self.call(&bytes, drag, [scratch, poses, frames, errors]);
            }
        }
    }

    /// Just the scratch that the sheet needs, and one double less.
    fn scratch(&mut self, sheet: &Sheet) {
        let (figure, [_, poses, frames, errors]) = (Figure::of(sheet), Self::need(sheet));
        for scratch in [figure.need, figure.need - 1] {
            let asked = self.call(&sheet.bytes(), GROUND, [scratch, poses, frames, errors]);
            let number = asked.answer.as_ref().err().copied().unwrap_or(0);
            figure.shown(scratch, number).iter().for_each(|kind| self.kinds.meet(kind, &asked));
            self.size(sheet, &asked);
        }
    }
    /// How large the sheet of an accepted call is, and whether it was iterated.
    fn size(&mut self, sheet: &Sheet, asked: &Asked) {
        if asked.answer.is_ok() {
            let (m, k, rows) = (sheet.bodies.len(), sheet.relations.len(), whole::rows(sheet));
            let iterated = if asked.rounds > 0 { "iterated" } else { "no rounds" };
            self.kinds.meet(&format!("{m} bodies and {k} relations, {iterated}"), asked);
            self.kinds.meet(&format!("{rows} rows, {iterated}"), asked);
        }
    }

    /// A body off by the tolerance, and by the double after it.
    fn just_off(&mut self) {
        for (by, what) in [(1e-9f64, "1e-9"), (1e-9f64.next_up(), "the double after it")] {
            let [fixed, free] = [1, 0].map(|fixed| self.solve(&off_by(fixed, by), GROUND));
            self.kinds.meet(&format!("a fixed body off by {what}, flag {}", fixed.flag() as u8), &fixed);
            self.kinds.meet(&format!("a free body off by {what}, {}", if free.rounds > 0 { "iterated" } else { "no rounds" }), &free);
        }
    }

    /// Every case: N sheets by chance, most of them jammed; those at the limits, and these.
    fn cases(&mut self, n: usize, sheets: &[Sheet], for_a_list: bool) {
        self.refusals();
        self.just_off();
        let limits = generate::limits(false).into_iter().map(|(_, sheet)| sheet).filter(|sheet| whole::rows(sheet) < 400);
        let turned = [1.0, 1.7, -1.0].map(turned_back).into_iter().chain([off_by(0, 0.0)]).flat_map(|sheet| [sheet.clone(), meshed(sheet)]);
        turned.chain(sheets.iter().cloned()).chain(limits).chain(about_sixty()).for_each(|sheet| self.sheet(&sheet, GROUND));
        for i in 0..n {
            let sheet = drawn(&mut self.rng, i);
            let sheet = match i % 4 {
                0 => sheet,
                1 | 2 => pulled(&mut self.rng, sheet),
                _ => jammed(&mut self.rng, sheet, &[1e-3, 0.01, 0.1, 0.5, 1.0, 3.0], true),
            };
            let drag = if sheet.bodies.is_empty() || self.rng.one_in(2) { GROUND } else { self.rng.below(sheet.bodies.len()) as u16 };
            self.sheet(&sheet, drag);
            self.damaged(&sheet);
        }
        if !for_a_list {
            self.fields();
            self.sheet(&of_many_rows(801), GROUND);
            [0, 1, 2, 3, 800].map(of_many_rows).iter().for_each(|sheet| self.scratch(sheet));
            self.scratch(&trains::full());
        }
    }
}

/// The lengths with these slices one double short.
fn short(mut need: [usize; 4], slices: &[usize]) -> [usize; 4] {
    slices.iter().for_each(|i| need[*i] = need[*i].saturating_sub(1));
    need
}

/// Prints how many rounds the Rust's runs make on the sheets in these files, without a set and with 200 rounds, and what comes of them.
pub fn rounds(files: &[&str]) -> bool {
    for (file, sheet) in files.iter().zip(sheets_in(files)) {
        for (set, name) in [(None, "no set"), (Some(Set::TWO_HUNDRED), "200 rounds")] {
            let [scratch, poses, frames, errors] = Trials::need(&sheet);
            let asked = Asked::of(&mut whole::answer, &sheet.bytes(), Call::Solve { drag: GROUND, set, scratch, poses, frames, errors });
            let [first, second] = rounds_of_runs(&sheet, (GROUND, set.unwrap_or(Set::PLAIN)), &asked);
            let (flag, worst, run) = (asked.flag() as u8, asked.worst(), RUNS[asked.kept as usize]);
            println!("{file}, {name}: {first} rounds and {second}, the {run} run is kept, converged {flag}, largest error {worst:e}");
        }
    }
    true
}

/// Sheets and calls for a list: each shows a kind that none before it does.
pub fn listed(seed: u64, n: usize) -> Vec<(Vec<u8>, Vec<Call>)> {
    let mut ask = whole::answer;
    let mut trials = Trials::new(seed, &mut ask, n);
    trials.cases(n, &[], true);
    trials.kinds.listed
}

/// The library against the Rust on N sheets by seed, on others, and on those in these files.
pub fn run(seed: u64, n: usize, files: &[&str]) -> bool {
    let sheets = sheets_in(files);
    let mut library = Library::new("bare", &[3, 5]);
    let mut ask = |bytes: &[u8], call: Call| -> Result<Answer, u32> { library.ask(bytes, call) };
    let mut trials = Trials::new(seed, &mut ask, 200);
    trials.cases(n, &sheets, false);
    let [one, both] = trials.jams;
    println!("sheets on which one run makes 60 rounds: {one}, on which both do: {both}");
    let good = trials.plain.done() & trials.kinds.cover.done();
    library.done() & good
}
