//! What is asked about solving by rounds (portions.rs): sheets solved by portions to their end, sets and drags changed between two calls, states
//! that no call left, and refusals in the order of the tests.

use crate::answer::{Answer, Call, Set};
use crate::compare::kept;
use crate::edges::{Figure, taken};
use crate::generate;
use crate::parameters::With;
use crate::portions::*;
use crate::rng::Rng;
use crate::running::{FINISHED, FIRST, Held, MOST_PORTION, Portion, RETRY, Told, part};
use crate::scenes::said;
use crate::sets::{self, LEAST_TOLERANCE, MOST_ROWS, MOST_TOLERANCE};
use crate::sheet::*;
use crate::trials::{drawn, of_many_rows, off_by, spoiled, turned_back};
use crate::{trains, whole};
use tenon::lm;

/// The damping that a run begins with.
const DAMPING: f64 = lm::DAMPING;

fn wrong(count: u32, how: &str) -> u32 {
    match how {
        "one less" => count.wrapping_sub(1),
        "one more" => count + 1,
        "2^16 more" => count + (1 << 16),
        "2^31 more" => count + (1 << 31),
        "2^32 - 1" => u32::MAX,
        _ => 0,
    }
}

/// A sheet whose first body is a wheel too, which meshes with the ground's where the body stands unturned.
fn geared(mut sheet: Sheet) -> Sheet {
    let end = |body: u16| End { prim: LINE, body, direction: [0.0, 0.0, 1.0], ..End::default() };
    sheet.relations.push(Relation { law: GEAR, teeth: [12, 30], ends: [end(0), end(GROUND), end(GROUND)], ..Relation::default() });
    sheet
}

/// The largest row of a state.
fn worst(n: usize, held: &Held) -> f64 {
    lm::max_abs(&held.state[1 + 2 * n..])
}

/// The same sheet with its bodies elsewhere.
fn moved(rng: &mut Rng, sheet: &Sheet) -> Sheet {
    let mut other = sheet.clone();
    other.bodies.iter_mut().for_each(|b| b.frame[0].iter_mut().for_each(|v| *v = (*v + rng.range(-0.5, 0.5)).clamp(-SIZE, SIZE)));
    other
}

impl Schedules<'_> {
    fn drag(&mut self, sheet: &Sheet) -> u16 {
        if sheet.bodies.is_empty() || self.rng.one_in(2) { GROUND } else { self.rng.below(sheet.bodies.len()) as u16 }
    }
    fn with(&mut self, sheet: &Sheet) -> With {
        (self.drag(sheet), sets::drawn(&mut self.rng, whole::rows(sheet)))
    }
    /// A portion by chance, most often a small one.
    fn some(&mut self) -> u32 {
        match self.rng.below(8) {
            0 => 1 + self.rng.below(MOST_PORTION as usize) as u32,
            1 => MOST_PORTION,
            _ => 1 + self.rng.below(6) as u32,
        }
    }

    /// A call that is lent enough, at times more.
    fn lent(&mut self, caller: &Caller, (drag, set): With, portion: u32, goes_on: bool) -> Portion {
        let [state, poses, frames, errors, scratch] = caller.need.map(|n| n + self.rng.pick(&[0, 0, 1, MARGIN]));
        let counts = goes_on.then(|| caller.counts.map(|count| count as u32));
        Portion { counts, drag, set, portion, state, scratch, poses, frames, errors }
    }
    fn begin(&mut self, caller: &mut Caller, with: With, portion: u32) -> Told {
        let call = self.lent(caller, with, portion, false);
        self.call(caller, call).unwrap_or_else(|number| panic!("begin is refused by {number}"))
    }
    fn on(&mut self, caller: &mut Caller, with: With, portion: u32) -> Told {
        let call = self.lent(caller, with, portion, true);
        self.call(caller, call).unwrap_or_else(|number| panic!("going on is refused by {number}"))
    }
    /// Goes on once from a state.
    fn from(&mut self, sheet: &Sheet, held: &Held, with: With, portion: u32, kinds: &[String]) -> Told {
        let mut caller = Caller::holding(sheet, held);
        let told = self.on(&mut caller, with, portion);
        kinds.iter().for_each(|kind| self.meet(&mut caller, kind));
        self.over(caller);
        told
    }
    /// What going on would come to, which is not asked of the library.
    fn would(&mut self, sheet: &Sheet, held: &Held, with: With, portion: u32) -> Told {
        let caller = Caller::holding(sheet, held);
        let call = self.lent(&caller, with, portion, true);
        whole::by_rounds(&caller.bytes, &call, &caller.held).unwrap()
    }

    /// Begins, and goes on until it is finished.
    fn walk(&mut self, caller: &mut Caller, with: With, portion: u32) -> Vec<Told> {
        let next = |schedules: &mut Self| if portion == 0 { schedules.some() } else { portion };
        let first = next(self);
        let mut told = vec![self.begin(caller, with, first)];
        while told[told.len() - 1].run != FINISHED {
            assert!(told.len() as u32 <= 2 * with.1.rounds, "a run goes on past its rounds");
            let portion = next(self);
            told.push(self.on(caller, with, portion));
        }
        told
    }

    /// The sheet solved by portions, beside `solve`; more calls leave what they come to.
    fn ends(&mut self, sheet: &Sheet, with: With) {
        let counters = || taken(["lm::solve: round", "solve: tried again", "solve: retry kept, converged or smaller"]);
        let (lots, before, (drag, set)) = (10_000_000, counters(), with);
        let call = Call::Solve { drag, set: Some(set), scratch: lots, poses: lots, frames: lots, errors: lots };
        let Ok(solved) = whole::answer(&sheet.bytes(), call) else { panic!("the sheet is refused") };
        let [rounds, again, kept_again] = [0, 1, 2].map(|i| counters()[i] - before[i]);
        let converged = matches!(solved, Answer::Solve { converged: true, .. });
        let way = match (rounds, again > 0, kept_again > 0, converged) {
            (0, true, ..) => "is over the row limit",
            (0, false, _, true) => "stands",
            (0, false, _, false) => "has nothing that may move",
            (_, false, ..) => "converges",
            (_, _, true, true) => "converges in the second run",
            (_, _, true, false) => "is nearer in the second run",
            _ => "is not nearer in the second run",
        };
        let mut end: Option<Told> = None;
        for (name, portion) in SCHEDULES {
            let mut caller = Caller::of(sheet);
            let told = self.walk(&mut caller, with, portion);
            let last = told[told.len() - 1].clone();
            let made: u64 = told.iter().flat_map(|told| told.rounds).map(u64::from).sum();
            let as_solve = last.answers(&solved) && made == rounds && made <= 2 * set.rounds as u64;
            let same = as_solve && end.as_ref().is_none_or(|end| end.same(&last));
            self.ends.case(same, || format!("portions {name}, {way}, drag {drag}, {set:?}, {}", kept("ends", &sheet.bytes())));
            self.meet(&mut caller, &format!("portions {name}, {way}"));
            if sheet.has_gear() {
                self.meet(&mut caller, &format!("portions {name}, {way}, with gears"));
            }
            if made > MOST_PORTION as u64 {
                self.meet(&mut caller, "finished after more than 1000 rounds");
            }
            let portion = self.some();
            let stays = self.on(&mut caller, with, portion);
            self.ends.case(stays.same(&last) && stays.rounds == [0; 2], || format!("finished and gone on, {}", kept("stays", &sheet.bytes())));
            if name == "by chance" {
                // The same memory once more.
                let again = self.begin(&mut caller, with, MOST_PORTION);
                self.ends.case(again.run != FINISHED || again.same(&last), || format!("begun again, {}", kept("again", &sheet.bytes())));
                self.meet(&mut caller, "a begin over an old state");
            }
            self.over(caller);
            end = Some(last);
        }
        self.finished(sheet, with, &end.unwrap());
    }

    /// A finished state goes by other sets.
    fn finished(&mut self, sheet: &Sheet, (drag, set): With, end: &Told) {
        let held = end.held();
        let at = |tolerance: f64| (drag, Set { tolerance, ..set });
        let most = worst(end.counts[0] as usize, &held);
        for tolerance in [LEAST_TOLERANCE, MOST_TOLERANCE, most, most.next_down()] {
            if (LEAST_TOLERANCE..=MOST_TOLERANCE).contains(&tolerance) {
                let mut caller = Caller::holding(sheet, &held);
                let portion = self.some();
                let told = self.on(&mut caller, at(tolerance), portion);
                match (end.flag(), told.flag()) {
                    (false, true) => self.meet(&mut caller, "finished, flag 1 by a coarser tolerance"),
                    (true, false) => self.meet(&mut caller, "finished, flag 0 by a finer tolerance"),
                    _ => {}
                }
                self.over(caller);
            }
        }
        if end.events.iter().any(|event| event.ends_with("begins over the row limit")) {
            let kinds = ["finished over the row limit, stays with a higher one".into()];
            self.from(sheet, &held, (drag, Set { row_limit: MOST_ROWS as u32, ..set }), 3, &kinds);
        }
    }

    /// Two portions, and three, beside their sum.
    fn sums(&mut self, sheet: &Sheet, with: With) {
        let [p, q, s] = [(); 3].map(|()| 1 + self.rng.below(2 * with.1.rounds.min(6) as usize) as u32);
        let mut caller = Caller::of(sheet);
        self.begin(&mut caller, with, p);
        let two = self.on(&mut caller, with, q);
        let three = self.on(&mut caller, with, s);
        self.over(caller);
        for (portion, told) in [(p + q, &two), (p + q + s, &three)] {
            let mut caller = Caller::of(sheet);
            let sum = self.begin(&mut caller, with, portion);
            self.over(caller);
            self.sums.case(sum.same(told), || format!("{p}, {q}, {s}, {with:?}, {}", kept("sums", &sheet.bytes())));
        }
        // From a state that other sets led to.
        let other = self.with(sheet);
        let apart = self.from(sheet, &three.held(), other, q, &[]);
        let apart = self.from(sheet, &apart.held(), other, s, &[]);
        let sum = self.from(sheet, &three.held(), other, q + s, &[]);
        self.sums.case(sum.same(&apart), || format!("going on, {q}, {s}, {other:?}, {}", kept("sums", &sheet.bytes())));
    }

    /// One row more than the limit where the first run begins; then none.
    fn over_the_limit(&mut self, sheet: &Sheet) {
        let (rows, (drag, set)) = (whole::rows(sheet), self.with(sheet));
        if rows > 1 {
            let (mut caller, portion) = (Caller::of(sheet), self.some());
            let told = self.begin(&mut caller, (drag, Set { row_limit: rows.min(MOST_ROWS + 1) as u32 - 1, ..set }), portion);
            assert_eq!(told.rounds, [0; 2], "rows over the limit are iterated");
            self.on(&mut caller, (drag, Set { row_limit: MOST_ROWS as u32, ..set }), portion);
            self.over(caller);
        }
    }

    /// Another set and drag for every call.
    fn changes(&mut self, sheet: &Sheet) {
        let (with, portion) = (self.with(sheet), self.some());
        let mut caller = Caller::of(sheet);
        let mut told = self.begin(&mut caller, with, portion);
        for _ in 0..8 {
            if told.run == FINISHED {
                break;
            }
            let (with, portion) = (self.with(sheet), 1 + self.rng.below(3) as u32);
            told = self.on(&mut caller, with, portion);
        }
        self.over(caller);
    }

    /// States of either run that calls of one round left, with what they were made by.
    fn running(&mut self, sheet: &Sheet) -> Vec<(Held, With)> {
        let (drag, set) = self.with(sheet);
        let set = Set { tolerance: LEAST_TOLERANCE, rounds: 2 + self.rng.below(8) as u32, row_limit: MOST_ROWS as u32, ..set };
        let mut caller = Caller::of(sheet);
        let told = self.walk(&mut caller, (drag, set), 1);
        self.over(caller);
        let mut of_run = |run: u8| {
            let all: Vec<&Told> = told.iter().filter(|told| told.run == run && (told.done > 0 || run == RETRY)).collect();
            (!all.is_empty()).then(|| (self.rng.pick(&all).held(), (drag, set)))
        };
        RUNS.iter().filter_map(|run| of_run(*run)).collect()
    }

    /// One parameter or the drag changed for a run under way.
    fn one_change(&mut self, sheet: &Sheet, held: &Held, (drag, set): With) {
        let (n, rows) = (whole::unknowns(sheet), whole::rows(sheet));
        let of = |what: &str| format!("run {}, {what}", held.run);
        let judged = |told: Told, how: &str| assert_eq!(told.events[0], format!("run {} {how}", held.run));
        let (most, done) = (worst(n, held), held.done);
        for (tolerance, what, how) in [
            (most, "the tolerance is its largest row", "is judged within the tolerance"),
            (most.next_down(), "the tolerance is the double before its largest row", "goes on"),
        ] {
            if (LEAST_TOLERANCE..=MOST_TOLERANCE).contains(&tolerance) {
                judged(self.from(sheet, held, (drag, Set { tolerance, ..set }), 2, &[of(what)]), how);
                self.from(sheet, held, (drag, Set { tolerance, rounds: done.max(1), ..set }), 2, &[]);
            }
        }
        for (rounds, what, how) in [
            (done, "the rounds are those done", "is judged with its rounds done"),
            (done.wrapping_sub(1), "the rounds are fewer than those done", "is judged with more than its rounds done"),
            (done + 1, "the rounds are one more than those done", "goes on"),
        ] {
            if (1..=1000).contains(&rounds) {
                let portion = self.some();
                judged(self.from(sheet, held, (drag, Set { rounds, ..set }), portion, &[of(what)]), how);
            }
        }
        let mut caller = Caller::holding(sheet, held);
        let told = self.on(&mut caller, (drag, Set { rounds: set.rounds + 3, ..set }), set.rounds + 3 - done);
        if told.rounds[held.run as usize - 1] + done > set.rounds {
            self.meet(&mut caller, &format!("run {}, the rounds are more than the set before allowed", held.run));
        }
        self.over(caller);
        let portion = 1 + self.rng.below(2) as u32;
        let plain = self.from(sheet, held, (drag, set), portion, &[]);
        if rows > 1 {
            let limited = (drag, Set { row_limit: rows as u32 - 1, ..set });
            let mut caller = Caller::holding(sheet, held);
            let told = self.on(&mut caller, limited, portion);
            if told.same(&plain) && told.rounds != [0; 2] {
                self.meet(&mut caller, &format!("run {}, more rows than the row limit, goes on as before", held.run));
            }
            // And until it is finished, by which the retry begins over the limit; so it does at once where the rounds are done.
            self.on(&mut caller, limited, MOST_PORTION);
            self.over(caller);
            self.from(sheet, held, (drag, Set { rounds: done.max(1), ..limited.1 }), portion, &[]);
        }
        let other_drag = self.drag(sheet);
        let other_weight = Set { drag_weight: sets::drawn(&mut self.rng, 1).drag_weight, ..set };
        for (with, what) in [((other_drag, set), "another drag"), ((drag, other_weight), "another drag weight")] {
            let mut caller = Caller::holding(sheet, held);
            if !self.on(&mut caller, with, portion).same(&plain) {
                self.meet(&mut caller, &format!("run {}, another state by {what}", held.run));
            }
            self.over(caller);
        }
        self.anew(sheet, held, (drag, set));
    }

    /// Whether the state would be another if a call did not carry a part of it over.
    fn anew(&mut self, sheet: &Sheet, held: &Held, with: With) {
        let n = whole::unknowns(sheet);
        let mut caller = Caller::holding(sheet, held);
        let told = self.on(&mut caller, with, MOST_PORTION);
        let mut other = |change: &dyn Fn(&mut Held)| {
            let mut changed = held.clone();
            change(&mut changed);
            !self.would(sheet, &changed, with, MOST_PORTION).same(&told)
        };
        let differ = [
            (other(&|held| held.state[0] = DAMPING), format!("run {}, another state if the damping began anew", held.run)),
            (other(&|held| held.done = 0), format!("run {}, another state if the rounds began anew", held.run)),
            (other(&|held| held.state[part(n, 2, 0)].fill(0.0)), "another state if the first run's unknowns were 0".into()),
        ];
        for kind in differ.into_iter().filter(|(met, kind)| *met && (held.run == RETRY || !kind.contains("first"))).map(|(_, kind)| kind) {
            self.meet(&mut caller, &kind);
        }
        self.over(caller);
    }

    /// States that no call left.
    fn strange(&mut self, sheet: &Sheet, held: &Held, with: With) {
        let (n, len, run) = (whole::unknowns(sheet), held.state.len(), held.run);
        let with = (with.0, Set { rounds: held.done + 1 + self.rng.below(3) as u32, ..with.1 });
        let rounds = with.1.rounds;
        // One odd double, or a part of them.
        for at in 0..4 {
            let places = part(n, at, len);
            for (name, value) in ODD.iter().filter(|_| !places.is_empty()) {
                let mut strange = held.clone();
                let one = places.start + self.rng.below(places.len());
                let span = if self.rng.one_in(3) { places.clone() } else { one..one + 1 };
                strange.state[span].fill(*value);
                let portion = 1 + self.rng.below(4) as u32;
                let mut caller = Caller::holding(sheet, &strange);
                let told = self.on(&mut caller, with, portion);
                if told.rounds[run as usize - 1] > 0 {
                    self.meet(&mut caller, &format!("run {run}, {name} in {}, a round is made", crate::running::PARTS[at]));
                }
                self.over(caller);
            }
        }
        for (done, what) in [u32::MAX, 1 << 31, rounds - 1, rounds, rounds + 1].into_iter().zip(DONE) {
            let portion = self.some();
            self.from(sheet, &Held { done, ..held.clone() }, with, portion, &[format!("run {run}, {what} done")]);
        }
        for run in OTHER_RUNS {
            let done = self.rng.pick(&[0, held.done, rounds, 1 << 31, u32::MAX]);
            let mut caller = Caller::holding(sheet, &Held { done, run, ..held.clone() });
            let portion = self.some();
            let told = self.on(&mut caller, with, portion);
            assert!(told.run == FINISHED && told.done == done && told.rounds == [0; 2], "another byte than 1 and 2 goes on");
            self.meet(&mut caller, &format!("run byte {run} stays, 3 is left"));
            self.over(caller);
        }
        for _ in 0..2 {
            let mut strange = held.clone();
            strange.state.iter_mut().for_each(|d| *d = if self.rng.one_in(3) { self.rng.pick(&ODD).1 } else { self.rng.range(-2.0, 2.0) });
            strange.done = self.rng.below(rounds as usize) as u32;
            self.from(sheet, &strange, with, 2, &[format!("run {run}, all of the state by chance")]);
        }
        let other = moved(&mut self.rng, sheet);
        self.from(&other, held, with, 2, &[format!("run {run}, a state of another sheet")]);
        let mut anew = held.clone();
        anew.state[part(n, 3, len)].fill(0.25);
        let would = self.would(sheet, held, with, 2);
        let mut caller = Caller::holding(sheet, &anew);
        if !self.on(&mut caller, with, 2).same(&would) {
            self.meet(&mut caller, &format!("run {run}, another state if the rows were worked anew"));
        }
        self.over(caller);
        // Rows that are within the tolerance at unknowns that are off.
        let mut zero = held.clone();
        zero.state[part(n, 3, len)].fill(0.0);
        let mut caller = Caller::holding(sheet, &zero);
        let told = self.on(&mut caller, with, 2);
        if !told.flag() {
            self.meet(&mut caller, &format!("run {run}, rows of 0 where the sheet is off, flag 0"));
        }
        self.over(caller);
        if n > 0 {
            self.choices(sheet, held, with);
        }
    }

    /// The choice between the two runs where one of them or both have a NaN; and a second run that nothing led to.
    fn choices(&mut self, sheet: &Sheet, held: &Held, with: With) {
        let (n, len) = (whole::unknowns(sheet), held.state.len());
        for (parts, what) in
            [(&[1][..], "the unknowns, is not kept"), (&[2], "the first run's unknowns, is kept"), (&[1, 2], "both unknowns, is not kept")]
        {
            let mut strange = Held { run: RETRY, done: with.1.rounds, ..held.clone() };
            parts.iter().for_each(|at| strange.state[part(n, *at, len)].fill(f64::NAN));
            let mut caller = Caller::holding(sheet, &strange);
            let told = self.on(&mut caller, with, 1);
            let kept = told.events.iter().any(|event| event == "run 2 is kept, nearer");
            if what.ends_with("is kept") == kept && told.events.iter().any(|event| event.starts_with("run 2 is ")) {
                self.meet(&mut caller, &format!("run 2, NaN in {what}"));
            }
            self.over(caller);
        }
        let mut strange = Held { run: RETRY, done: 0, ..held.clone() };
        strange.state[0] = DAMPING;
        strange.state[1..1 + 2 * n].fill(0.0);
        strange.state[part(n, 3, len)].copy_from_slice(&whole::start_rows(sheet));
        let portion = self.some();
        self.from(sheet, &strange, with, portion, &["run 2 from the start".into()]);
    }

    /// Sheets without unknowns or rows, and with more rows than any set iterates, in states that go on.
    fn running_without(&mut self) {
        let fixed = off_by(1, 0.25);
        let none = Sheet::default();
        for (sheet, what) in [(&fixed, "nothing may move"), (&none, "no rows")] {
            for run in RUNS {
                for rows in [0.3, 4.0] {
                    let mut state = vec![1e-3];
                    state.resize(1 + whole::rows(sheet), rows);
                    let with = (GROUND, Set { rounds: 5, ..Set::TWO_HUNDRED });
                    self.from(sheet, &Held { done: 1, run, state }, with, 3, &[format!("run {run}, {what}")]);
                }
            }
        }
    }
    fn running_over(&mut self) {
        let sheet = of_many_rows(801);
        for (run, row, what) in [(FIRST, 1.0, "not within"), (FIRST, 1e-10, "within"), (RETRY, 1.0, "not within"), (RETRY, 1e-10, "within")] {
            let mut state = vec![1e-5];
            state.extend([0.01; 12]);
            state.resize(1 + 12 + 801, row);
            let told = self.from(
                &sheet,
                &Held { done: 1, run, state },
                (GROUND, Set::TWO_HUNDRED),
                1000,
                &[format!("run {run}, over 800 rows, {what} the tolerance")],
            );
            assert_eq!(told.rounds, [0; 2], "over 800 rows a round is made");
        }
    }

    /// Portions, counts and parameters at the edges of their ranges, and each slice short, exact and longer.
    fn edges(&mut self, sheet: &Sheet, held: &Held, with: With) {
        for goes_on in [false, true] {
            let name = CALLS[goes_on as usize];
            for portion in GOOD_PORTIONS.into_iter().chain(BAD_PORTIONS) {
                let told = self.once(sheet, held, with, goes_on, |call| call.portion = portion, |said| format!("{name}, {said}, portion {portion}"));
                assert_eq!(told.is_ok(), GOOD_PORTIONS.contains(&portion));
            }
            for (p, value) in (0..4).flat_map(|p| sets::accepted(p).into_iter().chain(sets::refused(p)).map(move |value| (p, value))) {
                let set = sets::with(with.1, p, value);
                let _ = self.once(sheet, held, (with.0, set), goes_on, |_| (), |said| format!("{name}, {}", sets::kind(p, value, said)));
            }
            for (at, slice) in SLICES.iter().enumerate() {
                let need = Caller::of(sheet).need[at];
                for (length, what) in [(need.wrapping_sub(1), "one short"), (0, "not lent")].into_iter().filter(|_| need > 0) {
                    let kind = |said: &str| format!("{name}, {said}, {slice} {what}");
                    let _ = self.once(sheet, held, with, goes_on, |call| *lengths(call)[at] = length, kind);
                }
            }
        }
        let counts = Caller::of(sheet).counts.map(|count| count as u32);
        for (at, how) in [0, 1].into_iter().flat_map(|at| BAD_COUNTS.map(|how| (at, how))) {
            let mut bad = counts;
            bad[at] = wrong(counts[at], how);
            let kind = |said: &str| format!("on, {said}, {} {how}", ["unknowns", "rows"][at]);
            let _ = self.once(sheet, held, with, true, |call| call.counts = Some(bad), kind);
        }
        let [n, rows] = counts;
        let others = [([rows, n], "the counts exchanged"), ([n + 1, rows.wrapping_sub(2)], "other counts of a state as long")];
        for (bad, what) in others.into_iter().filter(|(bad, _)| *bad != counts) {
            let _ = self.once(sheet, held, with, true, |call| call.counts = Some(bad), |said| format!("on, {said}, {what}"));
        }
    }
    /// One call on a state, changed from one that is accepted. After a refusal the state goes on as if nothing had been asked.
    fn once(
        &mut self,
        sheet: &Sheet,
        held: &Held,
        with: With,
        goes_on: bool,
        change: impl Fn(&mut Portion),
        kind: impl Fn(&str) -> String,
    ) -> Result<Told, u32> {
        let mut caller = Caller::holding(sheet, held);
        let mut call = self.lent(&caller, with, 2, goes_on);
        change(&mut call);
        let told = self.call(&mut caller, call);
        let said = said(told.as_ref().err().copied().unwrap_or(0));
        self.meet(&mut caller, &kind(&said));
        if told.is_err() {
            self.on(&mut caller, (GROUND, Set::TWO_HUNDRED), 1);
        }
        self.over(caller);
        told
    }

    /// Each fault alone, and every two of different tests.
    fn order(&mut self) {
        let base = trains::field_bases().remove(0);
        let state = vec![0.5; Caller::of(&base).need[0]];
        for goes_on in [false, true] {
            let name = CALLS[goes_on as usize];
            for fault @ (number, what) in faults(name) {
                self.faulty(&base, &state, goes_on, &[fault], &format!("{name}, refused {number} by {what} alone"));
            }
            for pair @ [a, b] in pairs(name) {
                self.faulty(&base, &state, goes_on, &pair, &format!("{name}, refused {} by {}, before {} by {}", a.0, a.1, b.0, b.1));
            }
            // All faults from one of them on.
            let all = faults(name);
            for from in SHEET_FAULTS.len() - 1..all.len() {
                self.faulty(&base, &state, goes_on, &all[from..], "");
            }
        }
    }
    fn faulty(&mut self, base: &Sheet, state: &[f64], goes_on: bool, faults: &[Fault], kind: &str) {
        let held = Held { done: self.rng.below(5) as u32, run: self.rng.pick(&[FIRST, RETRY, FINISHED, 9]), state: state.to_vec() };
        let mut caller = Caller::holding(base, &held);
        let set = sets::drawn(&mut self.rng, 1);
        let mut call = self.lent(&caller, (GROUND, set), 1, goes_on);
        let counts = caller.counts.map(|count| count as u32);
        for (number, what) in faults {
            let at = |names: &[&str]| names.iter().position(|name| name == what);
            match *what {
                "sheet" => caller.bytes = spoiled(base, *number),
                "drag" => call.drag = self.rng.pick(&[1, 64, 256, 65534]),
                "portion" => call.portion = self.rng.pick(&BAD_PORTIONS),
                "unknowns" | "rows" => {
                    let which = (*what == "rows") as usize;
                    let mut given = call.counts.unwrap();
                    let how = self.rng.pick(&BAD_COUNTS);
                    given[which] = wrong(counts[which], how);
                    call.counts = Some(given);
                }
                _ => match at(&SLICES) {
                    Some(slice) => *lengths(&mut call)[slice] = caller.need[slice] - 1,
                    None => {
                        let p = at(&sets::PARAMETERS).unwrap();
                        call.set = sets::with(call.set, p, sets::bad(&mut self.rng, p));
                    }
                },
            }
        }
        let told = self.call(&mut caller, call);
        assert_eq!(told.err(), Some(faults[0].0), "{faults:?}");
        self.meet(&mut caller, kind);
        self.over(caller);
    }
    /// The sheet damaged, or what is lent about what it must be.
    fn refusals(&mut self, sheet: &Sheet, held: &Held) {
        for _ in 0..4 {
            let bytes = if self.rng.one_in(2) { generate::damaged(&mut self.rng, sheet) } else { sheet.bytes() };
            let mut caller = match read(&bytes) {
                Ok(other) if other != *sheet => Caller::of(&other),
                _ => Caller::holding(sheet, held),
            };
            caller.bytes = bytes;
            let (with, portion, goes_on) = (self.with(sheet), self.some(), self.rng.one_in(2));
            let mut call = self.lent(&caller, with, portion, goes_on);
            for at in 0..5 {
                if self.rng.one_in(6) {
                    let length = lengths(&mut call).into_iter().nth(at).unwrap();
                    *length = length.saturating_sub(1 + self.rng.below(20));
                }
            }
            if self.rng.one_in(6) {
                call.portion = self.rng.pick(&BAD_PORTIONS);
            }
            let _ = self.call(&mut caller, call);
            self.over(caller);
        }
    }

    /// More than 1000 rounds: by one set on a sheet that takes them all, and in one run by sets that are changed.
    fn many_rounds(&mut self, sheet: &Sheet) {
        let with = (GROUND, Set { tolerance: LEAST_TOLERANCE, rounds: 1000, row_limit: 800, drag_weight: 1e4 });
        if self.long == 0 || whole::rows(sheet) > 15 {
            return;
        }
        let mut caller = Caller::of(sheet);
        let mut told = self.begin(&mut caller, with, 300);
        if told.run == FINISHED || told.done < 300 {
            self.over(caller);
            return;
        }
        self.long -= 1;
        let mut made = 300;
        while told.run != FINISHED {
            told = self.on(&mut caller, with, 400);
            made += told.rounds.iter().sum::<u32>();
        }
        if made > 1000 {
            self.meet(&mut caller, "finished after more than 1000 rounds");
        }
        self.over(caller);
    }

    /// All that is asked about a sheet.
    fn sheet(&mut self, sheet: &Sheet) {
        let with = self.with(sheet);
        self.ends(sheet, with);
        let with = self.with(sheet);
        self.sums(sheet, with);
        self.over_the_limit(sheet);
        for _ in 0..2 {
            self.changes(sheet);
        }
        self.many_rounds(sheet);
        for (held, with) in self.running(sheet) {
            self.one_change(sheet, &held, with);
            if whole::rows(sheet) < 60 && self.rng.one_in(3) {
                self.strange(sheet, &held, with);
            }
            if whole::rows(sheet) < 60 && self.rng.one_in(12) {
                self.edges(sheet, &held, with);
            }
            self.refusals(sheet, &held);
        }
    }

    /// The most bodies, relations and rows, each for a few rounds.
    fn most(&mut self) {
        let large: Vec<Sheet> = generate::large().into_iter().map(|(sheet, _)| sheet).collect();
        let sizes = [
            (trains::full(), "64 bodies and 128 relations", true),
            (large[0].clone(), "64 bodies and 128 relations", true),
            (of_many_rows(800), "800 rows", true),
            (of_many_rows(801), "801 rows", false),
        ];
        for (sheet, size, iterated) in sizes {
            let set = Set { rounds: 2, tolerance: LEAST_TOLERANCE, ..Set::TWO_HUNDRED };
            let (mut caller, drag) = (Caller::of(&sheet), 0);
            let first = self.begin(&mut caller, (drag, set), 1);
            assert_eq!(first.rounds[0] > 0, iterated);
            self.meet(&mut caller, &format!("begin, {size} {}", if iterated { "iterated" } else { "not iterated" }));
            let second = self.on(&mut caller, (GROUND, set), 2);
            if second.rounds[0] > 0 {
                self.meet(&mut caller, &format!("on, {size} iterated"));
            }
            self.over(caller);
            if iterated {
                self.scratch(&sheet);
            }
        }
    }

    /// One double less than the scratch that the sheet needs, and just that, for a call that begins and for one that goes on.
    fn scratch(&mut self, sheet: &Sheet) {
        let (figure, mut caller) = (Figure::of(sheet), Caller::of(sheet));
        let ([state, poses, frames, errors, _], counts) = (caller.need, caller.counts.map(|count| count as u32));
        let set = Set { rounds: 2, tolerance: LEAST_TOLERANCE, ..Set::TWO_HUNDRED };
        for (counts, scratch) in [None, Some(counts)].into_iter().flat_map(|counts| [figure.need - 1, figure.need].map(|n| (counts, n))) {
            let call = Portion { counts, drag: GROUND, set, portion: 1, state, scratch, poses, frames, errors };
            let number = self.call(&mut caller, call).err().unwrap_or(0);
            figure.shown(scratch, number).iter().for_each(|kind| self.meet(&mut caller, &format!("{}, {kind}", call.name())));
        }
        self.over(caller);
    }

    /// Every case: N sheets by chance, those at the limits that take little time, and these; for a list only what is small.
    pub fn cases(&mut self, n: usize, sheets: &[Sheet], for_a_list: bool) {
        let limits = generate::limits(false).into_iter().map(|(_, sheet)| sheet).filter(|sheet| whole::rows(sheet) < 400);
        let turned = [1.0, 1.7, -1.0].map(turned_back).into_iter().flat_map(|sheet| [sheet.clone(), geared(sheet)]);
        turned.chain(sheets.iter().cloned()).chain(limits).for_each(|sheet| self.sheet(&sheet));
        self.order();
        self.running_without();
        for i in 0..n {
            let sheet = drawn(&mut self.rng, i);
            self.sheet(&sheet);
        }
        if !for_a_list {
            self.running_over();
            self.most();
            [0, 1, 2, 3].map(of_many_rows).iter().for_each(|sheet| self.scratch(sheet));
        }
    }
}

/// The lengths that a call is lent, by `SLICES`.
fn lengths(call: &mut Portion) -> [&mut usize; 5] {
    [&mut call.state, &mut call.poses, &mut call.frames, &mut call.errors, &mut call.scratch]
}
