//! Solving by rounds: the library's two calls beside the machine of request 6/14 over tenon's own rounds (by_rounds.rs). schedules.rs has what is
//! asked; `want` enters at 0 the kinds of cases that must be met.

use crate::answer::{Answer, Call, bits};
use crate::compare::{Library, Tally, kept};
use crate::cover::{Cover, LAWS};
use crate::edges::{Figure, LARGEST, ROW_COUNTS};
use crate::port::{self, COUNTS_BEFORE};
use crate::rng::Rng;
use crate::running::{FIRST, Held, PARTS, Portion, RETRY, Told};
use crate::scenes::NANS;
use crate::sets::{self, PARAMETERS};
use crate::sheet::*;
use crate::{whole, with_max01};

pub const CALLS: [&str; 2] = ["begin", "on"];
pub const RUNS: [u8; 2] = [FIRST, RETRY];
pub const SLICES: [&str; 5] = ["state", "poses", "frames", "errors", "scratch"];
/// The portions that a sheet is solved by; 0 stands for portions by chance.
pub const SCHEDULES: [(&str, u32); 5] = [("1", 1), ("2", 2), ("7", 7), ("1000", 1000), ("by chance", 0)];
/// How a sheet is solved.
pub const WAYS: [&str; 7] = [
    "stands",
    "converges",
    "converges in the second run",
    "is nearer in the second run",
    "is not nearer in the second run",
    "has nothing that may move",
    "is over the row limit",
];
/// Portions that are refused.
pub const BAD_PORTIONS: [u32; 8] = [0, 1001, 1 << 16, (1 << 16) + 1, 1 << 31, (1 << 31) + 1, u32::MAX - 1, u32::MAX];
/// Portions at the ends of the range.
pub const GOOD_PORTIONS: [u32; 4] = [1, 2, 999, 1000];
/// How a count is wrong.
pub const BAD_COUNTS: [&str; 6] = ["one less", "one more", "0", "2^16 more", "2^31 more", "2^32 - 1"];
/// The most doubles that a call is lent more than it needs.
pub const MARGIN: usize = 17;
/// Values that may stand anywhere in a state.
pub const ODD: [(&str, f64); 12] = [
    ("NaN", f64::NAN),
    ("another NaN", f64::from_bits(NANS[3])),
    ("infinity", f64::INFINITY),
    ("minus infinity", f64::NEG_INFINITY),
    ("5e-324", 5e-324),
    ("-5e-324", -5e-324),
    ("1e-310", 1e-310),
    ("0", 0.0),
    ("-0", -0.0),
    ("1e300", 1e300),
    ("-1e300", -1e300),
    ("-1", -1.0),
];
/// Rounds done that no call leaves, or about those that the set allows.
pub const DONE: [&str; 5] = ["2^32 - 1", "2^31", "one less than the rounds", "the rounds", "one more than the rounds"];
/// Bytes that count as finished.
pub const OTHER_RUNS: [u8; 6] = [0, 3, 4, 7, 128, 255];

/// A fault that a call is refused for: its number, and what is at fault.
pub type Fault = (u32, &'static str);
/// Those of the sheet, then those of the call, in the order of the tests.
pub const SHEET_FAULTS: [Fault; 8] =
    [(1, "sheet"), (2, "sheet"), (3, "sheet"), (4, "sheet"), (5, "sheet"), (14, "sheet"), (6, "sheet"), (7, "sheet")];
pub const CALL_FAULTS: [Fault; 13] = [
    (8, "drag"),
    (15, PARAMETERS[0]),
    (15, PARAMETERS[1]),
    (15, PARAMETERS[2]),
    (15, PARAMETERS[3]),
    (16, "portion"),
    (16, "unknowns"),
    (16, "rows"),
    (10, SLICES[0]),
    (10, SLICES[1]),
    (10, SLICES[2]),
    (10, SLICES[3]),
    (9, SLICES[4]),
];
pub fn faults(call: &str) -> Vec<Fault> {
    let takes = |fault: &&Fault| call == CALLS[1] || !matches!(fault.1, "unknowns" | "rows");
    SHEET_FAULTS.iter().chain(&CALL_FAULTS).filter(takes).copied().collect()
}
/// Pairs of faults of different tests, the one that is told first.
pub fn pairs(call: &str) -> Vec<[Fault; 2]> {
    let all = faults(call);
    let pairs = all.iter().enumerate().flat_map(|(i, a)| all[i + 1..].iter().map(move |b| [*a, *b]));
    pairs.filter(|[a, b]| a.0 != b.0 && b.1 != "sheet").collect()
}

/// What runs of a call come to, by `Running::event`: in a call that begins, in either, and in one that goes on.
fn events() -> [Vec<String>; 3] {
    let begins = [
        "begins within the tolerance",
        "begins within the tolerance, over the row limit",
        "begins where nothing may move",
        "begins over the row limit",
        "begins",
    ];
    let ends = ["within the tolerance", "within the tolerance by its last round", "in vain", "by its last round"];
    let judged = [
        "goes on",
        "is judged within the tolerance",
        "is judged within the tolerance, its rounds done",
        "is judged with its rounds done",
        "is judged with more than its rounds done",
        "is judged over 800 rows",
    ];
    let of = |run: u8, what: &str| format!("run {run} {what}");
    let mut either: Vec<String> = RUNS.iter().flat_map(|run| ends.iter().map(move |end| of(*run, &format!("ends {end}")))).collect();
    either.extend(begins.iter().filter(|begin| !begin.contains("nothing")).map(|begin| of(RETRY, begin)));
    either.extend(["is kept, converged", "is kept, nearer", "is not kept", "has begun as the portion ends"].map(|what| of(RETRY, what)));
    either.extend(RUNS.map(|run| of(run, "is under way as the portion ends")));
    either.extend(["finished by the portion's last round", "finished before the portion ends"].map(String::from));
    let on = RUNS.iter().flat_map(|run| judged.iter().map(move |what| of(*run, what))).chain(["finished stays".into()]);
    [begins.map(|what| of(FIRST, what)).into(), either, on.collect()]
}

/// The kinds that must be met, or those that a list is to show, which has fewer refusals and fewer of one kind.
fn want(for_a_list: bool) -> Cover {
    let mut all = Vec::new();
    let [begin, either, on] = events();
    let gears: &[&str] = if for_a_list { &[""] } else { &["", ", with gears"] };
    for gears in gears {
        all.extend(begin.iter().map(|event| format!("begin: {event}{gears}")));
        all.extend(CALLS.iter().flat_map(|call| either.iter().map(move |event| format!("{call}: {event}{gears}"))));
        // No sheet of gears alone has so many rows.
        all.extend(on.iter().filter(|event| gears.is_empty() || !event.contains("800")).map(|event| format!("on: {event}{gears}")));
    }
    // The lists are of small sheets.
    all.retain(|kind| !for_a_list || !kind.contains("800"));
    for call in CALLS {
        all.push(format!("{call}: both runs make rounds"));
        all.push(format!("{call}: both runs make rounds, and the portion ends in the second"));
        all.extend(GOOD_PORTIONS.map(|portion| format!("{call}, accepted, portion {portion}")));
        let few = |portion: &&u32| !for_a_list || [0, 1001, 1 << 31, u32::MAX].contains(*portion);
        all.extend(BAD_PORTIONS.iter().filter(few).map(|portion| format!("{call}, refused 16, portion {portion}")));
        for slice in SLICES {
            let number = if slice == "scratch" { 9 } else { 10 };
            let short: &[&str] = if for_a_list { &["one short"] } else { &["one short", "not lent"] };
            all.extend(short.iter().map(|length| format!("{call}, refused {number}, {slice} {length}")));
            all.extend(["exact", "longer"].map(|length| format!("{call}, accepted, {slice} {length}")));
        }
        for p in 0..4 {
            let refused = if for_a_list { sets::outside(p)[..1].to_vec() } else { sets::refused(p) };
            all.extend(refused.into_iter().map(|value| format!("{call}, {}", sets::kind(p, value, "refused 15"))));
            if !for_a_list {
                all.extend(sets::accepted(p).map(|value| format!("{call}, {}", sets::kind(p, value, "accepted"))));
            }
        }
        let next_to = [["drag", "drag weight"], ["drag weight", "portion"], ["portion", "errors"], ["rows", "errors"], ["errors", "scratch"]];
        let kinds = pairs(call).into_iter().filter(|[a, b]| !for_a_list || next_to.contains(&[a.1, b.1]));
        all.extend(kinds.map(|[a, b]| format!("{call}, refused {} by {}, before {} by {}", a.0, a.1, b.0, b.1)));
        let few = |(number, what): &Fault| *what == "drag" || *what == "sheet" && (call == CALLS[1] || *number == 1);
        let faults = faults(call).into_iter().filter(|fault| !for_a_list || few(fault));
        all.extend(faults.map(|(number, what)| format!("{call}, refused {number} by {what} alone")));
    }
    for count in ["unknowns", "rows"] {
        all.extend(BAD_COUNTS.iter().filter(|how| !for_a_list || !how.contains("2^31")).map(|how| format!("on, refused 16, {count} {how}")));
    }
    all.push("on, refused 16, the counts exchanged".into());
    all.push("on, refused 16, other counts of a state as long".into());
    for (way, (name, _)) in WAYS.iter().flat_map(|way| SCHEDULES.map(|schedule| (way, schedule))) {
        match for_a_list {
            true => all.extend(["1", "2", "7"].contains(&name).then(|| format!("portions {name}, {way}"))),
            false => all.extend(["", ", with gears"].map(|gears| format!("portions {name}, {way}{gears}"))),
        }
    }
    for run in RUNS {
        for what in [
            "the tolerance is its largest row",
            "the tolerance is the double before its largest row",
            "the rounds are those done",
            "the rounds are fewer than those done",
            "the rounds are one more than those done",
            "the rounds are more than the set before allowed",
            "more rows than the row limit, goes on as before",
            "another state by another drag",
            "another state by another drag weight",
            "another state if the damping began anew",
            "another state if the rounds began anew",
            "another state if the rows were worked anew",
            "a state of another sheet",
            "all of the state by chance",
            "nothing may move",
            "no rows",
            "rows of 0 where the sheet is off, flag 0",
        ] {
            all.push(format!("run {run}, {what}"));
        }
        for (part, (name, _)) in PARTS.iter().flat_map(|part| ODD.map(|odd| (part, odd))) {
            if !for_a_list || ["NaN", "5e-324", "-0"].contains(&name) {
                all.push(format!("run {run}, {name} in {part}, a round is made"));
            }
        }
        all.extend(DONE.map(|done| format!("run {run}, {done} done")));
        if !for_a_list {
            all.extend(["within the tolerance", "not within the tolerance"].map(|what| format!("run {run}, over 800 rows, {what}")));
        }
    }
    for what in [
        "run 2 from the start",
        "run 2, NaN in the unknowns, is not kept",
        "run 2, NaN in the first run's unknowns, is kept",
        "run 2, NaN in both unknowns, is not kept",
        "another state if the first run's unknowns were 0",
        "finished, flag 1 by a coarser tolerance",
        "finished, flag 0 by a finer tolerance",
        "finished over the row limit, stays with a higher one",
        "a begin over an old state",
    ] {
        all.push(what.into());
    }
    all.extend(OTHER_RUNS.map(|run| format!("run byte {run} stays, 3 is left")));
    all.extend(LAWS.map(|law| format!("{law} iterated")));
    if !for_a_list {
        all.push("finished after more than 1000 rounds".into());
        for call in CALLS {
            all.extend(LARGEST.map(|size| format!("{call}, {size} iterated")));
            let kinds = ROW_COUNTS.iter().chain(&LARGEST).flat_map(|size| Figure::wanted(size));
            all.extend(kinds.map(|kind| format!("{call}, {kind}")));
        }
        all.push("begin, 801 rows not iterated".into());
    }
    let mut cover = Cover::default();
    all.into_iter().for_each(|kind| cover.add(kind, 0));
    cover
}

/// A call that was made: what the caller held before and after it, whether the former is what the call before left, and what it came to.
pub struct Step {
    pub call: Portion,
    pub before: Held,
    pub after: Held,
    pub left: bool,
    pub told: Result<Told, u32>,
    kinds: Vec<String>,
}

/// A sheet, and what its caller holds of it.
pub struct Caller {
    pub bytes: Vec<u8>,
    pub counts: [usize; 2],
    /// What must be lent of state, poses, frames, errors and scratch.
    pub need: [usize; 5],
    pub held: Held,
    pub steps: Vec<Step>,
    geared: bool,
    laws: Vec<u8>,
}

impl Caller {
    /// Before any call: odd doubles, more than a call needs.
    pub fn of(sheet: &Sheet) -> Caller {
        let (n, rows, m, k) = (whole::unknowns(sheet), whole::rows(sheet), sheet.bodies.len(), sheet.relations.len());
        let need = [1 + 2 * n + rows, 12 * m, 12 * m, k, whole::scratch(sheet).0];
        let state = (0..need[0] + MARGIN).map(|i| [2.5, f64::NAN, -0.0, f64::NEG_INFINITY, 1e300][i % 5]).collect();
        let laws = sheet.relations.iter().map(|r| r.law).collect();
        let held = Held { done: 0xDEAD_BEEF, run: 66, state };
        Caller { bytes: sheet.bytes(), counts: [n, rows], need, held, steps: Vec::new(), geared: sheet.has_gear(), laws }
    }
    /// That holds a state.
    pub fn holding(sheet: &Sheet, held: &Held) -> Caller {
        let mut caller = Caller::of(sheet);
        (caller.held.done, caller.held.run) = (held.done, held.run);
        caller.held.state[..held.state.len()].copy_from_slice(&held.state);
        caller
    }
}

/// What crates/portion_list, the program that replays schedules, has room for: a sheet of under so many bytes, and doubles by `SLICES`.
const REPLAYED_BYTES: usize = 2000;
const REPLAYED: [usize; 5] = [256, 256, 256, 256, 4096];

/// A sheet's bytes, and schedules of calls on it.
pub type Listed = (Vec<u8>, Vec<Vec<Step>>);

/// What asks the calls, and what was met.
pub struct Schedules<'a> {
    ask: &'a mut dyn FnMut(&[u8], &Portion, &Held) -> Result<Told, u32>,
    pub rng: Rng,
    cover: Cover,
    /// The machine's ends beside the Rust's `solve`, and portions beside their sum.
    pub ends: Tally,
    pub sums: Tally,
    unlisted: Cover,
    listed: Vec<Listed>,
    /// How many sheets may yet be worked on for many rounds.
    pub long: usize,
}

impl<'a> Schedules<'a> {
    fn new(seed: u64, ask: &'a mut dyn FnMut(&[u8], &Portion, &Held) -> Result<Told, u32>) -> Schedules<'a> {
        let (ends, sums) = (Tally::new("schedules to their end and `solve`, by the Rust"), Tally::new("portions and their sum, by the Rust"));
        Schedules { ask, rng: Rng(seed), cover: want(false), ends, sums, unlisted: want(true), listed: Vec::new(), long: 6 }
    }

    /// Makes a call on what the caller holds; its events are counted.
    pub fn call(&mut self, caller: &mut Caller, call: Portion) -> Result<Told, u32> {
        let told = (self.ask)(&caller.bytes, &call, &caller.held);
        let before = caller.held.clone();
        if let Ok(told) = &told {
            (caller.held.done, caller.held.run) = (told.done, told.run);
            caller.held.state[..told.state.len()].copy_from_slice(&told.state);
        }
        let left = caller.steps.last().is_some_and(|step| step.after.same(&before));
        caller.steps.push(Step { call, before, after: caller.held.clone(), left, told: told.clone(), kinds: Vec::new() });
        if let Ok(told) = &told {
            self.count(caller, call, told);
        }
        told
    }
    fn count(&mut self, caller: &mut Caller, call: Portion, told: &Told) {
        let name = call.name();
        for event in &told.events {
            self.meet(caller, &format!("{name}: {event}"));
            if caller.geared {
                self.meet(caller, &format!("{name}: {event}, with gears"));
            }
        }
        if told.rounds.iter().all(|rounds| *rounds > 0) {
            self.meet(caller, &format!("{name}: both runs make rounds"));
            if told.held().is_running() {
                self.meet(caller, &format!("{name}: both runs make rounds, and the portion ends in the second"));
            }
        }
        let lengths = [call.state, call.poses, call.frames, call.errors, call.scratch];
        for ((slice, length), need) in SLICES.iter().zip(lengths).zip(caller.need).filter(|(_, need)| *need > 0) {
            self.meet(caller, &format!("{name}, accepted, {slice} {}", if length == need { "exact" } else { "longer" }));
        }
        self.meet(caller, &format!("{name}, accepted, portion {}", call.portion));
        if told.rounds != [0; 2] {
            for law in caller.laws.clone() {
                self.meet(caller, &format!("{} iterated", LAWS[law as usize]));
            }
        }
    }

    /// Counts a kind of the caller's last call.
    pub fn meet(&mut self, caller: &mut Caller, kind: &str) {
        self.cover.meet(kind);
        if self.unlisted.lacks(kind)
            && let Some(step) = caller.steps.last_mut()
        {
            step.kinds.push(kind.into());
        }
    }

    /// A schedule is over. It is listed up to the last call of a kind that no listed call has, or if that is long, these calls by themselves.
    pub fn over(&mut self, caller: Caller) {
        let small = caller.bytes.len() < REPLAYED_BYTES && caller.need.iter().zip(REPLAYED).all(|(need, room)| need + MARGIN <= room);
        let fresh = |cover: &Cover, step: &Step| step.kinds.iter().any(|kind| cover.lacks(kind));
        let Some(last) = caller.steps.iter().rposition(|step| fresh(&self.unlisted, step)).filter(|_| small) else { return };
        let mut listed: Vec<Vec<Step>> = Vec::new();
        let mut schedule: Vec<Step> = caller.steps.into_iter().take(last + 1).collect();
        if last < 12 {
            schedule.iter().flat_map(|step| &step.kinds).for_each(|kind| self.unlisted.meet(kind));
            listed.push(schedule);
        } else {
            for mut step in schedule.drain(..) {
                if fresh(&self.unlisted, &step) {
                    step.kinds.iter().for_each(|kind| self.unlisted.meet(kind));
                    step.left = false;
                    listed.push(vec![step]);
                }
            }
        }
        match self.listed.iter_mut().find(|(bytes, _)| *bytes == caller.bytes) {
            Some((_, schedules)) => schedules.extend(listed),
            None => self.listed.push((caller.bytes, listed)),
        }
    }
}

/// Schedules for a list: each shows a kind that none before it does.
pub fn listed(seed: u64, n: usize) -> Vec<Listed> {
    let mut ask = whole::by_rounds;
    let mut schedules = Schedules::new(seed, &mut ask);
    schedules.cases(n, &[], true);
    schedules.listed
}

/// A listed call as words: FORMATS.md has them.
pub fn step_words(step: &Step) -> Vec<u64> {
    let Portion { counts, drag, set, portion, state, scratch, poses, frames, errors } = step.call;
    let before = counts.unwrap_or(COUNTS_BEFORE);
    let mut out = vec![counts.is_some() as u64, drag as u64];
    out.extend([bits(set.tolerance), set.rounds as u64, set.row_limit as u64, bits(set.drag_weight), portion as u64]);
    out.extend(before.map(|count| count as u64));
    out.extend([state, scratch, poses, frames, errors].map(|n| n as u64));
    let given: &[f64] = if step.left { &[] } else { &step.before.state };
    out.push(given.len() as u64);
    if !step.left {
        out.extend([step.before.done as u64, step.before.run as u64]);
        out.extend(given.iter().map(|d| bits(*d)));
    }
    let (number, counts, flag) = match &step.told {
        Err(number) => (*number, before, 77),
        Ok(told) => (0, told.counts, told.flag() as u64),
    };
    let mut answer = vec![number as u64, counts[0] as u64, counts[1] as u64, step.after.done as u64, step.after.run as u64, flag];
    answer.extend(step.after.state[..state].iter().map(|d| bits(*d)));
    if let Ok(Told { answer: Answer::Solve { poses, frames, errors, .. }, .. }) = &step.told {
        answer.extend([poses, frames, errors].into_iter().flatten().map(|d| bits(*d)));
    }
    out.push(answer.len() as u64);
    out.extend(answer);
    out
}

/// The two calls of the library beside the machine: one scratch for all, never cleared, and what was compared.
struct ByRounds {
    scratch: Vec<f64>,
    tallies: [Tally; 2],
    by_max: u64,
}

impl ByRounds {
    /// Compares a call; gives what the machine makes of it.
    fn ask(&mut self, bytes: &[u8], call: &Portion, held: &Held) -> Result<Told, u32> {
        let told = whole::by_rounds(bytes, call, held);
        let mut same = port::same_by_rounds(bytes, call, held, &told, &mut self.scratch);
        if !same && !whole::has_gear(bytes) && port::same_by_rounds(bytes, call, held, &with_max01::by_rounds(bytes, call, held), &mut self.scratch) {
            self.by_max += 1;
            same = true;
        }
        let tally = &mut self.tallies[call.counts.is_some() as usize];
        let name = format!("portions-{}-{}", call.name(), tally.differ);
        tally.case(same, || {
            let told = told.as_ref().map(|told| (told.done, told.run, told.flag(), &told.events));
            let lent: Vec<String> = held.state[..call.state.min(60)].iter().map(|d| crate::answer::hex(*d)).collect();
            format!("{call:?}, done {}, run {}, {}, expected {told:?}, state {}", held.done, held.run, kept(&name, bytes), lent.join(" "))
        });
        told
    }
    fn done(&self) -> bool {
        println!("calls by rounds that differ from the Rust's release by the max of two zeros alone: {}", self.by_max);
        self.tallies.iter().fold(true, |good, tally| tally.done() & good)
    }
}

/// The library against the machine on N sheets by seed, on others, and on those in these files; and where a schedule has come to its end, the
/// library's `solve` with the same set.
pub fn run(seed: u64, n: usize, files: &[&str]) -> bool {
    let sheets: Vec<Sheet> = files
        .iter()
        .map(|file| {
            let bytes = std::fs::read(file).unwrap_or_else(|e| panic!("{file}: {e}"));
            read(&bytes).unwrap_or_else(|number| panic!("{file} is refused by {number}"))
        })
        .collect();
    let tallies = ["sheet_solve_begin", "sheet_solve_on"].map(Tally::new);
    let mut library = ByRounds { scratch: Vec::new(), tallies, by_max: 0 };
    let mut whole_runs = Library::new("portions", &[5]);
    let mut ask = |bytes: &[u8], call: &Portion, held: &Held| {
        let told = library.ask(bytes, call, held);
        if told.as_ref().is_ok_and(|told| told.events.last().is_some_and(|event| event.starts_with("finished b"))) && call.counts.is_none() {
            let Portion { drag, set, scratch, poses, frames, errors, .. } = *call;
            let _ = whole_runs.ask(bytes, Call::Solve { drag, set: Some(set), scratch, poses, frames, errors });
        }
        told
    };
    let mut schedules = Schedules::new(seed, &mut ask);
    schedules.cases(n, &sheets, false);
    let good = schedules.ends.done() & schedules.sums.done() & schedules.cover.done();
    library.done() & whole_runs.done() & good
}
