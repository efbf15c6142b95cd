//! `solve` with a set of parameters: the library's beside the Rust's, whose constants are the set's (adapt.py). Sheets and sets are drawn side by
//! side, and sets that turn on what the Rust does with a sheet are made from its answers. `want` enters at 0 the kinds of cases that must be met.

use crate::answer::{Answer, Call, Set, words};
use crate::compare::{Library, Tally};
use crate::cover::{Cover, LAWS};
use crate::edges::{Figure, LARGEST, ROW_COUNTS, taken};
use crate::rng::Rng;
use crate::scenes::said;
use crate::sets::{self, MOST_ROWS, PARAMETERS};
use crate::sheet::*;
use crate::whole;

pub const SLICES: [&str; 4] = ["scratch", "poses", "frames", "errors"];

/// What answers a call.
pub type Ask<'a> = &'a mut dyn FnMut(&[u8], Call) -> Result<Answer, u32>;

/// A call, its answer, and what the Rust did for it.
pub struct Asked {
    pub bytes: Vec<u8>,
    pub call: Call,
    pub answer: Result<Answer, u32>,
    /// Of both runs.
    pub rounds: u64,
    pub again: bool,
    /// Whether the second run's outcome was kept.
    pub kept: bool,
}

impl Asked {
    /// Makes a call, and counts what the Rust does meanwhile.
    pub fn of(ask: Ask, bytes: &[u8], call: Call) -> Asked {
        let counters = || taken(["lm::solve: round", "solve: tried again", "solve: retry kept, converged or smaller"]);
        let before = counters();
        let answer = ask(bytes, call);
        let [rounds, again, kept] = [0, 1, 2].map(|i| counters()[i] - before[i]);
        Asked { bytes: bytes.to_vec(), call, answer, rounds, again: again > 0, kept: kept > 0 }
    }
    pub fn said(&self) -> String {
        said(self.answer.as_ref().err().copied().unwrap_or(0))
    }
    pub fn flag(&self) -> bool {
        matches!(self.answer, Ok(Answer::Solve { converged: true, .. }))
    }
    /// The largest error of an accepted call.
    pub fn worst(&self) -> f64 {
        if let Ok(Answer::Solve { errors, .. }) = &self.answer { errors.iter().fold(0.0, |most, e| e.max(most)) } else { f64::NAN }
    }
    pub fn same(&self, other: &Asked) -> bool {
        words(&self.answer) == words(&other.answer)
    }
}

/// The ranges of rows by which row limits are counted.
const ROWS: [(&str, usize, usize); 5] = [("1", 1, 1), ("2 to 9", 2, 9), ("10 to 99", 10, 99), ("100 to 799", 100, 799), ("800", 800, 800)];
pub fn of_rows(rows: usize) -> String {
    ROWS.iter().find(|(_, least, most)| (*least..=*most).contains(&rows)).map_or(rows.to_string(), |(name, ..)| name.to_string())
}

/// The parameters that a set of bits names.
pub fn named(set: usize) -> String {
    PARAMETERS.iter().enumerate().filter(|(i, _)| set >> i & 1 == 1).map(|(_, name)| *name).collect::<Vec<_>>().join(" and ")
}

/// What a run might go by in place of the set's tolerance, rounds or row limit.
pub const OTHERS: [&str; 3] = ["the tolerance 1e-9", "200 rounds", "the row limit 800"];

/// The kinds that must be met, or those that a list is to show, which has fewer refusals.
fn want(for_a_list: bool) -> Cover {
    let mut all = Vec::new();
    let before: &[u32] = if for_a_list { &[8] } else { &[1, 2, 3, 4, 5, 6, 7, 14, 8] };
    for p in 0..4 {
        let refused = if for_a_list { sets::outside(p) } else { sets::refused(p) };
        all.extend(sets::accepted(p).map(|value| sets::kind(p, value, "accepted")));
        all.extend(refused.into_iter().map(|value| sets::kind(p, value, "refused 15")));
        all.extend(before.iter().map(|number| format!("refused {number}, a bad {}", PARAMETERS[p])));
        all.extend(SLICES.iter().chain(&["every slice"]).map(|slice| format!("refused 15, a bad {}, {slice} short", PARAMETERS[p])));
    }
    all.extend((1..16).filter(|bad: &usize| !for_a_list || bad.count_ones() == 1).map(|bad| format!("refused 15, a bad {} alone", named(bad))));
    all.extend(before.iter().map(|number| format!("refused {number}, a good set")));
    for slice in SLICES {
        all.push(format!("refused {}, a good set, {slice} short", if slice == "scratch" { 9 } else { 10 }));
        all.extend(["exact", "longer"].map(|length| format!("accepted, {slice} {length}")));
    }
    all.push("refused 10, a good set, every slice short".into());
    all.extend(ROW_COUNTS.iter().chain(&LARGEST).filter(|_| !for_a_list).flat_map(|size| Figure::wanted(size)));
    for (rows, least, most) in ROWS {
        all.extend((least > 1).then(|| format!("{rows} rows, row limit one under, no rounds")));
        all.push(format!("{rows} rows, row limit the same, iterated"));
        all.extend((most < MOST_ROWS).then(|| format!("{rows} rows, row limit one over, iterated")));
    }
    all.push("801 rows, row limit one under, no rounds".into());
    for what in ["stands", "stands by over 1e-9", "the slight turn stands", "the slight turn is nearer", "the slight turn is not kept"] {
        all.push(format!("over the row limit, {what}"));
    }
    for what in [
        "1 converges in the first run",
        "1 does not converge in either run",
        "k converge, where k - 1 do not",
        "k converge in the second run, where k - 1 do not",
        "k - 1 do not converge, where k do",
        "k - 1 do not converge, where k do in the second run",
        "k + 1 give what k do",
        "more than 200 in the first run, which is kept",
        "more than 200 in the second run, which is kept",
        "1000 in one run",
        "201 give another answer than 200",
        "1000 give another answer than 200",
        "1000 give another answer than 999",
    ] {
        all.push(format!("rounds, {what}"));
    }
    for end in ["the least", "the most", "another"] {
        for (what, flag) in [("the tolerance", 1), ("the double after it", 0)] {
            all.push(format!("{end} tolerance, a fixed body off by {what}, flag {flag}"));
        }
        all.push(format!("{end} tolerance, a free body off by the tolerance, flag 1 with no rounds"));
        all.push(format!("{end} tolerance, a free body off by the double after it, iterated"));
    }
    for of in ["no round", "the first run", "the second run"] {
        all.push(format!("flag 1, an error of the tolerance, by {of}"));
        all.push(format!("flag 0, an error of the double after the tolerance, by {of}"));
        all.push(format!("flag 1, an error over 1e-9, by {of}"));
        all.push(format!("flag 0, no error over 1e-9, by {of}"));
    }
    all.push("a coarse tolerance takes fewer rounds than 1e-9".into());
    all.push("a fine tolerance takes more rounds than 1e-9".into());
    for what in OTHERS {
        all.extend(["first", "second"].map(|run| format!("another answer if the {run} run had {what}")));
    }
    if !for_a_list {
        all.extend(["first", "second"].map(|run| format!("another answer if the {run} run had 60 rounds")));
    }
    all.push("another answer if the drag weight were 10000".into());
    all.push("another answer if the rounds of both runs were counted together".into());
    for what in [
        "drag weight 1 gives the answer of no drag, 10000 another",
        "drag weight 1e8 gives another answer than 10000",
        "drag weight between gives another answer than 10000 and 1",
        "no drag, every weight gives the answer of 10000",
        "drag of a fixed body, every weight gives the answer of 10000",
        "drag of an unnamed body, every weight gives the answer of 10000",
        "drag where no body may move",
    ] {
        all.push(what.into());
    }
    all.push("200 rounds and else the plain set, iterated".into());
    if !for_a_list {
        all.push("the plain set, iterated".into());
    }
    LAWS.iter().for_each(|law| all.push(format!("any set, {law} iterated")));
    for how in ["stands", "converges", "converges in the second run", "does not converge", "does not converge, nothing may move"] {
        all.extend(["with gears", "without gears"].map(|gears| format!("any set, {how}, {gears}")));
    }
    all.push("any set, 64 bodies and 128 relations iterated".into());
    let mut cover = Cover::default();
    all.into_iter().for_each(|kind| cover.add(kind, 0));
    cover
}

/// What was met, what no listed call shows, and the sheets and calls that are listed.
pub struct Kinds {
    pub cover: Cover,
    unlisted: Cover,
    pub listed: Vec<(Vec<u8>, Vec<Call>)>,
}

impl Kinds {
    /// Those that must be met, and those that a list is to show.
    pub fn new(cover: Cover, unlisted: Cover) -> Kinds {
        Kinds { cover, unlisted, listed: Vec::new() }
    }
    /// Counts a kind, and lists the call if it is the first small one of that kind.
    pub fn meet(&mut self, kind: &str, asked: &Asked) {
        self.cover.meet(kind);
        if self.unlisted.lacks(kind) && asked.bytes.len() < 2000 {
            self.unlisted.meet(kind);
            match self.listed.iter_mut().find(|(bytes, _)| *bytes == asked.bytes) {
                Some((_, calls)) if calls.contains(&asked.call) => {}
                Some((_, calls)) => calls.push(asked.call),
                None => self.listed.push((asked.bytes.clone(), vec![asked.call])),
            }
        }
    }
}

/// What asks the calls, and what was met.
pub struct Trials<'a> {
    ask: Ask<'a>,
    pub rng: Rng,
    kinds: Kinds,
    /// The plain set beside the call without a set.
    pub plain: Tally,
    /// How many sheets may yet be worked on for many rounds.
    pub long: usize,
}

/// What a sheet is asked with: a drag and a set.
pub type With = (u16, Set);

impl<'a> Trials<'a> {
    fn new(seed: u64, ask: Ask<'a>) -> Trials<'a> {
        let plain = Tally::new("the plain set and no set, by the Rust");
        Trials { ask, rng: Rng(seed), kinds: Kinds::new(want(false), want(true)), plain, long: 12 }
    }

    pub fn call(&mut self, bytes: &[u8], call: Call) -> Asked {
        Asked::of(self.ask, bytes, call)
    }

    /// A call that is lent enough, at times more.
    pub fn lent(&mut self, sheet: &Sheet, drag: u16, set: Option<Set>) -> Call {
        let (m, k) = (sheet.bodies.len(), sheet.relations.len());
        let [scratch, poses, frames, errors] = [whole::scratch(sheet).0, 12 * m, 12 * m, k].map(|n| n + self.rng.pick(&[0, 0, 1, 17]));
        Call::Solve { drag, set, scratch, poses, frames, errors }
    }

    /// Asks with a set, and counts what is told by the answer alone.
    pub fn solve(&mut self, sheet: &Sheet, (drag, set): With) -> Asked {
        let call = self.lent(sheet, drag, Some(set));
        let asked = self.call(&sheet.bytes(), call);
        if asked.answer.is_ok() {
            self.lengths(sheet, &asked);
            self.flag(set, &asked);
            if whole::rows(sheet) > set.row_limit as usize {
                self.over(&asked);
            }
        }
        asked
    }

    pub fn meet(&mut self, kind: &str, asked: &Asked) {
        self.kinds.meet(kind, asked);
    }

    fn lengths(&mut self, sheet: &Sheet, asked: &Asked) {
        let Call::Solve { scratch, poses, frames, errors, .. } = asked.call else { return };
        let (m, k) = (sheet.bodies.len(), sheet.relations.len());
        let needs = [whole::scratch(sheet).0, 12 * m, 12 * m, k];
        for ((slice, length), need) in SLICES.iter().zip([scratch, poses, frames, errors]).zip(needs).filter(|(_, need)| *need > 0) {
            self.meet(&format!("accepted, {slice} {}", if length == need { "exact" } else { "longer" }), asked);
        }
    }

    /// Just the scratch that the sheet needs, and one double less.
    pub fn scratch(&mut self, sheet: &Sheet) {
        let (figure, m, k) = (Figure::of(sheet), sheet.bodies.len(), sheet.relations.len());
        let set = Some(Set { rounds: 1, ..Set::PLAIN });
        for scratch in [figure.need, figure.need - 1] {
            let asked = self.call(&sheet.bytes(), Call::Solve { drag: GROUND, set, scratch, poses: 12 * m, frames: 12 * m, errors: k });
            let number = asked.answer.as_ref().err().copied().unwrap_or(0);
            figure.shown(scratch, number).iter().for_each(|kind| self.meet(kind, &asked));
        }
    }

    /// The flag beside the largest error.
    fn flag(&mut self, set: Set, asked: &Asked) {
        let (flag, worst) = (asked.flag(), asked.worst());
        let of = match (asked.rounds, asked.kept) {
            (0, _) => "no round",
            (_, false) => "the first run",
            _ => "the second run",
        };
        for (met, what) in [
            (flag && worst == set.tolerance, "flag 1, an error of the tolerance"),
            (!flag && worst == set.tolerance.next_up(), "flag 0, an error of the double after the tolerance"),
            (flag && worst > 1e-9, "flag 1, an error over 1e-9"),
            (!flag && worst <= 1e-9, "flag 0, no error over 1e-9"),
        ] {
            if met {
                self.meet(&format!("{what}, by {of}"), asked);
            }
        }
    }

    /// A call with more rows than the limit.
    fn over(&mut self, asked: &Asked) {
        assert_eq!(asked.rounds, 0, "rows over the limit are iterated");
        let what = match (asked.again, asked.kept, asked.flag()) {
            (false, _, true) => "stands",
            (true, true, true) => "the slight turn stands",
            (true, true, false) => "the slight turn is nearer",
            (true, false, _) => "the slight turn is not kept",
            _ => return,
        };
        self.meet(&format!("over the row limit, {what}"), asked);
        if what == "stands" && asked.worst() > 1e-9 {
            self.meet("over the row limit, stands by over 1e-9", asked);
        }
    }
}

/// The rounds of each run. The first's are those that are made if the second is allowed no rows.
pub fn rounds_of_runs(sheet: &Sheet, (drag, set): With, asked: &Asked) -> [u64; 2] {
    if !asked.again {
        return [asked.rounds, 0];
    }
    let counter = || taken(["lm::solve: round"])[0];
    let before = counter();
    whole::by_runs(sheet, drag, [set, Set { row_limit: 0, ..set }]);
    let first = counter() - before;
    [first, asked.rounds - first]
}

/// The sheets in these files.
pub fn sheets_in(files: &[&str]) -> Vec<Sheet> {
    let sheet = |file: &&str| {
        let bytes = std::fs::read(file).unwrap_or_else(|e| panic!("{file}: {e}"));
        read(&bytes).unwrap_or_else(|number| panic!("{file} is refused by {number}"))
    };
    files.iter().map(sheet).collect()
}

/// Sheets and calls for a list: each shows a kind that none before it does.
pub fn listed(seed: u64, n: usize) -> Vec<(Vec<u8>, Vec<Call>)> {
    let mut ask = whole::answer;
    let mut trials = Trials::new(seed, &mut ask);
    trials.cases(n, &[]);
    trials.kinds.listed
}

/// The library against the Rust on N sheets by seed, on others, and on those in these files.
pub fn run(seed: u64, n: usize, files: &[&str]) -> bool {
    let sheets = sheets_in(files);
    let mut library = Library::new("parameters", &[3, 5]);
    let mut ask = |bytes: &[u8], call: Call| library.ask(bytes, call);
    let mut trials = Trials::new(seed, &mut ask);
    trials.cases(n, &sheets);
    let good = trials.plain.done() & trials.kinds.cover.done();
    library.done() & good
}
