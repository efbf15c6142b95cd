//! Comparisons: tenon with document 01's `max`, the linked arcs, the linked sheet library, the program report.

use crate::answer::{Answer, Call, FIVE, bits, hex, text, words};
use crate::arguments as args;
use crate::cover::Cover;
use crate::edges;
use crate::rng::Rng;
use crate::sheet::{self, GROUND, Sheet};
use crate::{generate, port, trials, turns, whole, with_max01};
use arcs::rule;
use std::io::Write;
use std::process::{Command, ExitStatus, Stdio};

/// Every case of a seed: N valid sheets with calls that are accepted, some with calls near their limits too, and N damaged ones;
/// then every field changed by itself, sheets at the limits, sheets of few rows, and joints of many turns. `ask` gives the Rust's answer; what was
/// met is counted.
fn cases(seed: u64, n: usize, mut ask: impl FnMut(&[u8], Call) -> Result<Answer, u32>) -> Cover {
    let (mut rng, mut cover) = (Rng(seed), Cover::new());
    cover.want_lengths(&edges::ROW_COUNTS);
    cover.want_doubles();
    cover.want_turns();
    for i in 0..n {
        let most = if i % 50 == 0 { 12 } else { 4 };
        let sheet = if i % 5 == 4 { generate::nearly_free(&mut rng) } else { generate::sheet(&mut rng, i - i / 5, most) };
        cover.sheet(&sheet);
        let bytes = sheet.bytes();
        let mut calls = generate::good_calls(&mut rng, &sheet);
        if i % 4 == 0 {
            calls.extend(generate::calls(&mut rng, Some(&sheet)));
        }
        for call in calls {
            let answer = ask(&bytes, call);
            cover.call(call, &answer);
            cover.lengths(&sheet, call, &answer);
            if let Call::Solve { drag, set, scratch, poses, frames, errors } = call
                && drag != GROUND
            {
                let without = ask(&bytes, Call::Solve { drag: GROUND, set, scratch, poses, frames, errors });
                cover.add("solve with drag, another answer than without".into(), (answer.is_ok() && words(&without) != words(&answer)) as u64);
            }
        }
        let damaged = generate::damaged(&mut rng, &sheet);
        let read = sheet::read(&damaged).ok().filter(|s| s.bodies.len() < 20);
        for call in generate::calls(&mut rng, read.as_ref()) {
            let answer = ask(&damaged, call);
            cover.call(call, &answer);
            if let Some(sheet) = &read {
                cover.lengths(sheet, call, &answer);
            }
        }
    }
    for base in generate::field_bases() {
        let sheet = crate::lists::record_words(&base.bytes());
        for (at, word) in generate::field_faults(&sheet) {
            let with = |word: u64| crate::lists::with_word(&sheet, at, word);
            let bytes = with(word);
            for call in generate::calls_on_one() {
                let answer = ask(&bytes, call);
                cover.call(call, &answer);
                cover.double(f64::from_bits(word), |d| with(d.to_bits()), call, &answer);
            }
        }
    }
    for (_, sheet) in generate::limits(false) {
        cover.sheet(&sheet);
        let bytes = sheet.bytes();
        for call in generate::good_calls(&mut rng, &sheet) {
            let answer = ask(&bytes, call);
            cover.call(call, &answer);
        }
    }
    for sheet in [0, 1, 2, 3].map(trials::of_many_rows) {
        let bytes = sheet.bytes();
        for call in generate::exact_calls(&sheet, &[GROUND]) {
            let answer = ask(&bytes, call);
            cover.call(call, &answer);
            cover.lengths(&sheet, call, &answer);
        }
    }
    let mut rng = Rng(seed + 1);
    for i in (0..turns::NUMBERS).step_by(2) {
        let sheet = turns::sheet(&mut rng, i, 2);
        cover.sheet(&sheet);
        let bytes = sheet.bytes();
        for call in generate::good_calls(&mut rng, &sheet) {
            let answer = ask(&bytes, call);
            cover.call(call, &answer);
            cover.turned(&sheet, call, &answer);
        }
    }
    cover.branches();
    cover
}

/// Whether document 01's `max` ever changes an answer; prints what the cases cover.
pub fn max_and_cover(seed: u64, n: usize) -> bool {
    let (mut calls, mut differ) = (0, 0);
    let cover = cases(seed, n, |bytes, call| {
        let answer = whole::answer(bytes, call);
        calls += 1;
        if !whole::has_gear(bytes) && words(&answer) != words(&with_max01::answer(bytes, call)) {
            differ += 1;
        }
        answer
    });
    cover.print();
    let good = cover.done();
    println!("max of two zeros as document 01 has it: {differ} of {calls} answers differ from the Rust's release");
    good
}

/// A count of comparisons and of the differences among them, the first few printed.
pub struct Tally {
    what: &'static str,
    compared: u64,
    pub differ: u64,
}

impl Tally {
    pub fn new(what: &'static str) -> Tally {
        Tally { what, compared: 0, differ: 0 }
    }
    pub fn case(&mut self, same: bool, show: impl FnOnce() -> String) {
        self.compared += 1;
        if !same {
            self.differ += 1;
            if self.differ <= 5 {
                println!("{} differs: {}", self.what, show());
            }
        }
    }
    /// Prints the counts; whether something was compared and nothing differs.
    pub fn done(&self) -> bool {
        println!("{}: {} compared, {} differ", self.what, self.compared, self.differ);
        self.compared > 0 && self.differ == 0
    }
}

/// The linked arcs and root against `rule` and the hardware's root.
pub fn arcs(n: usize) -> bool {
    let mut rng = Rng(n as u64);
    let (mut sine, mut cosine, mut arctangent, mut root) = (Tally::new("sine"), Tally::new("cosine"), Tally::new("arctangent"), Tally::new("root"));
    let mut far = Tally::new("of these, sine and cosine of t over 64 and up to 2^20");
    let mut one = |t: f64| {
        let (s, c, (a, b)) = (arcs::sine(t), arcs::cosine(t), rule::pair(t));
        sine.case(bits(s) == bits(a), || format!("of {} {} for {}", hex(t), hex(s), hex(a)));
        cosine.case(bits(c) == bits(b), || format!("of {} {} for {}", hex(t), hex(c), hex(b)));
        if rule::far(t) {
            far.case(bits(s) == bits(a) && bits(c) == bits(b), || hex(t));
        }
    };
    args::angles().into_iter().for_each(&mut one);
    (0..n).for_each(|_| one(args::angle(&mut rng)));
    (0..n / 2).for_each(|_| one(args::long_angle(&mut rng)));
    let mut one = |(y, x): (f64, f64)| {
        let (a, b) = (arcs::arctangent(y, x), rule::arctangent(y, x));
        arctangent.case(bits(a) == bits(b), || format!("of {} {} {} for {}", hex(y), hex(x), hex(a), hex(b)));
    };
    args::slopes().into_iter().for_each(&mut one);
    (0..n).for_each(|_| one(args::slope(&mut rng)));
    let mut one = |x: f64| {
        let (a, b) = (arcs::root(x), x.sqrt());
        root.case(bits(a) == bits(b), || format!("of {} {} for {}", hex(x), hex(a), hex(b)));
    };
    args::squares(&mut rng).into_iter().for_each(&mut one);
    (0..n).for_each(|_| one(args::square(&mut rng)));
    // The root takes a shorter way near 1: every double there, and about the edges of that way.
    for near in [1.0f64, 0.99999999, 1.00000001] {
        (0..20_000).for_each(|i| one(f64::from_bits(near.to_bits() - 10_000 + i)));
    }
    (0..n / 10).for_each(|_| one(1.0 + rng.range(-1.1e-8, 1.1e-8)));
    let good = [sine, cosine, far, arctangent, root].iter().fold(true, |good, tally| tally.done() & good);
    // The edges of turns must tell k from the floor of t/T in doubles.
    let other = |t: f64| rule::far(t) && (t / rule::T).floor() != rule::turns(t) as f64;
    let told = args::turn_edges().filter(|edge| args::around(*edge, 2).any(other)).count();
    println!("edges of turns: {}, {told} of them with another k by the floor of t/T in doubles", args::turn_edges().count());
    good && told > 0
}

/// Keeps what was given to the two sides that differ, and says where.
pub fn kept(name: &str, bytes: &[u8]) -> String {
    let file = format!("build/differs-{name}.sheet");
    std::fs::write(&file, bytes).map_or_else(|e| e.to_string(), |()| format!("kept as {file}"))
}

/// The sheet library beside the Rust: one scratch for all calls, never cleared, and what was compared.
pub struct Library {
    run: &'static str,
    scratch: Vec<f64>,
    tallies: [Tally; 6],
    /// The calls that must be asked, by their numbers.
    calls: &'static [usize],
    by_max: u64,
}

impl Library {
    pub fn new(run: &'static str, calls: &'static [usize]) -> Library {
        let names = ["sheet_judge", "sheet_joint_reading", "sheet_snap", "sheet_solve", "sheet_dof", "sheet_solve_with"];
        Library { run, scratch: Vec::new(), tallies: names.map(Tally::new), calls, by_max: 0 }
    }

    /// Compares answer or refusal, and what must stay as it was; gives the Rust's answer.
    pub fn ask(&mut self, bytes: &[u8], call: Call) -> Result<Answer, u32> {
        let answer = whole::answer(bytes, call);
        let mut same = port::same(bytes, call, &answer, &mut self.scratch);
        // Where only document 01's max of zeros sets them apart, that is a listed difference. The copy with gears has that max.
        if !same && !whole::has_gear(bytes) && port::same(bytes, call, &with_max01::answer(bytes, call), &mut self.scratch) {
            self.by_max += 1;
            same = true;
        }
        let tally = &mut self.tallies[call.number()];
        let name = format!("{}-{}-{}", self.run, tally.what, tally.differ);
        tally.case(same, || format!("{call:?}, {}, expected\n{}", kept(&name, bytes), text(call, &answer)));
        answer
    }

    pub fn done(&self) -> bool {
        println!("answers that differ from the Rust's release by the max of two zeros alone: {}", self.by_max);
        self.calls.iter().fold(true, |good, call| self.tallies[*call].done() & good)
    }
}

/// The sheet library against the Rust on the cases of a seed.
pub fn sheet(seed: u64, n: usize) -> bool {
    let mut library = Library::new("seed", &FIVE);
    let cover = cases(seed, n, |bytes, call| library.ask(bytes, call));
    library.done() & cover.done()
}

/// The sheet library against the Rust at the limits of bodies, relations and rows, and on the sheets in these files.
pub fn limits(files: &[&str]) -> bool {
    let (mut library, mut cover) = (Library::new("limits", &FIVE), Cover::default());
    cover.want_most();
    let mut ask = |bytes: &[u8], call: Call| {
        let before = edges::rounds();
        let answer = library.ask(bytes, call);
        let after = edges::rounds();
        cover.most(bytes, call, &answer, [after[0] - before[0], after[1] - before[1]]);
    };
    for sheet in generate::counts() {
        let bytes = sheet.bytes();
        generate::exact_calls(&sheet, &[GROUND]).into_iter().for_each(|call| ask(&bytes, call));
    }
    let large = generate::large().into_iter();
    let small = generate::limits(true).into_iter().map(|(_, sheet)| (sheet, vec![GROUND, 0]));
    for (sheet, drags) in large.chain(small) {
        let bytes = sheet.bytes();
        generate::exact_calls(&sheet, &drags).into_iter().for_each(|call| ask(&bytes, call));
    }
    for file in files {
        let bytes = std::fs::read(file).unwrap_or_else(|e| panic!("{file}: {e}"));
        let sheet = sheet::read(&bytes).unwrap_or_else(|number| panic!("{file} is refused by {number}"));
        generate::exact_calls(&sheet, &[GROUND, 1]).into_iter().for_each(|call| ask(&bytes, call));
    }
    library.done() & cover.done()
}

/// What a program prints for an input, and how it ends.
pub fn run_report(program: &str, input: &[u8]) -> (Vec<u8>, ExitStatus) {
    let mut child = Command::new(program).stdin(Stdio::piped()).stdout(Stdio::piped()).spawn().expect("cannot run report");
    child.stdin.take().unwrap().write_all(input).ok();
    let out = child.wait_with_output().unwrap();
    (out.stdout, out.status)
}

/// The program `report` against the Rust.
pub fn report(program: &str, seed: u64, n: usize) -> bool {
    let (mut tally, mut cover) = (Tally::new("report"), Cover::default());
    cover.want_report();
    let mut run = |input: &[u8]| {
        let (given, status) = run_report(program, input);
        let want = whole::report(input);
        let name = format!("report-{}", tally.differ);
        tally.case(status.success() && given == want.as_bytes(), || {
            format!("{}, {status}, expected\n{want}given\n{}", kept(&name, input), String::from_utf8_lossy(&given))
        });
        cover.report(input, &want);
    };
    let mut rng = Rng(seed);
    for i in 0..n {
        let sheet = generate::sheet(&mut rng, i, 3);
        run(&sheet.bytes());
        run(&generate::damaged(&mut rng, &sheet));
    }
    let limits = generate::limits(true).into_iter().map(|(_, sheet)| sheet);
    let sheets = limits.chain(generate::counts()).chain(generate::large().into_iter().map(|(sheet, _)| sheet)).chain(generate::scratch_of_report());
    sheets.for_each(|sheet| run(&sheet.bytes()));
    let full = Sheet { bodies: vec![sheet::Body::default(); 64], relations: vec![sheet::Relation::default(); 128] }.bytes();
    for extra in [0, 1, 2, 1000] {
        run(&[&full[..], &vec![0; extra]].concat());
    }
    run(&[]);
    tally.done() & cover.done()
}
