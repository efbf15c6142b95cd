//! The sheet library and `report` on sheets with gears, beside the second program's rows (gear.rs) and tenon with these rows put in.
//! What the cases must meet is entered at 0 by the functions that begin with `want`, and counted.

use crate::answer::{Answer, Call, FIVE, NAMES, Set, bits, hex, words};
use crate::compare::{Library, Tally, kept};
use crate::cover::{Cover, PRIMS};
use crate::edges::{ROW_COUNTS, rounds};
use crate::jams::slow_with_gear;
use crate::rng::Rng;
use crate::sheet::*;
use crate::trains::{self, ORDER, pose_of, worked};
use crate::{generate, lists, whole, with_gears};

const ENDS: [&str; 3] = ["a", "b", "carrier"];

fn sign(d: f64) -> &'static str {
    match (d == 0.0, d.is_sign_negative()) {
        (true, false) => "+0",
        (true, true) => "-0",
        (false, false) => "over 0",
        (false, true) => "under 0",
    }
}

impl Cover {
    fn want_gears(&mut self) {
        for (a, b, c) in PRIMS.iter().flat_map(|a| PRIMS.iter().flat_map(move |b| PRIMS.iter().map(move |c| (a, b, c)))) {
            self.add(format!("gear of {a} and {b} carried by {c}"), 0);
        }
        (0..8).for_each(|i| self.add(format!("gear mirrored {}{}{}", i >> 2, i >> 1 & 1, i & 1), 0));
        for end in ENDS {
            for what in ["on the ground", "on a fixed body", "on a free body", "with the world's frame"] {
                self.add(format!("gear, {end} {what}"), 0);
            }
        }
        for what in ["both wheels on one body", "a wheel and the carrier on one body", "all on one body"] {
            self.add(format!("gear, {what}"), 0);
        }
        for wheel in ["a", "b"] {
            for what in ["of 1 tooth", "of 2 teeth", "of 399 teeth", "of 400 teeth"] {
                self.add(format!("gear, {wheel} {what}"), 0);
            }
            for (y, x) in [0.0, -0.0, 1.0, -1.0].iter().flat_map(|y| [0.0, -0.0, 1.0, -1.0].map(|x| (sign(*y), sign(x)))) {
                self.add(format!("gear, {wheel} at y {y}, x {x}"), 0);
            }
        }
        for what in ["+0", "-0", "pi", "-pi", "1000", "-1000"] {
            self.add(format!("gear, angle {what}"), 0);
        }
        for what in ["wrapped from above", "wrapped from below", "not wrapped", "-pi becomes pi", "0", "over 0", "under 0"] {
            self.add(format!("gear row {what}"), 0);
        }
    }
    /// A gear, its bodies and its row at their frames.
    fn gear(&mut self, r: &Relation, bodies: &[Body]) {
        use std::f64::consts::PI;
        let [a, b, c] = r.ends.map(|e| PRIMS[e.prim as usize]);
        self.add(format!("gear of {a} and {b} carried by {c}"), 1);
        let [a, b, c] = r.ends.map(|e| e.mirrored);
        self.add(format!("gear mirrored {a}{b}{c}"), 1);
        let work = worked(r, &bodies.iter().map(pose_of).collect::<Vec<_>>());
        for (i, name) in ENDS.iter().enumerate() {
            let on = match bodies.get(r.ends[i].body as usize) {
                None => "on the ground",
                Some(b) if b.fixed == 1 => "on a fixed body",
                _ => "on a free body",
            };
            self.add(format!("gear, {name} {on}"), 1);
            self.add(format!("gear, {name} with the world's frame"), !work.framed[i] as u64);
        }
        let [a, b, c] = r.ends.map(|e| (e.body != GROUND).then_some(e.body));
        self.add("gear, both wheels on one body".into(), (a.is_some() && a == b) as u64);
        self.add("gear, a wheel and the carrier on one body".into(), (c.is_some() && (a == c || b == c)) as u64);
        self.add("gear, all on one body".into(), (a.is_some() && a == b && b == c) as u64);
        for (i, wheel) in ["a", "b"].iter().enumerate() {
            match r.teeth[i] {
                1 => self.add(format!("gear, {wheel} of 1 tooth"), 1),
                n @ (2 | 399 | 400) => self.add(format!("gear, {wheel} of {n} teeth"), 1),
                _ => {}
            }
            let [y, x] = work.slopes[i];
            self.add(format!("gear, {wheel} at y {}, x {}", sign(y), sign(x)), 1);
        }
        for (angle, name) in [(0.0, "+0"), (-0.0, "-0"), (PI, "pi"), (-PI, "-pi"), (SIZE, "1000"), (-SIZE, "-1000")] {
            self.add(format!("gear, angle {name}"), (r.angle.to_bits() == f64::to_bits(angle)) as u64);
        }
        let how = match work.difference {
            d if d > PI => "wrapped from above",
            d if d <= -PI => "wrapped from below",
            _ => "not wrapped",
        };
        self.add(format!("gear row {how}"), 1);
        // The remainder of the difference and half a turn is 0 there, so half a turn less is −π.
        self.add("gear row -pi becomes pi".into(), ((work.difference + PI).rem_euclid(2.0 * PI) == 0.0) as u64);
        let of = if work.row == 0.0 { "0" } else { sign(work.row) };
        self.add(format!("gear row {of}"), 1);
    }

    fn want_geared(&mut self) {
        self.want_calls();
        // A gear has a row.
        self.want_lengths(&ROW_COUNTS[1..]);
        self.want_doubles();
        for how in ["holds at the start", "converged", "converged by the second run", "not converged", "with drag"] {
            self.add(format!("solve with gears, {how}"), 0);
        }
        (0..GEAR).for_each(|law| self.add(format!("gear beside law {law}"), 0));
        ["solved", "counted"].iter().for_each(|what| self.add(format!("the carrier alone names a free body that is {what}"), 0));
        self.add("64 bodies and 128 gears, converged".into(), 0);
    }
    /// An accepted call on a sheet with gears, and how many rounds and second runs it took.
    fn geared(&mut self, sheet: &Sheet, call: Call, answer: &Answer, [rounds, again]: [u64; 2]) {
        let how = match answer {
            Answer::Solve { converged: true, .. } if rounds == 0 => "holds at the start",
            Answer::Solve { converged: true, .. } if again == 0 => "converged",
            Answer::Solve { converged: true, .. } => "converged by the second run",
            Answer::Solve { .. } => "not converged",
            Answer::Dof { .. } => "counted",
            _ => return,
        };
        if let Call::Solve { drag, .. } = call {
            self.add(format!("solve with gears, {how}"), 1);
            self.add("solve with gears, with drag".into(), (drag != GROUND) as u64);
            sheet.relations.iter().filter(|r| r.law != GEAR).for_each(|r| self.add(format!("gear beside law {}", r.law), 1));
            let most = sheet.bodies.len() == MOST_BODIES && sheet.relations.len() == MOST_RELATIONS;
            self.add("64 bodies and 128 gears, converged".into(), (most && how == "converged") as u64);
        }
        // Every end that is used, but the carriers of gears.
        let others = |r: &Relation| r.used_ends()[..if r.law == GEAR { 2 } else { r.used_ends().len() }].to_vec();
        let named = |i: usize| sheet.relations.iter().flat_map(others).any(|e| e.body as usize == i);
        let carries = |i: usize| sheet.relations.iter().any(|r| r.law == GEAR && r.ends[2].body as usize == i);
        let alone = (0..sheet.bodies.len()).any(|i| sheet.bodies[i].fixed == 0 && carries(i) && !named(i));
        let what = if let Call::Solve { .. } = call { "solved" } else { "counted" };
        let moved = rounds > 0 || what == "counted";
        self.add(format!("the carrier alone names a free body that is {what}"), (alone && moved) as u64);
    }

    fn want_refused(&mut self, calls: &[&str]) {
        for call in calls {
            for wheel in ["a", "b"] {
                [0, 401, 65535].iter().for_each(|n| self.add(format!("{call} refused 14, {wheel} of {n} teeth"), 0));
            }
            for (i, first) in ORDER.iter().enumerate() {
                ORDER[i + 1..].iter().for_each(|then| self.add(format!("{call} refused {first}, {then} in the same gear"), 0));
                ORDER.iter().for_each(|then| self.add(format!("{call} refused {first}, {then} in the next gear"), 0));
            }
        }
    }
    /// A sheet of `trains::orders`, refused by `number`.
    fn order(&mut self, call: &str, faults: &[Vec<u32>; 2], number: u32) {
        let others = |of: usize| faults[of].iter().filter(move |n| of == 1 || **n != number);
        others(0).for_each(|then| self.add(format!("{call} refused {number}, {then} in the same gear"), 1));
        others(1).for_each(|then| self.add(format!("{call} refused {number}, {then} in the next gear"), 1));
    }
    /// A gear with nothing wrong but its teeth, refused by 14.
    fn toothless(&mut self, call: &str, [a, b]: [u16; 2]) {
        let good = |n: u16| (1..=MOST_TEETH).contains(&n);
        match (good(a), good(b)) {
            (false, true) => self.add(format!("{call} refused 14, a of {a} teeth"), 1),
            (true, false) => self.add(format!("{call} refused 14, b of {b} teeth"), 1),
            _ => {}
        }
    }
}

/// Gears by themselves: the second program's row, that of tenon with gears, and the magnitude that the library reports as the error where
/// nothing can move.
fn rows(rng: &mut Rng, n: usize, library: &mut Library, cover: &mut Cover) -> bool {
    let (mut put_in, mut reported) = (Tally::new("row put into tenon"), Tally::new("reported error of a gear"));
    for i in 0..n {
        let (r, bodies) = trains::single(rng, i);
        cover.gear(&r, &bodies);
        let poses = bodies.map(|b| pose_of(&b));
        let row = worked(&r, &poses).row;
        let put = with_gears::rows(&r, &poses);
        put_in.case(put.len() == 1 && bits(put[0]) == bits(row), || format!("{} for {}", hex(put[0]), hex(row)));
        let sheet = Sheet { bodies: bodies.to_vec(), relations: vec![r] };
        let (scratch, _) = whole::scratch(&sheet);
        let set = Some(Set::TWO_HUNDRED);
        let answer = library.ask(&sheet.bytes(), Call::Solve { drag: GROUND, set, scratch, poses: 36, frames: 36, errors: 1 });
        let Ok(Answer::Solve { errors, .. }) = answer else { panic!("a gear is refused") };
        reported.case(bits(errors[0]) == bits(row.abs()), || format!("{} for {}", hex(errors[0]), hex(row.abs())));
    }
    put_in.done() & reported.done()
}

/// Counts a call on a sheet with gears, which `ask` answers.
pub fn count(cover: &mut Cover, sheet: &Sheet, call: Call, ask: impl FnOnce() -> Result<Answer, u32>) -> Result<Answer, u32> {
    let before = rounds();
    let answer = ask();
    let after = rounds();
    cover.call(call, &answer);
    if let Ok(answer) = &answer {
        cover.geared(sheet, call, answer, [after[0] - before[0], after[1] - before[1]]);
    }
    answer
}

/// Whole calls on a sheet with gears.
fn calls(sheet: &Sheet, calls: Vec<Call>, library: &mut Library, cover: &mut Cover) {
    let bytes = sheet.bytes();
    for r in sheet.relations.iter().filter(|r| r.law == GEAR) {
        cover.gear(r, &sheet.bodies);
    }
    for call in calls {
        let answer = count(cover, sheet, call, || library.ask(&bytes, call));
        cover.lengths(sheet, call, &answer);
        if let Call::Solve { drag, set, scratch, poses, frames, errors } = call
            && drag != GROUND
        {
            let without = library.ask(&bytes, Call::Solve { drag: GROUND, set, scratch, poses, frames, errors });
            cover.add("solve with drag, another answer than without".into(), (answer.is_ok() && words(&without) != words(&answer)) as u64);
        }
    }
}

/// Every field of a gear by itself, law and teeth of every law, and every two faults in one gear or in two.
fn fields(library: &mut Library, cover: &mut Cover) {
    for (base, changes) in trains::changes() {
        let words = lists::record_words(&base.bytes());
        let valid = read(&base.bytes()).is_ok();
        for (at, word) in changes {
            let with = |word: u64| lists::with_word(&words, at, word);
            let bytes = with(word);
            for call in generate::calls_on_one() {
                let answer = library.ask(&bytes, call);
                cover.call(call, &answer);
                cover.double(f64::from_bits(word), |d| with(d.to_bits()), call, &answer);
                if valid && answer == Err(14) {
                    cover.toothless(call.name(), [(word >> 32) as u16, (word >> 48) as u16]);
                }
            }
        }
    }
    for (faults, sheet) in trains::orders() {
        let bytes = sheet.bytes();
        for call in generate::calls_on_one() {
            let number = library.ask(&bytes, call).expect_err("a sheet with faults is accepted");
            cover.order(call.name(), &faults, number);
        }
    }
}

/// The library on gears alone and on N valid and N damaged sheets with gears; with a program, that one as `report` on some of them.
pub fn run(seed: u64, n: usize, program: Option<&str>) -> bool {
    let (mut rng, mut cover) = (Rng(seed), Cover::default());
    let mut library = Library::new("gears", &FIVE);
    cover.want_gears();
    cover.want_geared();
    cover.want_refused(&FIVE.map(|call| NAMES[call]));
    let mut good = rows(&mut rng, 8 * n, &mut library, &mut cover);
    let mut inputs = Vec::new();
    for i in 0..n {
        let sheet = trains::sheet(&mut rng, i);
        let mut asked = generate::good_calls(&mut rng, &sheet);
        if i % 3 == 0 {
            asked.extend(generate::calls(&mut rng, Some(&sheet)));
        }
        calls(&sheet, asked, &mut library, &mut cover);
        let damaged = trains::damaged(&mut rng, &sheet);
        let read = read(&damaged).ok().filter(|s| s.bodies.len() < 20);
        for call in generate::calls(&mut rng, read.as_ref()) {
            let answer = library.ask(&damaged, call);
            cover.call(call, &answer);
        }
        if i % 7 == 0 {
            inputs.extend([sheet.bytes(), damaged]);
        }
    }
    fields(&mut library, &mut cover);
    // A gear once, twice and three times.
    let base = trains::field_bases().remove(0);
    for sheet in [1, 2, 3].map(|k| Sheet { relations: base.relations.repeat(k), ..base.clone() }) {
        calls(&sheet, generate::exact_calls(&sheet, &[GROUND, 0]), &mut library, &mut cover);
    }
    let full = trains::full();
    calls(&full, generate::exact_calls(&full, &[GROUND, 5]), &mut library, &mut cover);
    inputs.push(full.bytes());
    inputs.extend(trains::orders().into_iter().map(|(_, sheet)| sheet.bytes()));
    inputs.push(slow_with_gear().bytes());
    if let Some(program) = program {
        good &= report(program, &inputs);
    }
    good & library.done() & cover.done()
}

/// The program `report` on inputs with gears.
fn report(program: &str, inputs: &[Vec<u8>]) -> bool {
    let (mut tally, mut cover) = (Tally::new("report with gears"), Cover::default());
    ["accepted", "refused 5", "refused 6", "refused 7", "refused 9", "refused 14"].iter().for_each(|said| cover.add(format!("report {said}"), 0));
    cover.want_named();
    for input in inputs {
        let want = whole::report(input);
        cover.named(input, &want);
        let (given, status) = crate::compare::run_report(program, input);
        let name = format!("report-gears-{}", tally.differ);
        tally.case(status.success() && given == want.as_bytes(), || {
            format!("{}, {status}, expected\n{want}given\n{}", kept(&name, input), String::from_utf8_lossy(&given))
        });
        let said = want.lines().next().unwrap();
        let accepted = !said.starts_with("refused");
        if !accepted || whole::has_gear(input) {
            cover.add(format!("report {}", if accepted { "accepted" } else { said }), 1);
        }
    }
    tally.done() & cover.done()
}
