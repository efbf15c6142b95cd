//! The oracle: answers of the Rust, sheets to ask it about, and comparisons with the port.
//! `oracle` alone prints the commands.

#[macro_use]
mod library;

mod answer;
mod arguments;
mod bare;
mod bench;
mod calls_text;
mod compare;
mod cover;
mod edges;
mod examples;
mod gears;
mod generate;
mod jams;
mod lists;
mod opening;
mod parameters;
mod port;
mod portions;
mod rng;
mod running;
mod scenes;
mod schedules;
mod sets;
mod sheet;
mod trains;
mod trials;
mod turns;
mod whole;
mod writing;

/// The calls as tenon answers them.
mod plain {
    use tenon;
    include!("calls.rs");
    include!("by_rounds.rs");
    fn gear_of(_: &sheet::Relation) -> Law {
        panic!("tenon has no gear")
    }
}
/// The calls as tenon answers them with document 01's `max`.
mod with_max01 {
    #![allow(dead_code)]
    use tenon_max as tenon;
    include!("calls.rs");
    include!("by_rounds.rs");
    fn gear_of(_: &sheet::Relation) -> Law {
        panic!("tenon has no gear")
    }
}
/// The calls as tenon answers them with document 01's `max` and with the second program's gears.
mod with_gears {
    #![allow(dead_code)]
    use tenon_gear as tenon;
    include!("calls.rs");
    include!("by_rounds.rs");
    fn gear_of(r: &sheet::Relation) -> Law {
        Law::Gear { carrier: end_of(&r.ends[2]), angle: r.angle, teeth: r.teeth }
    }
}

use std::io::Read;

const USAGE: &str = "oracle answer FILE [DRAG]     all answers about a sheet, with all bits; `solve` names 200 rounds
oracle report < FILE          what the program report prints
oracle gen SEED N DIR         N valid sheets, written as DIR/NNNN.sheet, and what they cover
oracle cover SEED N           all calls on N valid and N damaged sheets, the limits, joints of many turns: counts, branches, max
oracle examples               document 01's own examples, asked of the oracle
oracle calls FILE..           what examples/calls.c prints about these sheets, from the Rust's answers
oracle arcs N                 the linked root, sine, cosine and arctangent at their edges and on about 5N arguments
oracle bench                  time per call of the linked arcs and root beside Rust's own
oracle bench FILE..           time of the linked opening, `solve`, `dof` and writing on these sheets beside the Rust's
oracle sheet SEED N           the linked sheet library against the Rust on N valid and N damaged sheets
oracle limits FILE..          the same at the limits of bodies, relations and rows, and on the sheets in these files
oracle run-report PROGRAM SEED N    the program report against the Rust
oracle gears SEED N [PROGRAM] the sheet library, and the program report, on gears: 8N rows, N valid and N damaged sheets
oracle opening                the number that the sheet library's opening gives against the oracle's own reader's, on sheets changed in any byte
oracle bare SEED N FILE..     `solve` of the sheet library without a set against the Rust built for 60 rounds, on N sheets and on those in these files
oracle rounds FILE..          how many rounds the Rust makes on the sheets in these files, without a set and with 200 rounds
oracle parameters SEED N FILE..    `solve` of the sheet library with sets of parameters against the Rust, on N sheets and on those in these files
oracle portions SEED N FILE..    the sheet library's solving by rounds against the Rust's rounds, on N sheets and on those in these files
oracle write SEED N FILE..    the sheet library's writing against the second writer: N scenes, fields changed, limits, the sheets in these files
oracle lists DIR [SCALE]      the frozen lists (FORMATS.md); SCALE above 1 makes longer ones";

fn main() {
    let args: Vec<String> = std::env::args().skip(1).collect();
    let args: Vec<&str> = args.iter().map(String::as_str).collect();
    let number = |s: &str| s.parse::<usize>().unwrap_or_else(|_| panic!("{s} is no number"));
    let good = match args[..] {
        ["answer", file] => print_answers(file, sheet::GROUND),
        ["answer", file, drag] => print_answers(file, number(drag) as u16),
        ["report"] => {
            let mut input = Vec::new();
            std::io::stdin().read_to_end(&mut input).unwrap();
            print!("{}", whole::report(&input));
            true
        }
        ["gen", seed, n, dir] => write_sheets(number(seed) as u64, number(n), dir),
        ["cover", seed, n] => compare::max_and_cover(number(seed) as u64, number(n)),
        ["arcs", n] => compare::arcs(number(n)),
        ["sheet", seed, n] => compare::sheet(number(seed) as u64, number(n)),
        ["limits", ref files @ ..] => compare::limits(files),
        ["run-report", program, seed, n] => compare::report(program, number(seed) as u64, number(n)),
        ["gears", seed, n] => gears::run(number(seed) as u64, number(n), None),
        ["gears", seed, n, program] => gears::run(number(seed) as u64, number(n), Some(program)),
        ["opening"] => opening::run(),
        ["bare", seed, n, ref files @ ..] => bare::run(number(seed) as u64, number(n), files),
        ["rounds", ref files @ ..] => bare::rounds(files),
        ["parameters", seed, n, ref files @ ..] => parameters::run(number(seed) as u64, number(n), files),
        ["portions", seed, n, ref files @ ..] => portions::run(number(seed) as u64, number(n), files),
        ["write", seed, n, ref files @ ..] => scenes::run(number(seed) as u64, number(n), files),
        ["bench"] => bench::run(),
        ["bench", ref files @ ..] => bench::sheets(files),
        ["examples"] => examples::run(),
        ["calls", ref files @ ..] => calls_text::run(files),
        ["lists", dir] => lists::write(dir, 1),
        ["lists", dir, scale] => lists::write(dir, number(scale)),
        _ => {
            println!("{USAGE}");
            false
        }
    };
    std::process::exit(if good { 0 } else { 1 });
}

fn print_answers(file: &str, drag: u16) -> bool {
    let bytes = std::fs::read(file).unwrap();
    let k = sheet::read(&bytes).map_or(1, |s| s.relations.len() as u16);
    let lots = 10_000_000;
    let mut calls = Vec::new();
    for relation in 0..k {
        calls.extend([answer::Call::Judge { relation }, answer::Call::Reading { relation }, answer::Call::Snap { relation, motion: 12 }]);
    }
    calls.push(answer::Call::Solve { drag, set: Some(answer::Set::TWO_HUNDRED), scratch: lots, poses: lots, frames: lots, errors: lots });
    calls.push(answer::Call::Dof { scratch: lots, freedoms: lots });
    for call in calls {
        print!("{}", answer::text(call, &whole::answer(&bytes, call)));
    }
    true
}

fn write_sheets(seed: u64, n: usize, dir: &str) -> bool {
    std::fs::create_dir_all(dir).unwrap();
    let (mut rng, mut cover) = (rng::Rng(seed), cover::Cover::new());
    for i in 0..n {
        let sheet = generate::sheet(&mut rng, i, 6);
        cover.sheet(&sheet);
        std::fs::write(format!("{dir}/{i:04}.sheet"), sheet.bytes()).unwrap();
    }
    cover.branches();
    cover.print();
    cover.done();
    true
}
