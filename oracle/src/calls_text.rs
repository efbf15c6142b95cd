//! What examples/calls.c prints about a sheet, from the Rust's own answers: the text that the C program is held to. Nothing here asks the port.
//! The sheet is read by sheet.rs, solved by rounds by by_rounds.rs, and written by writing.rs.

use crate::answer::{Answer, Call, Set};
use crate::running::{FINISHED, Held, Portion, Told};
use crate::sheet::{self, GROUND};
use crate::whole;
use crate::writing;

/// The lines about the sheets in these files, and whether every call is accepted and the answers agree with each other.
pub fn run(files: &[&str]) -> bool {
    let mut good = !files.is_empty();
    for file in files {
        let name = file.rsplit('/').next().unwrap();
        let bytes = std::fs::read(file).unwrap_or_else(|error| panic!("{file}: {error}"));
        let mut out = String::new();
        if let Err(refusal) = lines(&mut out, name, &bytes) {
            out += &refusal;
            good = false;
        }
        print!("{out}");
    }
    good
}

/// The number as six decimals show it, without the sign of a zero.
fn shown(x: f64) -> f64 {
    if x.abs() < 5e-7 { 0.0 } else { x }
}
fn vector(v: &[f64]) -> String {
    format!("{:.6} {:.6} {:.6}", shown(v[0]), shown(v[1]), shown(v[2]))
}
fn degrees(radians: f64) -> f64 {
    radians * (180.0 / std::f64::consts::PI)
}
/// The angle of a turning, given by its nine entries by row, in degrees.
fn turned(r: &[f64]) -> f64 {
    let (x, y, z) = (r[7] - r[5], r[2] - r[6], r[3] - r[1]);
    degrees((x * x + y * y + z * z).sqrt().atan2(r[0] + r[4] + r[8] - 1.0))
}
fn solved(answer: &Answer) -> String {
    let Answer::Solve { errors, converged, .. } = answer else { unreachable!() };
    let largest = errors.iter().copied().fold(0.0, f64::max);
    format!("flag {}, largest error {largest:.6} mm or rad\n", *converged as u8)
}

/// The lines about one sheet. A refusal is the last line.
fn lines(out: &mut String, name: &str, bytes: &[u8]) -> Result<(), String> {
    let read = sheet::read(bytes).map_err(|number| format!("{name}: refused {number}\n"))?;
    let (m, k) = (read.bodies.len(), read.relations.len());
    *out += &format!("{name}: bytes {}, bodies {m}, relations {k}\n", bytes.len());
    let ask = |name: &str, call: Call| whole::answer(bytes, call).map_err(|number| format!("{name}: refused {number}\n"));
    for relation in 0..k as u16 {
        let number = whole::answer(bytes, Call::Judge { relation }).err().unwrap_or(0);
        *out += &format!("judge {relation}: {} its ends, {number}\n", if number == 0 { "suits" } else { "does not suit" });
    }
    for relation in 0..k as u16 {
        let Answer::Reading { offset, angle } = ask("joint_reading", Call::Reading { relation })? else { unreachable!() };
        *out += &format!("joint_reading {relation}: offset {:.6} mm, angle {:.6} degrees\n", shown(offset), shown(degrees(angle)));
    }
    for relation in 0..k as u16 {
        let Answer::Snap { motion } = ask("snap", Call::Snap { relation, motion: 12 })? else { unreachable!() };
        *out += &format!("snap {relation}: turn {:.6} degrees, shift {} mm\n", shown(turned(&motion)), vector(&motion[9..]));
    }
    let lots = 2_000_000;
    let solve = |drag: u16, set: Option<Set>| Call::Solve { drag, set, scratch: lots, poses: lots, frames: lots, errors: lots };
    let at_once = ask("solve", solve(GROUND, None))?;
    *out += &format!("solve: {}", solved(&at_once));
    *out += &places(&at_once);
    let coarse = Set { tolerance: 1e-3, rounds: 20, ..Set::PLAIN };
    let drag = if m == 0 { GROUND } else { m as u16 - 1 };
    let answer = ask("solve_with", solve(drag, Some(coarse)))?;
    *out += &format!("solve_with 0.001 and 20 rounds, body {drag} dragged: {}", solved(&answer));
    let told = by_rounds(out, bytes)?;
    let same = told.answers(&at_once);
    *out += &format!("solve and solve_on: {}\n", if same { "the same in every bit" } else { "different" });
    let Answer::Dof { freedoms, free } = ask("dof", Call::Dof { scratch: lots, freedoms: lots })? else { unreachable!() };
    *out += &format!("dof: free {free}\n");
    for (i, body) in freedoms.chunks(29).enumerate() {
        *out += &freedom(i, body);
    }
    let own = writing::laid(&writing::apart(bytes)) == bytes;
    *out += &format!("write: {}\n", if own { "the sheet's own bytes" } else { "other bytes than the sheet's" });
    if same && own { Ok(()) } else { Err(String::new()) }
}

/// Where each body is: its frame's origin, and the angle of its pose's turning.
fn places(answer: &Answer) -> String {
    let Answer::Solve { poses, frames, .. } = answer else { unreachable!() };
    let bodies = poses.chunks(12).zip(frames.chunks(12)).enumerate();
    bodies.map(|(i, (p, f))| format!("  body {i} at {} mm, turned {:.6} degrees\n", vector(f), shown(turned(p)))).collect()
}

/// Solves by rounds to the end: a portion of one round, then portions of ten.
fn by_rounds(out: &mut String, bytes: &[u8]) -> Result<Told, String> {
    let lots = 2_000_000;
    let call = |counts: Option<[u32; 2]>, portion: u32| Portion {
        counts,
        drag: GROUND,
        set: Set::PLAIN,
        portion,
        state: lots,
        scratch: lots,
        poses: lots,
        frames: lots,
        errors: lots,
    };
    let nothing = Held { done: 0, run: 0, state: vec![0.0; lots] };
    let running = |name: &str, told: &Told| format!("{name}: run {}, rounds {}, {}", told.run, told.done, solved(&told.answer));
    let mut told = whole::by_rounds(bytes, &call(None, 1), &nothing).map_err(|number| format!("solve_begin: refused {number}\n"))?;
    *out += &format!("solve_begin: {} unknowns, {} rows\n", told.counts[0], told.counts[1]);
    *out += &running("solve_begin, 1 round", &told);
    loop {
        let mut held = told.held();
        held.state.resize(lots, 0.0);
        told = whole::by_rounds(bytes, &call(Some(told.counts), 10), &held).map_err(|number| format!("solve_on: refused {number}\n"))?;
        *out += &running("solve_on, 10 rounds", &told);
        if told.run == FINISHED {
            return Ok(told);
        }
    }
}

/// A body's 29 doubles: two counts, three slides of a direction each, three turns of an axis and a point each.
fn freedom(i: usize, body: &[f64]) -> String {
    let (slides, turns) = (body[0] as usize, body[1] as usize);
    let mut out = format!("  body {i}: slides {slides}, turns {turns}\n");
    for slide in body[2..].chunks(3).take(slides) {
        out += &format!("    slides along {}\n", vector(slide));
    }
    for turn in body[11..].chunks(6).take(turns) {
        out += &format!("    turns about {} through {} mm\n", vector(turn), vector(&turn[3..]));
    }
    out
}
