//! The calls of the sheet library, `libsheet.a`, over its C interface.

use crate::answer::{Answer, Call, Set, bits};
use crate::running::{Held, Portion, Told};

library!(linked, "sheet");

/// The number that writing a scene gives; its sheet is put to the slice. The numbers are given by their bits, so that a NaN keeps its own.
pub fn write(m: u16, k: u16, bytes: &[u8], words: &[u16], numbers: &[u64], sheet: &mut [u8]) -> u32 {
    let (b, w, n) = (bytes.as_ptr(), words.as_ptr(), numbers.as_ptr().cast::<f64>());
    unsafe { linked::write(m, k, b, bytes.len(), w, words.len(), n, numbers.len(), sheet.as_mut_ptr(), sheet.len()) }
}

/// The number that opening a sheet gives, that of tests 1 to 7 and 14, or 0: judging a relation that no sheet has gives it, and 13 for 0.
pub fn opening(bytes: &[u8]) -> u32 {
    let number = unsafe { linked::judge(bytes.as_ptr(), bytes.len(), u16::MAX) };
    if number == 13 { 0 } else { number }
}

/// `solve` with a set or without. Of each output a length is lent.
fn solve(bytes: &[u8], drag: u16, set: Option<Set>, scratch: &mut [f64], outputs: [(&mut Vec<f64>, usize); 3], flag: &mut u8) -> u32 {
    let (sheet, len) = (bytes.as_ptr(), bytes.len());
    let (s, n) = (scratch.as_mut_ptr(), scratch.len());
    let [(p, pl), (f, fl), (e, el)] = outputs.map(|(memory, n)| (memory.as_mut_ptr(), n));
    unsafe {
        match set {
            None => linked::solve(sheet, len, drag, s, n, p, pl, f, fl, e, el, flag),
            Some(Set { tolerance: t, rounds: r, row_limit: l, drag_weight: w }) => {
                linked::solve_with(sheet, len, drag, t, r, l, w, s, n, p, pl, f, fl, e, el, flag)
            }
        }
    }
}

/// `solve` or `dof` with this scratch, for its time; the answer is dropped.
pub fn run(bytes: &[u8], call: Call, scratch: &mut [f64]) {
    let (sheet, len) = (bytes.as_ptr(), bytes.len());
    let (s, n) = (scratch.as_mut_ptr(), scratch.len());
    match call {
        Call::Solve { drag, set, poses, frames, errors, .. } => {
            let [mut p, mut f, mut e] = [poses, frames, errors].map(|n| vec![0.0; n]);
            let number = solve(bytes, drag, set, scratch, [(&mut p, poses), (&mut f, frames), (&mut e, errors)], &mut 0);
            assert_eq!(number, 0);
        }
        Call::Dof { freedoms, .. } => {
            let (mut d, mut free) = (vec![0.0; freedoms], 0u32);
            let number = unsafe { linked::dof(sheet, len, s, n, d.as_mut_ptr(), freedoms, &mut free) };
            assert_eq!(number, 0);
        }
        _ => {}
    }
}

/// What stands in lent memory before a call: odd numbers, and beyond the lent length a guard.
const GUARD: usize = 5;
fn filler(i: usize) -> f64 {
    [f64::NAN, f64::INFINITY, -0.0, 1e300, 7.25][i % 5]
}
fn lent(len: usize) -> Vec<f64> {
    (0..len + GUARD).map(filler).collect()
}
/// The list begins with `filled` and is untouched from there on.
fn holds(memory: &[f64], filled: &[f64]) -> bool {
    memory.iter().enumerate().all(|(i, d)| match filled.get(i) {
        Some(want) => bits(*d) == bits(*want),
        None => d.to_bits() == filler(i).to_bits(),
    })
}

/// Whether the library gives this answer and leaves alone what it must. `scratch` is kept from call to call and never cleared;
/// a refusal may not touch it, and an accepted call nothing past the lent length.
pub fn same(bytes: &[u8], call: Call, answer: &Result<Answer, u32>, scratch: &mut Vec<f64>) -> bool {
    let (sheet, len) = (bytes.as_ptr(), bytes.len());
    let number = answer.as_ref().err().copied().unwrap_or(0);
    let none: &[f64] = &[];
    if let Call::Solve { scratch: s, .. } | Call::Dof { scratch: s, .. } = call {
        scratch.resize(scratch.len().max(s + GUARD), f64::NAN);
    }
    match call {
        Call::Judge { relation } => unsafe { linked::judge(sheet, len, relation) == number },
        Call::Reading { relation } => {
            let (mut o, mut a) = (filler(4), filler(3));
            let got = unsafe { linked::joint_reading(sheet, len, relation, &mut o, &mut a) };
            let (wo, wa) = if let Ok(Answer::Reading { offset, angle }) = answer { (*offset, *angle) } else { (filler(4), filler(3)) };
            got == number && bits(o) == bits(wo) && bits(a) == bits(wa)
        }
        Call::Snap { relation, motion } => {
            let mut memory = lent(motion);
            let got = unsafe { linked::snap(sheet, len, relation, memory.as_mut_ptr(), motion) };
            let want = if let Ok(Answer::Snap { motion }) = answer { motion } else { none };
            got == number && holds(&memory, want)
        }
        Call::Solve { drag, set, scratch: s, poses, frames, errors } => {
            let before = scratch.clone();
            let ([mut p, mut f, mut e], mut flag) = ([poses, frames, errors].map(lent), 77u8);
            let got = solve(bytes, drag, set, &mut scratch[..s], [(&mut p, poses), (&mut f, frames), (&mut e, errors)], &mut flag);
            got == number
                && match answer {
                    Ok(Answer::Solve { poses, frames, errors, converged }) => {
                        let filled = holds(&p, poses) && holds(&f, frames) && holds(&e, errors);
                        filled && flag == *converged as u8 && untouched(scratch, &before, s)
                    }
                    _ => holds(&p, none) && holds(&f, none) && holds(&e, none) && flag == 77 && untouched(scratch, &before, 0),
                }
        }
        Call::Dof { scratch: s, freedoms } => {
            let before = scratch.clone();
            let (mut d, mut total) = (lent(freedoms), 777u32);
            let got = unsafe { linked::dof(sheet, len, scratch.as_mut_ptr(), s, d.as_mut_ptr(), freedoms, &mut total) };
            got == number
                && match answer {
                    Ok(Answer::Dof { freedoms, free }) => holds(&d, freedoms) && total == *free && untouched(scratch, &before, s),
                    _ => holds(&d, none) && total == 777 && untouched(scratch, &before, 0),
                }
        }
    }
}

fn untouched(scratch: &[f64], before: &[f64], from: usize) -> bool {
    scratch[from..].iter().zip(&before[from..]).all(|(a, b)| a.to_bits() == b.to_bits())
}

/// What stands in the counts before a call that begins.
pub const COUNTS_BEFORE: [u32; 2] = [777, 888];

/// The same of a call that solves by rounds, from what its caller holds. Of the state's memory, too, nothing past the lent length may be touched.
pub fn same_by_rounds(bytes: &[u8], call: &Portion, held: &Held, told: &Result<Told, u32>, scratch: &mut Vec<f64>) -> bool {
    let (sheet, len, drag, p) = (bytes.as_ptr(), bytes.len(), call.drag, call.portion);
    let Set { tolerance: t, rounds: r, row_limit: l, drag_weight: w } = call.set;
    scratch.resize(scratch.len().max(call.scratch + GUARD), f64::NAN);
    let before = scratch[..call.scratch + GUARD].to_vec();
    let (s, sl) = (scratch.as_mut_ptr(), call.scratch);
    let held_before: Vec<f64> = held.state.iter().copied().chain((0..GUARD).map(filler)).collect();
    let (mut state, mut done, mut run) = (held_before.clone(), held.done, held.run);
    let (st, stl) = (state.as_mut_ptr(), call.state);
    assert!(stl <= held.state.len());
    let ([mut poses, mut frames, mut errors], mut flag) = ([call.poses, call.frames, call.errors].map(lent), 77u8);
    let [(o, ol), (f, fl), (e, el)] =
        [(&mut poses, call.poses), (&mut frames, call.frames), (&mut errors, call.errors)].map(|(memory, n)| (memory.as_mut_ptr(), n));
    let mut counts = COUNTS_BEFORE;
    let [unknowns, rows] = &mut counts;
    let got = unsafe {
        match call.counts {
            None => linked::solve_begin(
                sheet, len, drag, t, r, l, w, p, unknowns, rows, &mut done, &mut run, st, stl, s, sl, o, ol, f, fl, e, el, &mut flag,
            ),
            Some([n, k]) => {
                linked::solve_on(sheet, len, drag, t, r, l, w, p, n, k, &mut done, &mut run, st, stl, s, sl, o, ol, f, fl, e, el, &mut flag)
            }
        }
    };
    let state_is = |filled: &[f64]| {
        let begins = state.iter().zip(filled).all(|(d, want)| bits(*d) == bits(*want));
        begins && untouched(&state, &held_before, filled.len())
    };
    match told {
        Err(number) => {
            let kept = counts == COUNTS_BEFORE && (done, run, flag) == (held.done, held.run, 77);
            let unfilled = [&poses, &frames, &errors].iter().all(|memory| holds(memory, &[]));
            got == *number && kept && state_is(&[]) && unfilled && untouched(scratch, &before, 0)
        }
        Ok(told) => {
            let Answer::Solve { poses: wp, frames: wf, errors: we, converged } = &told.answer else { return false };
            let counted = if call.counts.is_none() { counts == told.counts } else { true };
            let held = (done, run) == (told.done, told.run) && state_is(&told.state);
            let filled = holds(&poses, wp) && holds(&frames, wf) && holds(&errors, we) && flag == *converged as u8;
            got == 0 && counted && held && filled && untouched(scratch, &before, call.scratch)
        }
    }
}

/// Solves an accepted sheet by the plain set, without a drag, one round a call, to its end. For its time; memory is lent once.
pub fn round_by_round(bytes: &[u8], state: &mut [f64], scratch: &mut [f64], [poses, frames, errors]: [&mut [f64]; 3]) {
    let (sheet, len, drag) = (bytes.as_ptr(), bytes.len(), crate::sheet::GROUND);
    let Set { tolerance: t, rounds: r, row_limit: l, drag_weight: w } = Set::PLAIN;
    let [(st, stl), (s, sl), (o, ol), (f, fl), (e, el)] = [state, scratch, poses, frames, errors].map(|slice| (slice.as_mut_ptr(), slice.len()));
    let (mut n, mut k, mut done, mut run, mut flag) = (0, 0, 0, 0, 0);
    unsafe {
        linked::solve_begin(sheet, len, drag, t, r, l, w, 1, &mut n, &mut k, &mut done, &mut run, st, stl, s, sl, o, ol, f, fl, e, el, &mut flag);
        while run != crate::running::FINISHED {
            linked::solve_on(sheet, len, drag, t, r, l, w, 1, n, k, &mut done, &mut run, st, stl, s, sl, o, ol, f, fl, e, el, &mut flag);
        }
    }
}
