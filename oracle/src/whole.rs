//! Which copy of tenon answers: the one with gears for a sheet that has a gear, tenon itself for every other.

use crate::answer::{Answer, Call, Set};
use crate::running::{Held, Portion, Told};
use crate::sheet::{self, Sheet};
use crate::{plain, with_gears};

pub fn has_gear(bytes: &[u8]) -> bool {
    sheet::read(bytes).is_ok_and(|s| s.has_gear())
}

/// The answer of a call on any bytes, or the number it is refused with.
pub fn answer(bytes: &[u8], call: Call) -> Result<Answer, u32> {
    if has_gear(bytes) { with_gears::answer(bytes, call) } else { plain::answer(bytes, call) }
}

/// What a call that solves by rounds makes of what its caller holds, or the number it is refused with.
pub fn by_rounds(bytes: &[u8], call: &Portion, held: &Held) -> Result<Told, u32> {
    if has_gear(bytes) { with_gears::by_rounds(bytes, call, held) } else { plain::by_rounds(bytes, call, held) }
}

/// The rows where all unknowns are 0.
pub fn start_rows(sheet: &Sheet) -> Vec<f64> {
    if sheet.has_gear() { with_gears::start_rows(sheet) } else { plain::start_rows(sheet) }
}

/// What `solve` fills in on an accepted sheet if its first run goes by the one set and its second by the other.
pub fn by_runs(sheet: &Sheet, drag: u16, sets: [Set; 2]) -> Answer {
    if sheet.has_gear() { with_gears::by_runs(sheet, drag, sets) } else { plain::by_runs(sheet, drag, sets) }
}

/// What the program `report` prints for what it reads.
pub fn report(input: &[u8]) -> String {
    if has_gear(input) { with_gears::report(input) } else { plain::report(input) }
}
/// What it would print if it solved without a set.
pub fn report_without(input: &[u8]) -> String {
    if has_gear(input) { with_gears::report_by(input, None) } else { plain::report_by(input, None) }
}

/// The scratch in doubles that `solve` and `dof` need. Both copies count the same where there is no gear.
pub fn scratch(sheet: &Sheet) -> (usize, usize) {
    let scene = with_gears::Scene::of(sheet);
    (scene.solve_scratch(), scene.dof_scratch())
}

/// What `solve` would need if it kept two whole squares of R by R.
pub fn two_squares(sheet: &Sheet) -> usize {
    let (r, n, m) = (rows(sheet), unknowns(sheet), sheet.bodies.len());
    r * n + 2 * r * r + 8 * r + 8 * n + 32 * m
}

/// n, the sheet's unknown count.
pub fn unknowns(sheet: &Sheet) -> usize {
    with_gears::Scene::of(sheet).unknowns()
}

/// R, the sheet's row count.
pub fn rows(sheet: &Sheet) -> usize {
    with_gears::Scene::of(sheet).rows()
}
