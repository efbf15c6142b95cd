//! Sets of parameters for `solve`: each parameter at the ends of its range and outside it, and by chance.

use crate::answer::Set;
use crate::rng::Rng;
use crate::scenes::{MINUS, NANS};

pub const PARAMETERS: [&str; 4] = ["tolerance", "rounds", "row limit", "drag weight"];
pub const LEAST_TOLERANCE: f64 = 1e-12;
pub const MOST_TOLERANCE: f64 = 1e-3;
pub const MOST_ROWS: usize = 800;

fn is_whole(parameter: usize) -> bool {
    matches!(parameter, 1 | 2)
}

/// The ends of a parameter's range: of a whole number as such, of a double by its bits.
fn range(parameter: usize) -> [u64; 2] {
    match parameter {
        0 => [LEAST_TOLERANCE, MOST_TOLERANCE].map(f64::to_bits),
        1 => [1, 1000],
        2 => [1, MOST_ROWS as u64],
        _ => [1.0, 1e8].map(f64::to_bits),
    }
}

/// The set with another value of a parameter, given like its ends.
pub fn with(set: Set, parameter: usize, value: u64) -> Set {
    match parameter {
        0 => Set { tolerance: f64::from_bits(value), ..set },
        1 => Set { rounds: value as u32, ..set },
        2 => Set { row_limit: value as u32, ..set },
        _ => Set { drag_weight: f64::from_bits(value), ..set },
    }
}

/// A kind: a parameter's value, and what comes of it.
pub fn kind(parameter: usize, value: u64, said: &str) -> String {
    let value = if is_whole(parameter) { value.to_string() } else { format!("{value:016X}") };
    format!("{} {value}, {said}", PARAMETERS[parameter])
}

/// Values that are accepted: the ends and those next to them.
pub fn accepted(parameter: usize) -> [u64; 4] {
    let [least, most] = range(parameter);
    [least, least + 1, most - 1, most]
}

/// Values that are refused: those next to the ends, and of whole numbers one whose lower half is within the range and the largest, of doubles 0, an
/// infinity, the least end with a minus, and a NaN.
pub fn outside(parameter: usize) -> Vec<u64> {
    let [least, most] = range(parameter);
    if is_whole(parameter) {
        return vec![least - 1, most + 1, (1 << 16) + 1, u32::MAX as u64];
    }
    vec![least - 1, most + 1, 0, f64::INFINITY.to_bits(), least | MINUS, NANS[0]]
}

/// More of them: whole numbers about the highest bit and about half of the bits; doubles of both signs: zeros, the least, the two about the least
/// normal, the ends and those next to them, the largest, infinities and NaNs.
pub fn refused(parameter: usize) -> Vec<u64> {
    let (mut all, [least, most]) = (outside(parameter), range(parameter));
    if is_whole(parameter) {
        all.extend([1 << 16, (1 << 31) - 1, 1 << 31, (1 << 31) + 1, u32::MAX as u64 - 1]);
    } else {
        let infinity = f64::INFINITY.to_bits();
        let above = [0, 1, (1 << 52) - 1, 1 << 52, least - 1, least, least + 1, most - 1, most, most + 1, infinity - 1, infinity];
        all.extend(above.iter().flat_map(|bits| [*bits, bits | MINUS]).filter(|bits| *bits < least || *bits > most).chain(NANS));
    }
    all.sort();
    all.dedup();
    all
}

/// A value that is refused.
pub fn bad(rng: &mut Rng, parameter: usize) -> u64 {
    rng.pick(&refused(parameter))
}

/// A double by chance, as often of one size as of another, at times an end.
fn between(rng: &mut Rng, parameter: usize) -> f64 {
    let [least, most] = range(parameter);
    f64::from_bits(if rng.one_in(5) { rng.pick(&[least, most]) } else { least + rng.next() % (most - least + 1) })
}

/// A set within the ranges for a sheet of so many rows: few rounds, and a row limit that is mostly about the rows or not in the way.
pub fn drawn(rng: &mut Rng, rows: usize) -> Set {
    let rounds = match rng.below(20) {
        0..=4 => 1,
        5 => 200,
        6 => 20 + rng.below(80),
        _ => 2 + rng.below(9),
    };
    let row_limit = match rng.below(8) {
        0 => rng.pick(&[rows.saturating_sub(1), rows, rows + 1]).clamp(1, MOST_ROWS),
        1 => 1 + rng.below(MOST_ROWS),
        _ => MOST_ROWS,
    };
    Set { tolerance: between(rng, 0), rounds: rounds as u32, row_limit: row_limit as u32, drag_weight: between(rng, 3) }
}
