//! The calls of two sheet libraries on the same sheets, in one run: their times, and whether they give the same. The library of now is linked as
//! `sheet_..`, the other as `other_..` (beside.sh). Not a test.

use std::time::Instant;

#[macro_use]
mod library;
library!(now, "sheet");
library!(other, "other");

/// The calls that are timed: opening is judging the relation after the last, `200` is `solve` that names 200 rounds and else what no set means.
const CALLS: [&str; 7] = ["open", "judge", "joint_reading", "snap", "solve", "200", "dof"];
const SCRATCH: usize = 2_000_000;

/// What is lent to a call: scratch and three slices of doubles, which are longer than any call needs, and the single numbers.
struct Lent {
    doubles: [Vec<f64>; 4],
    converged: u8,
    free: u32,
}

impl Lent {
    /// Odd numbers, always the same.
    fn new() -> Lent {
        let filled = |n: usize| (0..n).map(|i| [f64::NAN, f64::INFINITY, -0.0, 1e300, 7.25][i % 5]).collect();
        Lent { doubles: [SCRATCH, 2000, 2000, 2000].map(filled), converged: 77, free: 777 }
    }
    /// The bits of the scratch, and of all else.
    fn bits(&self) -> [Vec<u64>; 2] {
        let bits = |slices: &[Vec<f64>]| slices.iter().flatten().map(|d| d.to_bits()).collect::<Vec<_>>();
        let rest = [bits(&self.doubles[1..]), vec![self.converged as u64, self.free as u64]].concat();
        [bits(&self.doubles[..1]), rest]
    }
}

/// m and k of a sheet.
fn counts(sheet: &[u8]) -> [usize; 2] {
    [2, 4].map(|at| u16::from_le_bytes([sheet[at], sheet[at + 1]]) as usize)
}

/// A call of a library, by its place among `CALLS`; gives its number.
type Library = fn(usize, &[u8], &mut Lent) -> u32;
macro_rules! calls {
    ($library:ident) => {
        |which, sheet, lent| {
            let (s, n) = (sheet.as_ptr(), sheet.len());
            let [m, k] = counts(sheet);
            let [scratch, first, second, third] = lent.doubles.each_mut().map(|slice| slice.as_mut_ptr());
            unsafe {
                match which {
                    0 => $library::judge(s, n, k as u16),
                    1 => $library::judge(s, n, 0),
                    2 => $library::joint_reading(s, n, 0, first, second),
                    3 => $library::snap(s, n, 0, first, 12),
                    4 => $library::solve(s, n, u16::MAX, scratch, SCRATCH, first, 12 * m, second, 12 * m, third, k, &mut lent.converged),
                    5 => {
                        let flag = &mut lent.converged;
                        $library::solve_with(s, n, u16::MAX, 1e-9, 200, 800, 1e4, scratch, SCRATCH, first, 12 * m, second, 12 * m, third, k, flag)
                    }
                    _ => $library::dof(s, n, scratch, SCRATCH, first, 29 * m, &mut lent.free),
                }
            }
        }
    };
}
const LIBRARIES: [Library; 2] = [calls!(now), calls!(other)];

/// The best time of a call in microseconds, of each library. They take turns, for two seconds and at least five times, with as many calls a turn as
/// take about a millisecond.
fn times(which: usize, sheet: &[u8], lent: &mut Lent) -> [f64; 2] {
    let mut turn = |library: Library, calls: usize| {
        let start = Instant::now();
        for _ in 0..calls {
            std::hint::black_box(library(which, std::hint::black_box(sheet), lent));
        }
        start.elapsed().as_secs_f64() * 1e6 / calls as f64
    };
    let calls = (1000.0 / turn(LIBRARIES[0], 1)).ceil() as usize;
    let (begin, mut turns, mut best) = (Instant::now(), 0, [f64::INFINITY; 2]);
    while turns < 5 || begin.elapsed().as_secs_f64() < 2.0 {
        for i in [turns % 2, 1 - turns % 2] {
            best[i] = best[i].min(turn(LIBRARIES[i], calls));
        }
        turns += 1;
    }
    best
}

fn main() {
    let mut same = true;
    for file in std::env::args().skip(1) {
        let sheet = std::fs::read(&file).unwrap_or_else(|e| panic!("{file}: {e}"));
        assert!(sheet.len() >= 24, "{file} is no sheet");
        let [m, k] = counts(&sheet);
        assert!(m <= 64 && k <= 128, "{file} has too many bodies or relations");
        println!("{file}: {m} bodies, {k} relations");
        for (which, name) in CALLS.iter().enumerate() {
            let [(one, [scratch, rest]), (two, [other_scratch, other_rest])] = LIBRARIES.map(|library| {
                let mut lent = Lent::new();
                (library(which, &sheet, &mut lent), lent.bits())
            });
            let answers = if one != two {
                format!("DIFFERENT: {one}, the other {two}")
            } else if rest != other_rest {
                "DIFFERENT in what is lent".into()
            } else if scratch != other_scratch {
                "the same, but for the scratch".into()
            } else {
                "the same".into()
            };
            same &= one == two && rest == other_rest;
            let [now, other] = times(which, &sheet, &mut Lent::new());
            println!("{name:13} now {now:12.3} us   other {other:12.3} us   ratio {:.2}   answers {answers}", now / other);
        }
    }
    if !same {
        println!("the two libraries give different answers");
        std::process::exit(1);
    }
}
