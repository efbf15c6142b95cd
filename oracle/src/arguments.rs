//! Arguments for the arcs and the root: every boundary first, then a spread by seed.

use crate::rng::Rng;
use arcs::rule::{self, E, H, P, T, T1, TURN, bounds};

/// d and the doubles around it, `reach` on each side.
pub fn around(d: f64, reach: u64) -> impl Iterator<Item = f64> {
    let bits = d.to_bits();
    (bits.saturating_sub(reach)..=bits + reach).map(f64::from_bits)
}

/// NaN, infinities, zeros, the smallest and largest, and numbers below 0.
pub fn special() -> Vec<f64> {
    let mut out = vec![f64::NAN, f64::INFINITY, f64::NEG_INFINITY, 0.0, -0.0, -1.0, -5e-324, f64::MAX, f64::MIN];
    out.extend([5e-324, f64::from_bits(2), f64::MIN_POSITIVE, f64::from_bits(f64::MIN_POSITIVE.to_bits() - 1), 1.0, 0.5, 2.0, 64.0]);
    out
}

/// The double nearest a + k·(T1 + T2), for a multiple a of 2^-84 below 8: a fraction, rounded once.
fn after(k: u128, a: f64) -> f64 {
    let unit = (1u128 << 84) as f64;
    (k * rule::turn() + (a * unit) as u128) as f64 / unit
}

/// Every k of t over 64 and up to 2^20.
const TURNS: std::ops::RangeInclusive<u128> = 10..=166886;

/// The double nearest k·(T1 + T2), for each k.
pub fn turn_edges() -> impl Iterator<Item = f64> {
    TURNS.map(|k| after(k, 0.0))
}

/// Arguments of sine and cosine: the ends of the range over 64 and up to 2^20; for all its turns k·(T1 + T2), and k·T1 alone; the boundaries of the
/// quadrants in several turns; each with its neighbours.
pub fn angles() -> Vec<f64> {
    let mut out = special();
    out.extend([64.0, 1048576.0].into_iter().flat_map(|end| around(end, 3)).flat_map(|t| [t, -t]));
    out.extend(turn_edges().flat_map(|edge| around(edge, 2)));
    out.extend(TURNS.flat_map(|k| around(k as f64 * T1, 1)));
    for bound in bounds().into_iter().chain([H, P, 3.0 * H, T]) {
        out.extend(around(bound, 3));
        for turns in [1.0, 2.0, 9.0, 10.0, 159.0, 166886.0] {
            out.extend(around(bound + turns * T, 2));
        }
        for k in [10, 11, 12, 100, 159, 160, 1000, 16384, 65536, 131072, 166884, 166885] {
            out.extend(around(after(k, bound), 2));
        }
    }
    for e in [-1000, -500, -100, -60, -54, -53, -52, -40, -30, -27, -26, -10, -3, -1, 0, 1, 2, 5, 6, 10, 20, 30, 52, 53, 54, 100, 500, 1000, 1023] {
        out.extend(around((e as f64).exp2(), 1));
    }
    out
}

/// Arguments (y, x) of the arctangent: all pairs of boundaries, every ratio near √2 − 1 and 1, all signs.
pub fn slopes() -> Vec<(f64, f64)> {
    let ends = [0.0, 5e-324, f64::MIN_POSITIVE, 1e-300, 1e-20, 0.1, 1.0, 3.0, 1e20, 1e300, f64::MAX];
    let mut plain = vec![];
    for y in ends {
        plain.extend(ends.map(|x| (y, x)));
    }
    for u in around(TURN, 3).chain(around(1.0, 2)).chain(around(0.5, 1)) {
        plain.extend([(u, 1.0), (1.0, u), (u * 3.0, 3.0), (7.0, u * 7.0)]);
    }
    let mut out = vec![];
    for (y, x) in plain {
        out.extend([(y, x), (-y, x), (y, -x), (-y, -x)]);
    }
    for s in [f64::NAN, f64::INFINITY, f64::NEG_INFINITY] {
        for o in [0.0, -0.0, 1.0, f64::NAN, f64::INFINITY] {
            out.extend([(s, o), (o, s)]);
        }
    }
    out
}

/// An argument of sine and cosine by chance: within a few turns, or of any exponent.
pub fn angle(rng: &mut Rng) -> f64 {
    match rng.below(5) {
        0 => rng.finite().abs(),
        1 => rng.range(0.0, 1e6),
        2 => (rng.below(1000) as f64 * E) * (1.0 + rng.range(-1e-15, 1e-15)),
        _ => rng.range(0.0, 7.0),
    }
}

/// An argument over 64 and up to 2^20 by chance: all lengths alike, all exponents alike, near a whole turn, or about a boundary of the quadrants.
pub fn long_angle(rng: &mut Rng) -> f64 {
    let k = 11 + rng.below(166875) as u128;
    match rng.below(4) {
        0 => rng.range(64.0, 1048576.0),
        1 => f64::from_bits(1048576f64.to_bits() - rng.next() % (14 << 52)),
        2 => after(k, 0.0) + rng.range(-2e-4, 2e-4),
        _ => f64::from_bits(after(k, E * rng.below(9) as f64).to_bits() + rng.below(5) as u64 - 2),
    }
}

pub fn slope(rng: &mut Rng) -> (f64, f64) {
    match rng.below(5) {
        0 => (rng.finite(), rng.finite()),
        1 => {
            let x = rng.range(-1000.0, 1000.0);
            (x * TURN * (1.0 + rng.range(-1e-15, 1e-15)), x)
        }
        _ => (rng.range(-2.0, 2.0), rng.range(-2.0, 2.0)),
    }
}

/// Arguments of the root: all exponents, subnormals, squares and what lies near a halfway case.
pub fn squares(rng: &mut Rng) -> Vec<f64> {
    let mut out = special();
    for e in 0..2047u64 {
        out.extend([f64::from_bits(e << 52), f64::from_bits(e << 52 | rng.next() >> 12), f64::from_bits((e << 52) + 0xFFFFFFFFFFFFF)]);
    }
    for shift in 0..52 {
        out.extend([f64::from_bits(1 << shift), f64::from_bits(rng.next() >> 12 >> shift)]);
    }
    for i in 0..200u64 {
        out.extend(around((i * i) as f64, 1).filter(|d| d.is_finite()));
    }
    out
}

/// An argument of the root by chance.
pub fn square(rng: &mut Rng) -> f64 {
    match rng.below(4) {
        0 => rng.finite().abs(),
        // The square of a double of 26 bits is exact; take it or a neighbour.
        1 => {
            let m = (1u64 << 25 | rng.next() >> 39) as f64;
            f64::from_bits((m * m).to_bits().wrapping_add(rng.below(3) as u64).wrapping_sub(1))
        }
        // The nearest double to the square of a number halfway between two doubles, and its neighbours.
        2 => {
            let m = (1u128 << 53 | (rng.next() >> 11) as u128) * 2 + 1;
            f64::from_bits(((m * m) as f64).to_bits().wrapping_add(rng.below(3) as u64).wrapping_sub(1))
        }
        _ => rng.range(0.0, 4.0),
    }
}
