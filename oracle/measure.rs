//! What this compiler makes of the methods that document 01 speaks of. Built at several levels by measure.sh.

use std::hint::black_box as seen;

fn sign(d: f64) -> &'static str {
    if d.is_nan() {
        "NaN"
    } else if d == 0.0 {
        if d.is_sign_negative() { "-0" } else { "+0" }
    } else {
        "number"
    }
}

fn main() {
    let none: Vec<f64> = seen(vec![]);
    println!("sum of nothing {}, of -0 and -0 {}", sign(none.iter().sum()), sign(seen(vec![-0.0f64, -0.0]).iter().sum()));
    println!("sum of products (0..3).map(..) of -0 {}", sign((0..3).map(|k| seen(-0.0f64) * seen(k as f64)).sum()));
    let max = |a: f64, b: f64| sign(seen(a).max(seen(b)));
    println!("max(+0,+0) {} max(+0,-0) {} max(-0,+0) {} max(-0,-0) {}", max(0.0, 0.0), max(0.0, -0.0), max(-0.0, 0.0), max(-0.0, -0.0));
    println!("max(NaN,1) {} max(1,NaN) {}", max(f64::NAN, 1.0), max(1.0, f64::NAN));
    println!("fold(0.0, f64::max) of -0 {}", sign(seen(vec![-0.0f64]).iter().copied().fold(0.0, f64::max)));
    println!("v.max(0.0) of -0 {}", sign(seen(-0.0f64).max(0.0)));
    let (mut powi, mut rem) = (0, 0);
    let mut bits = 1u64;
    for _ in 0..100_000 {
        bits = bits.wrapping_mul(6364136223846793005).wrapping_add(1442695040888963407);
        let (x, a) = (seen(f64::from_bits(bits)), seen((bits >> 20) as f64 / 1e10 - 800.0));
        powi += (x.powi(2).to_bits() != (x * x).to_bits() && !x.is_nan()) as u32;
        let (r, t) = (a % std::f64::consts::TAU, std::f64::consts::TAU);
        rem += (a.rem_euclid(t).to_bits() != (if r < 0.0 { r + t } else { r }).to_bits()) as u32;
    }
    println!("powi(2) is not one product: {powi} of 100000; rem_euclid is not % and one addition: {rem} of 100000");
    println!("max_by of equals takes number {:?} of 0 to 2", (0..3).max_by(|_, _| std::cmp::Ordering::Equal));
}
