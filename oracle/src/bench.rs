//! Time per call of the linked arcs, root, `solve` and `dof` beside Rust's own on the same arguments, of opening a sheet beside the oracle's own
//! reader, and of writing beside the second writer, in one run. Not a test.

use crate::answer::{Call, Set};
use crate::rng::Rng;
use crate::{port, sheet, whole, writing};
use std::hint::black_box;

pub fn run() -> bool {
    let mut rng = Rng(1);
    let mut draw = |from: &dyn Fn(&mut Rng) -> f64| -> Vec<f64> { (0..1 << 16).map(|_| from(&mut rng)).collect() };
    let angles = draw(&|rng| rng.range(0.0, 7.0));
    let lengths = draw(&|rng| rng.range(0.0, 1e6));
    let other = draw(&|rng| rng.range(-2.0, 2.0));
    let far = draw(&|rng| rng.range(64.0, 1048576.0));
    let spread = draw(&|rng| f64::from_bits(1048576f64.to_bits() - rng.next() % (14 << 52)));
    let row = |name: &str, a: f64, theirs: &str, b: f64| println!("{name:34} {a:6.1} ns   {theirs:8} {b:6.1} ns   ratio {:.2}", a / b);
    let length = |f: &dyn Fn(f64) -> f64| nanoseconds(&lengths, &other, &|a, _| f(a));
    let both = |f: &dyn Fn(f64, f64) -> f64| nanoseconds(&other, &angles, f);
    row("root", length(&arcs::root), "sqrt", length(&f64::sqrt));
    for (of, angles) in [("0 to 7", &angles), ("64 to 2^20", &far), ("64 to 2^20 by exponent", &spread)] {
        let angle = |f: &dyn Fn(f64) -> f64| nanoseconds(angles, &other, &|a, _| f(a));
        row(&format!("sine, {of}"), angle(&arcs::sine), "sin", angle(&f64::sin));
        row(&format!("cosine, {of}"), angle(&arcs::cosine), "cos", angle(&f64::cos));
        let pair = |t: f64| {
            let (s, c) = t.sin_cos();
            s + c
        };
        row(&format!("both, {of}"), angle(&|t| arcs::sine(t) + arcs::cosine(t)), "sin_cos", angle(&pair));
    }
    row("arctangent", both(&arcs::arctangent), "atan2", both(&f64::atan2));
    true
}

/// Opening each sheet, 200 times a run; `solve` without a set and `dof` on it, both sides from its bytes on, `solve` also with 200 rounds, to 1e-3 and
/// to 1e-12; our `solve` one round a call beside the same at once; writing its scene, tests included.
pub fn sheets(files: &[&str]) -> bool {
    let lots = 2_000_000;
    let mut scratch = vec![f64::NAN; lots];
    for file in files {
        let bytes = std::fs::read(file).unwrap();
        let m = u16::from_le_bytes([bytes[2], bytes[3]]) as usize;
        let k = u16::from_le_bytes([bytes[4], bytes[5]]) as usize;
        let opened = |f: &dyn Fn()| milliseconds(&mut || (0..200).for_each(|_| f())) * 1000.0 / 200.0;
        let theirs = opened(&|| drop(black_box(sheet::read(&bytes))));
        let ours = opened(&|| _ = black_box(port::opening(&bytes)));
        println!("open   {m:2} bodies, {k:3} relations: {ours:9.3} us   Rust {theirs:9.3} us   ratio {:.2}", ours / theirs);
        let solve = |set| Call::Solve { drag: sheet::GROUND, set, scratch: lots, poses: 12 * m, frames: 12 * m, errors: k };
        let within = |tolerance| solve(Some(Set { tolerance, ..Set::PLAIN }));
        let calls = [
            ("solve", solve(None)),
            ("200", solve(Some(Set::TWO_HUNDRED))),
            ("coarse", within(1e-3)),
            ("fine", within(1e-12)),
            ("dof", Call::Dof { scratch: lots, freedoms: 29 * m }),
        ];
        for (name, call) in calls {
            let theirs = milliseconds(&mut || {
                black_box(whole::answer(&bytes, call)).ok();
            });
            let ours = milliseconds(&mut || port::run(&bytes, call, &mut scratch));
            println!("{name:6} {m:2} bodies, {k:3} relations: {ours:9.3} ms   Rust {theirs:9.3} ms   ratio {:.2}", ours / theirs);
        }
        let mut lent = [2000, 12 * m, 12 * m, k].map(|n| vec![0.0; n]);
        let [state, poses, frames, errors] = lent.each_mut().map(|slice| &mut slice[..]);
        let whole = milliseconds(&mut || port::run(&bytes, solve(None), &mut scratch));
        let rounds = milliseconds(&mut || port::round_by_round(&bytes, state, &mut scratch, [&mut *poses, &mut *frames, &mut *errors]));
        println!("rounds {m:2} bodies, {k:3} relations: {rounds:9.3} ms   at once {whole:6.3} ms   ratio {:.2}", rounds / whole);
        let scene = writing::apart(&bytes);
        let mut written = vec![0; bytes.len()];
        let theirs = milliseconds(&mut || {
            black_box((writing::by_reading(&scene, bytes.len()), writing::laid(&scene)));
        });
        let ours = milliseconds(&mut || {
            port::write(scene.m, scene.k, &scene.bytes, &scene.words, &scene.numbers, &mut written);
        });
        assert_eq!(written, bytes);
        println!("write  {m:2} bodies, {k:3} relations: {ours:9.3} ms   Rust {theirs:9.3} ms   ratio {:.2}", ours / theirs);
    }
    true
}

/// The best of runs that take about a second together, five at least.
fn milliseconds(f: &mut dyn FnMut()) -> f64 {
    let begin = std::time::Instant::now();
    let (mut best, mut runs) = (f64::INFINITY, 0);
    while runs < 5 || begin.elapsed().as_secs_f64() < 1.0 {
        let start = std::time::Instant::now();
        f();
        best = best.min(start.elapsed().as_secs_f64() * 1e3);
        runs += 1;
    }
    best
}

/// The best of nine runs over all arguments.
fn nanoseconds(first: &[f64], second: &[f64], f: &dyn Fn(f64, f64) -> f64) -> f64 {
    let once = || {
        let start = std::time::Instant::now();
        for (a, b) in first.iter().zip(second) {
            black_box(f(black_box(*a), black_box(*b)));
        }
        start.elapsed().as_nanos() as f64 / first.len() as f64
    };
    (0..9).map(|_| once()).fold(f64::INFINITY, f64::min)
}
