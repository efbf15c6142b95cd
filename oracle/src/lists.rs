//! The frozen lists: answers of the Rust and of the second program as data, for programs that run without it. FORMATS.md describes them.

use crate::answer::{Call, Set, bits, words};
use crate::arguments as args;
use crate::bare;
use crate::cover::Cover;
use crate::gears;
use crate::generate;
use crate::parameters;
use crate::plain::{self, list, vec3};
use crate::portions;
use crate::rng::Rng;
use crate::scenes::{self, Case};
use crate::sheet::{Body, Relation, Sheet};
use crate::trains;
use crate::turns;
use crate::whole;
use crate::writing::{by_reading, laid};
use std::sync::atomic::Ordering;
use tenon::math::{M3, frame_of, rotation_between, span_basis, sym_eigen};
use tenon::{Frame, Vec3, lm, solve};

/// A list under way: its words, and how many records they are.
struct List {
    words: Vec<u64>,
    records: u64,
}

impl List {
    fn new() -> List {
        List { words: vec![0], records: 0 }
    }
    fn put(&mut self, record: &[&[f64]]) {
        self.words.extend(record.iter().flat_map(|part| part.iter().copied().map(bits)));
        self.records += 1;
    }
    fn put_words(&mut self, record: &[u64]) {
        self.words.extend(record);
        self.records += 1;
    }
    /// Writes the list: the number of records, then the records.
    fn write(mut self, dir: &str, name: &str) {
        self.words[0] = self.records;
        let bytes: Vec<u8> = self.words.iter().flat_map(|w| w.to_le_bytes()).collect();
        std::fs::write(format!("{dir}/{name}.bin"), &bytes).unwrap();
        println!("{name}: {} records, {} bytes", self.records, bytes.len());
    }
}

/// Lengths that a branch turns on, and their neighbours.
const LENGTHS: [f64; 6] = [1e-9, 1e-7, 1e-12, 0.9, 1e-6, 1.0];

fn length(rng: &mut Rng) -> f64 {
    let near = f64::from_bits(rng.pick(&LENGTHS).to_bits().wrapping_add(rng.below(3) as u64).wrapping_sub(1));
    let odd = rng.pick(&[0.0, 5e-324, 1e-310, 1e-200, 1e-160, 1e-155, 1e150, 1e160, 1e300]);
    if rng.one_in(3) { odd } else { near }
}
fn signed(rng: &mut Rng, d: f64) -> f64 {
    if rng.one_in(2) { -d } else { d }
}
fn axis(rng: &mut Rng) -> Vec3 {
    let (i, s) = (rng.below(3), signed(rng, 1.0));
    let zero = |rng: &mut Rng| signed(rng, 0.0);
    let mut v = [zero(rng), zero(rng), zero(rng)];
    v[i] = s;
    vec3(v)
}
fn anyhow(rng: &mut Rng, most: f64) -> Vec3 {
    Vec3::new(rng.range(-most, most), rng.range(-most, most), rng.range(-most, most))
}
/// A vector of any sort, now and then with a part that is not finite.
fn vector(rng: &mut Rng) -> Vec3 {
    match rng.below(10) {
        0 => axis(rng),
        1 => axis(rng) * length(rng),
        2 => anyhow(rng, 1.0).normalized() * length(rng),
        3 | 4 => anyhow(rng, 1.0).normalized(),
        5 => Vec3::new(signed(rng, 0.0), signed(rng, 0.0), signed(rng, 0.0)),
        6 if rng.one_in(4) => {
            let mut v = list(anyhow(rng, 1.0));
            v[rng.below(3)] = rng.pick(&[f64::NAN, f64::INFINITY, f64::NEG_INFINITY]);
            vec3(v)
        }
        _ => anyhow(rng, 10.0),
    }
}
fn turning(rng: &mut Rng) -> M3 {
    match rng.below(4) {
        0 => M3([[0.0; 3]; 3].map(|row| row.map(|_: f64| rng.range(-1.01, 1.01)))),
        1 => M3::from_columns(axis(rng), axis(rng), axis(rng)),
        _ => M3::exp(anyhow(rng, 3.0)),
    }
}

/// Whether there is a frame (1 or 0), then its twelve doubles (0 for none).
fn frame_words(f: Option<Frame>) -> Vec<u64> {
    let doubles = f.map_or([[0.0; 3]; 4], |f| [f.origin, f.x, f.y, f.z].map(list));
    [vec![f.is_some() as u64], doubles.as_flattened().iter().copied().map(bits).collect()].concat()
}
fn all_bits(parts: &[&[f64]]) -> Vec<u64> {
    parts.iter().flat_map(|part| part.iter().copied().map(bits)).collect()
}

fn vectors_lists(dir: &str, rng: &mut Rng, scale: usize) {
    let (mut exps, mut muls, mut betweens) = (List::new(), List::new(), List::new());
    for i in 0..1500 * scale {
        let w = match i % 5 {
            0 => anyhow(rng, 1.0).normalized() * args::angle(rng),
            1 => axis(rng) * args::angle(rng),
            _ => vector(rng),
        };
        exps.put(&[&list(w), M3::exp(w).0.as_flattened()]);
    }
    for _ in 0..400 * scale {
        let (a, b) = (turning(rng), turning(rng));
        muls.put(&[a.0.as_flattened(), b.0.as_flattened(), a.mul(&b).0.as_flattened()]);
    }
    for i in 0..1200 * scale {
        let from = vector(rng);
        let tiny = anyhow(rng, 1.0) * rng.pick(&[1e-11, 1e-12, 1e-13, 1e-15]);
        let to = match i % 6 {
            0 => from,
            1 => -from,
            2 => from + tiny,
            3 => -from + tiny,
            _ => vector(rng),
        };
        betweens.put(&[&list(from), &list(to), rotation_between(from, to).0.as_flattened()]);
    }
    exps.write(dir, "exp");
    muls.write(dir, "m3_mul");
    betweens.write(dir, "rotation_between");

    let (mut news, mut normals, mut ofs) = (List::new(), List::new(), List::new());
    for i in 0..1200 * scale {
        let (origin, z) = (vector(rng), vector(rng));
        let side = anyhow(rng, 1.0) * rng.pick(&[1e-6, 1e-7, 1e-8, 1.0]);
        let hint = match i % 5 {
            0 => z * rng.range(-2.0, 2.0) + side,
            1 => z,
            2 => axis(rng),
            _ => vector(rng),
        };
        news.put_words(&[all_bits(&[&list(origin), &list(z), &list(hint)]), frame_words(Frame::new(origin, z, hint))].concat());
    }
    // Lengths of exactly 1e-7 and their neighbours, for z and for what remains of x.
    for l in [1e-7f64.to_bits() - 1, 1e-7f64.to_bits(), 1e-7f64.to_bits() + 1].map(f64::from_bits) {
        for (z, x) in [(Vec3::Z * l, Vec3::X), (Vec3::Z, Vec3::X * l), (Vec3::Z, Vec3::new(l, 0.0, 1.0))] {
            news.put_words(&[all_bits(&[&[0.0; 3], &list(z), &list(x)]), frame_words(Frame::new(Vec3::ZERO, z, x))].concat());
        }
    }
    for _ in 0..800 * scale {
        let (origin, z) = (vector(rng), vector(rng));
        let z = if rng.one_in(4) { Vec3::new(signed(rng, 0.9), rng.range(-1.0, 1.0), 0.0) } else { z };
        normals.put_words(&[all_bits(&[&list(origin), &list(z)]), frame_words(Frame::from_normal(origin, z))].concat());
    }
    for _ in 0..600 * scale {
        let (r, origin) = (turning(rng), vector(rng));
        ofs.put_words(&[all_bits(&[r.0.as_flattened(), &list(origin)]), frame_words(frame_of(&r, origin))].concat());
    }
    news.write(dir, "frame_new");
    normals.write(dir, "from_normal");
    ofs.write(dir, "frame_of");
}

/// A matrix for `sym_eigen`, n by n: symmetric but for a few.
fn matrix(rng: &mut Rng, n: usize) -> Vec<f64> {
    let mut a = vec![0.0; n * n];
    let kind = rng.below(12);
    let rows = 1 + rng.below(n + 2);
    let slopes: Vec<f64> = (0..rows * n).map(|_| if kind < 3 { rng.pick(&[0.0, -0.0, 1.0, -1.0, 0.5]) } else { rng.range(-2.0, 2.0) }).collect();
    for (i, j) in (0..n).flat_map(|i| (0..n).map(move |j| (i, j))) {
        a[i * n + j] = match kind {
            // What body_dof and rank_rel form: slopes times slopes, of full rank or less.
            0..=5 => (0..rows).map(|r| slopes[r * n + i] * slopes[r * n + j]).sum(),
            // A diagonal, with equal and opposite zeros among it.
            6 => {
                if i == j {
                    slopes[i]
                } else {
                    0.0
                }
            }
            // One value on the diagonal: theta is 0.
            7 => {
                if i == j {
                    1.0
                } else {
                    0.25
                }
            }
            // Entries around those left alone.
            8 => {
                if i == j {
                    (i + 1) as f64
                } else if i + j == 1 {
                    0.5
                } else {
                    [1e-300, 9e-301, -1e-300][(i + j) % 3]
                }
            }
            // Large: squares are infinite.
            9 => (0..rows).map(|r| slopes[r * n + i] * slopes[r * n + j]).sum::<f64>() * 1e160,
            // Not symmetric: the sweeps do not end by themselves.
            10 => slopes[i] + 0.5 * (i * n + j) as f64,
            _ => slopes[(i + j) % n] * 1e-30,
        };
    }
    a
}

fn eigen_lists(dir: &str, rng: &mut Rng, scale: usize) {
    let eigen = |out: &mut List, n: usize, a: Vec<f64>| {
        let (values, vectors) = sym_eigen(&a, n);
        out.put_words(&[vec![n as u64], all_bits(&[&a, &values, &vectors.concat()])].concat());
    };
    for (n, count) in [(3, 800), (6, 350)] {
        let mut out = List::new();
        (0..count * scale).for_each(|_| eigen(&mut out, n, matrix(rng, n)));
        eigen(&mut out, n, vec![f64::NAN; n * n]);
        eigen(&mut out, n, vec![0.0; n * n]);
        out.write(dir, &format!("sym_eigen{n}"));
    }
    let mut any = List::new();
    for n in [0, 1, 2, 4, 5, 7, 12, 18] {
        (0..if n == 0 { 1 } else { 60 * scale / n }).for_each(|_| eigen(&mut any, n, matrix(rng, n)));
    }
    any.write(dir, "sym_eigen_any");

    let mut spans = List::new();
    for i in 0..900 * scale {
        let count = rng.below(7);
        let first = anyhow(rng, 1.0).normalized();
        let vs: Vec<Vec3> = (0..count)
            .map(|_| match i % 6 {
                0 => axis(rng),
                1 => first + anyhow(rng, 1.0) * rng.pick(&[0.0, 1e-5, 1e-6, 1e-7]),
                2 => axis(rng) * rng.pick(&[1.0, 0.0, 1e-6, 1e-7, 0.5]),
                3 => Vec3::ZERO,
                4 => axis(rng) * length(rng),
                _ => anyhow(rng, 1.0),
            })
            .collect();
        let basis = span_basis(&vs, 1e-6);
        let pad = |vs: &[Vec3], n: usize| {
            let mut out: Vec<u64> = vs.iter().flat_map(|v| list(*v).map(bits)).collect();
            out.resize(3 * n, 0);
            out
        };
        spans.put_words(&[vec![count as u64], pad(&vs, 6), vec![basis.len() as u64], pad(&basis, 3)].concat());
    }
    spans.write(dir, "span_basis");
}

pub fn record_words(bytes: &[u8]) -> Vec<u64> {
    bytes.chunks(8).map(|c| c.iter().rev().fold(0, |w, b| w << 8 | *b as u64)).collect()
}
/// The bytes of these words with one of them changed.
pub fn with_word(words: &[u64], at: usize, word: u64) -> Vec<u8> {
    let mut changed = words.to_vec();
    changed[at] = word;
    changed.iter().flat_map(|w| w.to_le_bytes()).collect()
}
fn relation_words(r: &Relation) -> Vec<u64> {
    let mut bytes = Vec::new();
    r.write(&mut bytes);
    record_words(&bytes)
}

fn solver_lists(dir: &str, rng: &mut Rng, scale: usize) {
    use std::f64::consts::PI;
    let (mut wraps, mut gaps, mut largest) = (List::new(), List::new(), List::new());
    let turns = (0..24).flat_map(|i| [-1, 0, 1].map(|d| (i - 12, d))).map(|(i, d)| f64::from_bits((i as f64 * PI).to_bits().wrapping_add(d as u64)));
    let turns: Vec<f64> =
        turns.filter(|a| a.is_finite()).chain([0.0, -0.0, 1000.0, -1000.0]).chain((0..400 * scale).map(|_| rng.range(-20.0, 20.0))).collect();
    turns.iter().for_each(|a| wraps.put(&[&[*a, solve::wrap(*a)]]));
    let radii = [2.0, 3.0, 0.0, -1.0, 0.5, 1000.0];
    for (ra, rb) in radii.iter().flat_map(|a| radii.iter().map(move |b| (*a, *b))) {
        for (i, offset) in (0..4).flat_map(|i| [0.5, 0.0, -2.0].map(|o| (i, o))) {
            let gap = solve::tangent_gap(ra, rb, offset, i & 1 == 1, i & 2 == 2);
            gaps.put_words(&[all_bits(&[&[ra, rb, offset]]), vec![i & 1, i >> 1], all_bits(&[&[gap]])].concat());
        }
    }
    for i in 0..500 * scale {
        let n = rng.below(8);
        let odd = |rng: &mut Rng| rng.pick(&[0.0, -0.0, f64::NAN, f64::INFINITY, f64::NEG_INFINITY, -3.0, f64::MAX, 5e-324]);
        let mut v: Vec<f64> = (0..n).map(|_| if i % 3 == 0 { odd(rng) } else { rng.range(-5.0, 5.0) }).collect();
        let answer = lm::max_abs(&v);
        v.resize(7, 0.0);
        largest.put_words(&[vec![n as u64], all_bits(&[&v, &[answer]])].concat());
    }
    wraps.write(dir, "wrap");
    gaps.write(dir, "tangent_gap");
    largest.write(dir, "max_abs");

    let mut dense = List::new();
    for i in 0..700 * scale {
        let n = rng.below(7);
        let mut a: Vec<f64> =
            (0..n * n).map(|_| if i % 3 == 0 { rng.pick(&[0.0, 0.0, 1.0, -1.0, 2.0, -0.0]) } else { rng.range(-2.0, 2.0) }).collect();
        let mut b: Vec<f64> = (0..n).map(|_| rng.range(-5.0, 5.0)).collect();
        match i % 7 {
            // Nearly or wholly singular; steps that overflow; the smallest pivots.
            1 if n > 1 => (0..n).for_each(|c| a[n + c] = a[c] * (1.0 + rng.pick(&[0.0, 1e-16, 1e-15, 1e-14, 1e-10]))),
            2 => b.iter_mut().for_each(|v| *v *= 1e308),
            3 => a.iter_mut().for_each(|v| *v *= 1e-290),
            4 => a.iter_mut().for_each(|v| *v *= 1e-320),
            _ => {}
        }
        let y = lm::solve_dense(a.clone(), b.clone(), n);
        let answer = y.clone().unwrap_or(vec![0.0; n]);
        dense.put_words(&[vec![n as u64], all_bits(&[&a, &b]), vec![y.is_some() as u64], all_bits(&[&answer])].concat());
    }
    dense.write(dir, "solve_dense");

    let (mut rows, mut calls) = (List::new(), List::new());
    for i in 0..generate::kind_count() * scale + 60 {
        let (r, bodies) = generate::single(rng, i);
        let poses: Vec<[f64; 12]> = bodies.iter().map(|b| pose(rng, b)).collect();
        let mut answer = plain::rows(&r, &poses);
        let (count, most) = (answer.len() as u64, lm::max_abs(&answer));
        answer.resize(7, 0.0);
        rows.put_words(&[relation_words(&r), all_bits(&[poses.as_flattened()]), vec![count], all_bits(&[&answer, &[most]])].concat());
    }
    // Every kind of laws 0 to 6, then gears, then joints of many turns.
    let (mut gears, mut turning) = (Rng(8), Rng(14));
    let kinds = generate::kind_count() * scale;
    let geared = kinds + 128 * scale;
    for i in 0..geared + 192 * scale {
        let (r, bodies) = match i {
            _ if i < kinds => generate::single(rng, i),
            _ if i < geared => trains::single(&mut gears, i - kinds),
            _ => turns::single(&mut turning, i - geared),
        };
        let mut sheet_bytes = Vec::new();
        bodies.iter().for_each(|b| b.write(&mut sheet_bytes));
        let bytes = Sheet { bodies: bodies.to_vec(), relations: vec![r] }.bytes();
        let ask = |call: Call| words(&whole::answer(&bytes, call));
        let (judge, reading) = (ask(Call::Judge { relation: 0 }), ask(Call::Reading { relation: 0 }));
        let snap = ask(Call::Snap { relation: 0, motion: 12 });
        calls.put_words(&[&relation_words(&r)[..], &record_words(&sheet_bytes), &judge, &reading[1..], &snap[1..]].concat());
    }
    rows.write(dir, "rows");
    calls.write(dir, "relation_calls");
}

/// Rows of gears by the second program.
fn gear_rows(dir: &str, rng: &mut Rng, scale: usize) {
    let mut rows = List::new();
    for i in 0..1536 * scale {
        let (r, bodies) = trains::single(rng, i);
        let poses = bodies.map(|b| if i % 4 == 3 { pose(rng, &b) } else { trains::pose_of(&b) });
        let row = trains::worked(&r, &poses).row;
        let answer = [row, 0.0, 0.0, 0.0, 0.0, 0.0, 0.0, lm::max_abs(&[row])];
        rows.put_words(&[relation_words(&r), all_bits(&[poses.as_flattened()]), vec![1], all_bits(&[&answer])].concat());
    }
    rows.write(dir, "gear_rows");
}

/// A body's pose, sometimes far off and with turning entries that are no rotation's.
fn pose(rng: &mut Rng, b: &Body) -> [f64; 12] {
    let [o, x, y, z] = b.frame;
    let far = if rng.one_in(4) { 4.0 } else { 1.0 };
    let skew = if rng.one_in(4) { rng.range(0.5, 1.005) } else { 1.0 };
    let row = |i: usize| [x[i] * skew, y[i] * skew, z[i]];
    [row(0), row(1), row(2), o.map(|v| v * far)].concat().try_into().unwrap()
}

/// What calls of `solve` choose in a list: one set, which the list does not spell out, sets that it spells out, or nothing.
#[derive(Clone, Copy, PartialEq)]
enum Choice {
    TwoHundred,
    Spelled,
    Nothing,
}

/// One sheet with calls: its length in bytes, its bytes as words, the number of calls, then each call:
/// its number, relation or drag, four lengths, the four parameters where they are spelled out, the count of answer words, the answer words.
fn sheet_words(bytes: &[u8], calls: &[Call], choice: Choice) -> Vec<u64> {
    let mut out = vec![bytes.len() as u64];
    out.extend(record_words(bytes));
    out.push(calls.len() as u64);
    for call in calls {
        let head = match *call {
            Call::Judge { relation } => [0, relation as usize, 0, 0, 0, 0],
            Call::Reading { relation } => [1, relation as usize, 0, 0, 0, 0],
            Call::Snap { relation, motion } => [2, relation as usize, 0, motion, 0, 0],
            Call::Solve { drag, set, scratch, poses, frames, errors } => {
                let (number, chosen) = match choice {
                    Choice::TwoHundred => (3, set == Some(Set::TWO_HUNDRED)),
                    Choice::Spelled => (5, set.is_some()),
                    Choice::Nothing => (6, set.is_none()),
                };
                assert!(chosen, "a call of solve that the list has no number for");
                [number, drag as usize, scratch, poses, frames, errors]
            }
            Call::Dof { scratch, freedoms } => [4, 0, scratch, freedoms, 0, 0],
        };
        let answer = words(&whole::answer(bytes, *call));
        out.extend(head.map(|n| n as u64));
        if let Call::Solve { set: Some(set), .. } = call
            && choice == Choice::Spelled
        {
            out.extend([bits(set.tolerance), set.rounds as u64, set.row_limit as u64, bits(set.drag_weight)]);
        }
        out.push(answer.len() as u64);
        out.extend(answer);
    }
    out
}

/// How many doubles of scratch crates/sheet_list has, the program that replays the sheets.
const REPLAYED_SCRATCH: usize = 300_000;

fn sheet_lists(dir: &str, rng: &mut Rng, scale: usize) {
    // Valid sheets, each kept for something that none before it reaches, and every hundredth.
    let (mut valid, mut cover) = (List::new(), Cover::new());
    for i in 0..3000 * scale {
        let sheet = match i % 10 {
            8 => generate::nearly_free(rng),
            9 => generate::sheet(rng, i, 4),
            _ => generate::sheet(rng, i, 2),
        };
        let bytes = sheet.bytes();
        let before = (cover.reached(), taken());
        let calls = generate::good_calls(rng, &sheet);
        cover.sheet(&sheet);
        let solved = [calls[calls.len() - 2], calls[calls.len() - 1]];
        solved.iter().for_each(|c| cover.call(*c, &whole::answer(&bytes, *c)));
        let fresh = (cover.reached(), taken()) != before;
        if (fresh || i % 100 == 99 || scale > 1) && valid.words.len() < 36_000 * scale {
            valid.put_words(&sheet_words(&bytes, &solved, Choice::TwoHundred));
        }
    }
    valid.write(dir, "sheets_solved");
    let mut refused = List::new();
    let mut seen = std::collections::BTreeMap::new();
    for i in 0..4000 {
        let sheet = generate::sheet(rng, i * 7, 1);
        let bytes = generate::damaged(rng, &sheet);
        let read = crate::sheet::read(&bytes);
        if bytes.len() > 1200 {
            continue;
        }
        let calls = generate::calls(rng, read.as_ref().ok());
        let answers: Vec<u64> = calls.iter().map(|c| words(&whole::answer(&bytes, *c))[0]).collect();
        let times = seen.entry(answers).or_insert(0);
        *times += 1;
        if *times <= 8 {
            refused.put_words(&sheet_words(&bytes, &calls, Choice::TwoHundred));
        }
    }
    refused.write(dir, "sheets_refused");
    let mut fields = List::new();
    let changes = |base: Sheet| (base.clone(), generate::field_faults(&record_words(&base.bytes())));
    for (base, faults) in generate::field_bases().into_iter().map(changes).chain(trains::changes()) {
        let mut record = record_words(&base.bytes());
        let sheet = record.clone();
        record.push(faults.len() as u64);
        for (at, word) in faults {
            let bytes = with_word(&sheet, at, word);
            record.extend([at as u64, word, words(&whole::answer(&bytes, Call::Judge { relation: 0 }))[0]]);
        }
        fields.put_words(&record);
    }
    fields.write(dir, "sheets_fields");
    // `solve` and `dof` as far as the scratch goes: all but `solve` on 800 and 801 rows, which compare.rs asks of the library.
    let replayed = |c: &Call| matches!(*c, Call::Solve { scratch, .. } | Call::Dof { scratch, .. } if scratch <= REPLAYED_SCRATCH);
    let mut limits = List::new();
    for (_, sheet) in generate::limits(false) {
        let calls: Vec<Call> = generate::good_calls(rng, &sheet).into_iter().filter(replayed).collect();
        limits.put_words(&sheet_words(&sheet.bytes(), &calls, Choice::TwoHundred));
    }
    limits.write(dir, "sheets_limits");
}

/// Sheets with gears: valid ones, each kept for something that none before it reaches, and every eleventh; faults in one gear and in two;
/// damaged ones.
fn geared_sheets(dir: &str, rng: &mut Rng, scale: usize) {
    let (mut geared, mut cover) = (List::new(), Cover::default());
    let branches = || tenon_gear::COVER.iter().map(|c| c.load(Ordering::Relaxed) > 0).collect::<Vec<_>>();
    for i in 0..480 * scale {
        let sheet = trains::sheet(rng, i);
        let calls = generate::good_calls(rng, &sheet);
        let solved = [calls[calls.len() - 2], calls[calls.len() - 1]];
        let before = (cover.reached(), branches());
        let bytes = sheet.bytes();
        for call in solved {
            let _ = gears::count(&mut cover, &sheet, call, || whole::answer(&bytes, call));
        }
        let fresh = (cover.reached(), branches()) != before;
        if fresh || i % 11 == 10 || scale > 1 {
            geared.put_words(&sheet_words(&bytes, &solved, Choice::TwoHundred));
        }
    }
    for (_, sheet) in trains::orders() {
        geared.put_words(&sheet_words(&sheet.bytes(), &generate::calls_on_one(), Choice::TwoHundred));
    }
    for i in 0..24 {
        let sheet = trains::sheet(rng, i);
        let bytes = trains::damaged(rng, &sheet);
        let read = crate::sheet::read(&bytes);
        if bytes.len() <= 2000 {
            let calls = generate::calls(rng, read.as_ref().ok());
            geared.put_words(&sheet_words(&bytes, &calls, Choice::TwoHundred));
        }
    }
    geared.write(dir, "sheets_geared");
}

/// Sheets solved with sets of parameters, each call kept for a kind of case that none before it is.
fn sheets_with_sets(dir: &str) {
    let mut list = List::new();
    for (bytes, calls) in parameters::listed(15, 60) {
        list.put_words(&sheet_words(&bytes, &calls, Choice::Spelled));
    }
    list.write(dir, "sheets_parameters");
}

/// Sheets solved without a set, each call kept for a kind of case that none before it is.
fn bare_sheets(dir: &str) {
    let mut list = List::new();
    for (bytes, calls) in bare::listed(19, 400) {
        list.put_words(&sheet_words(&bytes, &calls, Choice::Nothing));
    }
    list.write(dir, "sheets_bare");
}

/// Sheets solved by rounds, each schedule of calls kept for a kind of case that none before it is.
fn sheets_by_rounds(dir: &str) {
    let mut list = List::new();
    for (bytes, schedules) in portions::listed(17, 60) {
        let mut record = vec![bytes.len() as u64];
        record.extend(record_words(&bytes));
        record.push(schedules.len() as u64);
        for steps in schedules {
            record.push(steps.len() as u64);
            steps.iter().for_each(|step| record.extend(portions::step_words(step)));
        }
        // What the program reads after the list's end.
        assert!(!record.contains(&u64::MAX));
        list.put_words(&record);
    }
    list.write(dir, "sheets_portions");
}

/// A scene that is lent and what writing it gives: m, k, the lengths of bytes, words, numbers and sheet, then bytes, words and numbers, the
/// number, and for 0 the sheet.
fn scene_words(case: &Case) -> Vec<u64> {
    let scene = case.scene;
    let mut out = vec![scene.m as u64, scene.k as u64];
    out.extend(scene.lengths().iter().chain([&case.room]).map(|n| *n as u64));
    out.extend(record_words(&scene.bytes));
    out.extend(record_words(&scene.words.iter().flat_map(|w| w.to_le_bytes()).collect::<Vec<u8>>()));
    out.extend(scene.numbers.iter().map(|d| bits(f64::from_bits(*d))));
    out.push(case.number as u64);
    if case.number == 0 {
        out.extend(record_words(&laid(scene)));
    }
    out
}

/// What crates/write_list, the program that replays the scenes, has room for: bytes, words, numbers and the sheet's bytes.
const REPLAYED_SCENE: [usize; 4] = [1400, 700, 5000, 43_000];

/// Scenes, each kept for a kind of case that none before it is. Of those refused only short ones are kept, and one each with the fault in the
/// last of 64 bodies, in the last of 128 relations, and with 65 bodies.
fn written_scenes(dir: &str) {
    let (mut scenes, mut cover) = (List::new(), scenes::want());
    scenes::cases(13, 60, &mut |case: Case| {
        assert_eq!(case.number, by_reading(case.scene, case.room));
        let [bytes, words, numbers] = case.scene.lengths();
        let fits = [bytes, words, numbers, case.room].iter().zip(REPLAYED_SCENE).all(|(length, most)| *length <= most);
        let fresh = case.kinds.iter().any(|kind| cover.lacks(kind));
        let last = case.kinds.iter().any(|kind| kind.starts_with("refused in the last") && cover.lacks(kind));
        let short = match case.number {
            0 => true,
            3 => numbers <= 1100,
            _ => numbers <= if last { 4000 } else { 400 },
        };
        if fits && fresh && short {
            let record = scene_words(&case);
            // What the program reads after the list's end.
            assert!(!record.contains(&u64::MAX));
            scenes.put_words(&record);
            case.kinds.iter().for_each(|kind| cover.meet(kind));
        }
    });
    scenes.write(dir, "scenes_written");
}

/// Which branches of the Rust have been taken since the last `forget`.
fn taken() -> Vec<bool> {
    tenon::COVER.iter().map(|c| c.load(Ordering::Relaxed) > 0).collect()
}
fn forget() {
    tenon::COVER.iter().for_each(|c| c.store(0, Ordering::Relaxed));
}

/// Writes all lists. A scale above 1 gives longer lists of single functions and of solved sheets, for a run that is not kept.
pub fn write(dir: &str, scale: usize) -> bool {
    std::fs::create_dir_all(dir).unwrap();
    vectors_lists(dir, &mut Rng(2), scale);
    eigen_lists(dir, &mut Rng(3), scale);
    solver_lists(dir, &mut Rng(4), scale);
    let by_functions = taken();
    forget();
    sheet_lists(dir, &mut Rng(5), scale);
    gear_rows(dir, &mut Rng(9), scale);
    geared_sheets(dir, &mut Rng(10), scale);
    written_scenes(dir);
    sheets_with_sets(dir);
    sheets_by_rounds(dir);
    bare_sheets(dir);
    let count = |taken: &[bool]| taken.iter().filter(|t| **t).count();
    println!("branches of the Rust: {}, taken for single functions {}, for sheets {}", tenon::NAMES.len(), count(&by_functions), count(&taken()));
    for ((name, function), sheet) in tenon::NAMES.iter().zip(by_functions).zip(taken()) {
        if !function && !sheet {
            println!("never taken: {name}");
        }
    }
    true
}
