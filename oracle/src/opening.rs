//! The number that opening a sheet gives, that of tests 1 to 7 and 14: the library's beside the reader's (sheet.rs). The bases are valid sheets of
//! one body and one relation. Each is asked about cut and longer; with every byte changed to every other value; with two bytes, and two words, of
//! what is unused changed so that they cancel each other, and with many bytes of it changed; with every double at its edges and by chance; with
//! every two fields spoiled. A full sheet is damaged in its first and last records. `want` enters at 0 the kinds of cases that must be met.

use crate::compare::{Tally, kept};
use crate::cover::Cover;
use crate::port;
use crate::rng::Rng;
use crate::scenes::{ENDS, MINUS, said};
use crate::sheet::*;
use crate::trains::ORDER;

/// Two bytes that cancel each other in a sum, a difference or an exclusive or.
const BYTES: [(u8, u8); 5] = [(1, 1), (1, 255), (127, 129), (128, 128), (255, 255)];
/// Words that each stand beside themselves and beside what they lack to 2^64.
const WORDS: [u64; 3] = [1, MINUS, 0x0123456789ABCDEF];
/// The records of a full sheet that are damaged.
const RECORDS: [&str; 4] = ["first of 64 bodies", "last of 64 bodies", "first of 128 relations", "last of 128 relations"];
/// Where the relation and its third end begin in a base.
const RELATION: usize = 160;
const THIRD_END: usize = 352;

/// Fields that every law and primitive uses, and those that none does.
const ALWAYS_USED: [&str; 9] = ["fixed", "origin", "axes", "centre", "size", "law", "primitive", "body", "point"];
const NEVER_USED: [&str; 4] = ["bytes 1 to 7", "byte 3", "bytes 4 to 7", "all"];

/// A field of a base, or neighbours of one kind: of what it is, where it begins, its length in bytes, and the limit of its doubles.
struct Part {
    field: &'static str,
    of: &'static str,
    at: usize,
    len: usize,
    limit: f64,
}

/// All of a base but its header, in order. A third end that is not used is one part.
fn parts(third_end: bool) -> Vec<Part> {
    let (mut all, mut at) = (Vec::new(), 24);
    let mut add = |of: &'static str, bytes: &[(&'static str, usize)], doubles: &[(&'static str, usize, f64)]| {
        let bytes = bytes.iter().map(|(field, n)| (*field, *n, 0.0));
        for (field, len, limit) in bytes.chain(doubles.iter().map(|(field, n, limit)| (*field, 8 * n, *limit))) {
            all.push(Part { field, of, at, len, limit });
            at += len;
        }
    };
    add("the body", &[("fixed", 1), ("bytes 1 to 7", 7)], &[("origin", 3, SIZE), ("axes", 9, AXIS), ("centre", 3, SIZE), ("size", 1, SIZE)]);
    let bytes = [("law", 1), ("joint", 1), ("flag", 1), ("byte 3", 1), ("teeth", 4)];
    add("the relation", &bytes, &[("offset", 1, SIZE), ("angle", 1, SIZE), ("reference", 3, AXIS)]);
    let bytes = [("primitive", 1), ("mirrored", 1), ("body", 2), ("bytes 4 to 7", 4)];
    let doubles = [("point", 3, SIZE), ("direction", 3, AXIS), ("circle radius", 1, SIZE), ("end radius", 1, SIZE)];
    ENDS[..if third_end { 3 } else { 2 }].iter().for_each(|end| add(end, &bytes, &doubles));
    if !third_end {
        add(ENDS[2], &[("all", 72)], &[]);
    }
    all
}

impl Part {
    fn may_be_used(&self) -> bool {
        !NEVER_USED.contains(&self.field) && (self.field, self.of) != ("end radius", ENDS[2])
    }
    fn may_be_unused(&self) -> bool {
        !ALWAYS_USED.contains(&self.field)
    }
    /// A kind: what is changed in it while it has no use, and refused by 5.
    fn unused(&self, what: &str) -> String {
        format!("unused {} of {}, {what}", self.field, self.of)
    }
    /// A kind: one of its words has these bits.
    fn word(&self, used: bool, i: usize, bits: u64, number: u32) -> String {
        format!("{} {} of {}, word {i} {bits:016X}, {}", if used { "used" } else { "unused" }, self.field, self.of, said(number))
    }
}

/// The edges of doubles, of both signs: 0, 5e-324, the two about the least normal, the limits and the doubles beside them, the largest, infinity,
/// and NaNs of payload 1, of the highest bit alone and of all bits.
fn edges() -> Vec<u64> {
    let infinity = f64::INFINITY.to_bits();
    let limits = [AXIS, SIZE].map(f64::to_bits).into_iter().flat_map(|limit| [limit - 1, limit, limit + 1]);
    let others = [0, 1, (1 << 52) - 1, 1 << 52, infinity - 1, infinity, infinity + 1, infinity | 1 << 51, !MINUS];
    limits.chain(others).flat_map(|bits| [bits, bits | MINUS]).collect()
}

/// A word of a limit's exponent, or near a limit, or of any bits.
fn by_chance(rng: &mut Rng) -> u64 {
    let (any, limit) = (rng.next(), rng.pick(&[AXIS, SIZE]).to_bits());
    let away = (any << 1 >> 13) >> rng.below(52);
    match rng.below(4) {
        0 => any & !(0x7FF << 52) | limit & (0x7FF << 52),
        1 => any & MINUS | (limit + away),
        2 => any & MINUS | (limit - away),
        _ => any,
    }
}

/// A kind: two fields with a fault each, what each gives alone, the records that they are in, and what both give.
fn two_faults(alone: [u32; 2], records: [&str; 2], number: u32) -> String {
    format!("a fault of {} in the {}, one of {} in the {}, refused {number}", alone[0], records[0], alone[1], records[1])
}

fn want() -> Cover {
    let mut all: Vec<String> = (0..8).chain([14]).map(said).collect();
    for part in parts(true).iter().chain(parts(false).last()) {
        for (i, bits) in (0..part.len / 8).flat_map(|i| edges().into_iter().map(move |bits| (i, bits))) {
            if part.may_be_used() {
                all.push(part.word(true, i, bits, if f64::from_bits(bits).abs() <= part.limit { 0 } else { 7 }));
            }
            if part.may_be_unused() {
                all.push(part.word(false, i, bits, if bits == 0 { 0 } else { 5 }));
            }
        }
        if part.may_be_unused() {
            all.extend((0..part.len).map(|i| part.unused(&format!("byte {i} alone"))));
            if part.len > 1 {
                all.extend(["two bytes that cancel", "many bytes of 255"].map(|what| part.unused(what)));
            }
            all.extend((part.len >= 16).then(|| part.unused("two words that cancel")));
        }
    }
    all.push(two_faults([5, 7], ["body"; 2], 5));
    for (i, first) in ORDER.into_iter().enumerate() {
        all.extend(ORDER[i + 1..].iter().map(|then| two_faults([first, *then], ["relation"; 2], first)));
        all.extend([5, 7].map(|number| two_faults([number, first], ["body", "relation"], number)));
    }
    let unused = [&[1..8][..], &[1..8], &[3..4, 52..56, 124..128, 196..200], &[3..4, 52..56, 124..128, 192..264]];
    for (record, bytes) in RECORDS.iter().zip(unused) {
        all.extend(bytes.iter().cloned().flatten().map(|i| format!("unused byte {i} of the {record}")));
    }
    let mut cover = Cover::default();
    all.into_iter().for_each(|kind| cover.add(kind, 0));
    cover
}

/// Valid sheets: every law with all primitives at any two of its ends, every joint with all primitives at either end. No used double is 0, and no
/// two are the same.
fn bases() -> Vec<Sheet> {
    let all = (0..8).flat_map(|law| (0..if law == JOINT { 24 } else { 16 }).map(move |i| (law, i / 4, i % 4)));
    all.map(|(law, i, b)| if law == JOINT { base(law, i, [(b + i) % 4, b]) } else { base(law, 0, [i, b]) }).collect()
}
fn base(law: u8, joint: u8, [a, b]: [u8; 2]) -> Sheet {
    let mut count = 0.0;
    let mut double = |limit: f64| {
        count += 1.0;
        limit * (1.0 - count / 50.3) * if count % 2.0 == 0.0 { -1.0 } else { 1.0 }
    };
    let mut three = |limit: f64| [(); 3].map(|()| double(limit));
    let (frame, center, [size, offset, angle]) = ([SIZE, AXIS, AXIS, AXIS].map(&mut three), three(SIZE), three(SIZE));
    let (flag, reference) = ((a / 2 + b) % 2, three(AXIS));
    let mut relation = Relation { law, joint, flag, teeth: [268, 83], offset, angle, reference, ..Relation::default() };
    for (e, prim) in [a, b, (a + b) % 4].into_iter().enumerate() {
        let (mirrored, body) = ([b / 2, a / 2, (a + b) / 2 % 2][e], [GROUND * (b as u16 % 2), 0, GROUND * (a as u16 % 2)][e]);
        let (point, direction, [circle_radius, radius, _]) = (three(SIZE), three(AXIS), three(SIZE));
        relation.ends[e] = End { prim, mirrored, body, point, direction, circle_radius, radius };
    }
    Sheet { bodies: vec![Body { fixed: b % 2, frame, center, size }], relations: vec![relation.cleared()] }
}

struct Opening {
    tally: Tally,
    numbers: [u64; 15],
    cover: Cover,
}

impl Opening {
    /// Compares the numbers; gives the reader's.
    fn ask(&mut self, sheet: &[u8]) -> u32 {
        let (number, given) = (read(sheet).err().unwrap_or(0), port::opening(sheet));
        self.numbers[number as usize] += 1;
        let differ = self.tally.differ;
        self.tally.case(given == number, || format!("{given} for {number}, {}", kept(&format!("opening-{differ}"), sheet)));
        number
    }
    /// The same with other bytes in some places; the sheet is left as it was.
    fn with<const N: usize, const W: usize>(&mut self, sheet: &mut [u8], mut changes: [(usize, [u8; W]); N]) -> u32 {
        let mut swap = |sheet: &mut [u8]| changes.iter_mut().for_each(|(at, bytes)| sheet[*at..*at + W].swap_with_slice(bytes));
        swap(sheet);
        let number = self.ask(sheet);
        swap(sheet);
        number
    }

    /// A base by its number; gives which of its bytes are unused. It stands at any address, and no byte before or behind it is 0.
    fn base(&mut self, number: usize, bytes: &[u8], rng: &mut Rng) -> Vec<bool> {
        let (from, to) = (1 + number % 8, 1 + number % 8 + bytes.len());
        let mut memory = vec![255; to + 8];
        memory[from..to].copy_from_slice(bytes);
        assert_eq!(read(bytes).err(), None, "base {number}");
        (from..=to + 8).for_each(|to| _ = self.ask(&memory[from..to]));
        let sheet = &mut memory[from..to];
        let unused = self.each_byte(sheet);
        let parts = parts(unused[THIRD_END..].contains(&false));
        self.unused(sheet, &unused, &parts);
        self.doubles(sheet, &unused, &parts, rng);
        self.two_fields(sheet, &parts);
        unused
    }

    /// Every byte with every other value. A byte is unused if it is 0 and any other value is refused by 5.
    fn each_byte(&mut self, sheet: &mut [u8]) -> Vec<bool> {
        let mut unused = Vec::new();
        for (at, was) in sheet.to_vec().into_iter().enumerate() {
            let refused = (1..=255).filter(|by| self.with(sheet, [(at, [was ^ by])]) == 5).count();
            unused.push(was == 0 && refused == 255);
        }
        unused
    }

    /// Every two bytes of a run that is unused, and with all between them; every two words, of any runs, that stand a multiple of eight bytes apart.
    fn unused(&mut self, sheet: &mut [u8], unused: &[bool], parts: &[Part]) {
        for part in parts {
            (0..part.len).filter(|i| unused[part.at + i]).for_each(|i| self.cover.meet(&part.unused(&format!("byte {i} alone"))));
        }
        for i in 0..sheet.len() {
            for j in (i + 1..sheet.len()).take_while(|j| unused[i] && unused[*j]) {
                let refused = BYTES.iter().filter(|(a, b)| self.with(sheet, [(i, [*a]), (j, [*b])]) == 5).count();
                self.meet(parts, refused == BYTES.len(), i, j + 1, "two bytes that cancel");
                sheet[i..=j].fill(255);
                let number = self.ask(sheet);
                sheet[i..=j].fill(0);
                self.meet(parts, number == 5, i, j + 1, "many bytes of 255");
            }
        }
        let words: Vec<usize> = (0..sheet.len() - 7).filter(|at| !unused[*at..at + 8].contains(&false)).collect();
        for (n, i) in words.iter().enumerate() {
            for j in words[n + 1..].iter().filter(|j| (*j - i) % 8 == 0) {
                let pairs = WORDS.iter().flat_map(|w| [(*w, *w), (*w, w.wrapping_neg())]);
                let refused = pairs.filter(|(a, b)| self.with(sheet, [(*i, a.to_le_bytes()), (*j, b.to_le_bytes())]) == 5).count();
                self.meet(parts, refused == 2 * WORDS.len(), *i, j + 8, "two words that cancel");
            }
        }
    }
    /// Counts what was refused between two places, if one part holds both.
    fn meet(&mut self, parts: &[Part], refused: bool, from: usize, to: usize, what: &str) {
        if let Some(part) = parts.iter().find(|part| refused && part.at <= from && to <= part.at + part.len) {
            self.cover.meet(&part.unused(what));
        }
    }

    /// Every double, used or not, at its edges and 200 times by chance.
    fn doubles(&mut self, sheet: &mut [u8], unused: &[bool], parts: &[Part], rng: &mut Rng) {
        let edges = edges();
        for (part, i) in parts.iter().flat_map(|part| (0..part.len / 8).map(move |i| (part, i))) {
            let at = part.at + 8 * i;
            for bits in &edges {
                let number = self.with(sheet, [(at, bits.to_le_bytes())]);
                self.cover.meet(&part.word(!unused[at], i, *bits, number));
            }
            (0..200).for_each(|_| _ = self.with(sheet, [(at, by_chance(rng).to_le_bytes())]));
        }
    }

    /// Every two fields with a fault in the last byte of each.
    fn two_fields(&mut self, sheet: &mut [u8], parts: &[Part]) {
        let mut faults = Vec::new();
        for at in parts.iter().map(|part| part.at + part.len - 1) {
            let fault = (at, [if sheet[at] == 255 { 254 } else { 255 }]);
            faults.push((fault, self.with(sheet, [fault]), if at < RELATION { "body" } else { "relation" }));
        }
        for (i, (one, first, record)) in faults.iter().enumerate() {
            for (other, then, later) in &faults[i + 1..] {
                let mut alone = [*first, *then];
                if record == later {
                    alone.sort_by_key(|number| ORDER.iter().position(|n| n == number));
                }
                let number = self.with(sheet, [*one, *other]);
                self.cover.meet(&two_faults(alone, [record, later], number));
            }
        }
    }

    /// Each unused byte of the first and of the last records of 64 bodies and 128 relations. The last relation has no third end.
    fn full(&mut self, bases: &[Sheet], unused: &[Vec<bool>]) {
        let (m, k) = (MOST_BODIES, MOST_RELATIONS);
        let relations = bases[..k].iter().rev().map(|base| base.relations[0]).collect();
        let mut sheet = Sheet { bodies: vec![bases[0].bodies[0]; m], relations }.bytes();
        let bodies = [0, m - 1].map(|i| (24 + 136 * i, &unused[0][24..RELATION]));
        let relations = [0, k - 1].map(|i| (24 + 136 * m + 264 * i, &unused[k - 1 - i][RELATION..]));
        for ((at, unused), record) in bodies.into_iter().chain(relations).zip(RECORDS) {
            for i in (0..unused.len()).filter(|i| unused[*i]) {
                if [1, 128, 255].into_iter().filter(|value| self.with(&mut sheet, [(at + i, [*value])]) == 5).count() == 3 {
                    self.cover.meet(&format!("unused byte {i} of the {record}"));
                }
            }
        }
    }
}

/// The sheet library's opening against the reader.
pub fn run() -> bool {
    let mut opening = Opening { tally: Tally::new("opening"), numbers: [0; 15], cover: want() };
    let (bases, mut rng) = (bases(), Rng(1));
    let unused: Vec<Vec<bool>> = bases.iter().enumerate().map(|(i, base)| opening.base(i, &base.bytes(), &mut rng)).collect();
    opening.full(&bases, &unused);
    for (number, count) in (0..).zip(opening.numbers).filter(|(_, count)| *count > 0) {
        println!("opening {}: {count}", said(number));
        opening.cover.add(said(number), count);
    }
    opening.tally.done() & opening.cover.done()
}
