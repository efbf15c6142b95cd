//! The second program for writing a scene: a scene as it is lent, taken out of a sheet, and the number and the sheet that writing it must
//! give. Written from document 01 and requests 1/14 and 2/14 over bytes, words and bits; it shares nothing with the port. The number is
//! found in two ways: by laying the sheet out and reading it (sheet.rs), and by a table of the fields that each law uses.

use crate::sheet::{self, AXIS, GROUND, MOST_BODIES, MOST_RELATIONS, MOST_TEETH, SIZE};

/// A scene as it is lent: of bytes 2 a body, then 9 a relation; of words 5 a relation; of numbers, by their bits, 16 a body, then 29 a
/// relation. More than that may be lent.
#[derive(Clone, Debug, Default, PartialEq)]
pub struct Scene {
    pub m: u16,
    pub k: u16,
    pub bytes: Vec<u8>,
    pub words: Vec<u16>,
    pub numbers: Vec<u64>,
}

impl Scene {
    /// How much of bytes, words and numbers a scene of so many bodies and relations takes.
    pub fn needs(&self) -> [usize; 3] {
        let (m, k) = (self.m as usize, self.k as usize);
        [2 * m + 9 * k, 5 * k, 16 * m + 29 * k]
    }
    pub fn lengths(&self) -> [usize; 3] {
        [self.bytes.len(), self.words.len(), self.numbers.len()]
    }
    pub fn is_whole(&self) -> bool {
        self.needs().iter().zip(self.lengths()).all(|(need, length)| length >= *need)
    }
    /// The length of its sheet in bytes.
    pub fn room(&self) -> usize {
        24 + 136 * self.m as usize + 264 * self.k as usize
    }
}

/// The scene in a sheet that is accepted.
pub fn apart(sheet: &[u8]) -> Scene {
    let half = |at: usize| u16::from_le_bytes([sheet[at], sheet[at + 1]]);
    let doubles = |at: usize, n: usize| (0..n).map(move |i| u64::from_le_bytes(sheet[at + 8 * i..at + 8 * i + 8].try_into().unwrap()));
    let (m, k) = (half(2), half(4));
    let mut scene = Scene { m, k, ..Scene::default() };
    for body in (0..m as usize).map(|i| 24 + 136 * i) {
        scene.bytes.extend([sheet[body], sheet[body + 1]]);
        scene.numbers.extend(doubles(body + 8, 16));
    }
    for relation in (0..k as usize).map(|j| 24 + 136 * m as usize + 264 * j) {
        scene.bytes.extend(&sheet[relation..relation + 3]);
        scene.words.extend([half(relation + 4), half(relation + 6)]);
        scene.numbers.extend(doubles(relation + 8, 5));
        for end in [48, 120, 192].map(|at| relation + at) {
            scene.bytes.extend([sheet[end], sheet[end + 1]]);
            scene.words.push(half(end + 2));
            scene.numbers.extend(doubles(end + 8, 8));
        }
    }
    scene
}

/// The header of a sheet of m bodies and k relations.
fn header(m: u16, k: u16) -> Vec<u8> {
    let records = 24 + 136 * m as u32;
    let halves = [1, m, k, 0].into_iter().flat_map(u16::to_le_bytes);
    halves.chain([24, records, records + 264 * k as u32, 0].into_iter().flat_map(u32::to_le_bytes)).collect()
}

/// The sheet's bytes, whatever the fields hold; all that is needed is lent.
pub fn laid(scene: &Scene) -> Vec<u8> {
    let (mut bytes, mut words, mut numbers) = (scene.bytes.iter(), scene.words.iter(), scene.numbers.iter());
    let mut out = header(scene.m, scene.k);
    for _ in 0..scene.m {
        out.extend(bytes.by_ref().take(2));
        out.extend([0; 6]);
        out.extend(numbers.by_ref().take(16).flat_map(|d| d.to_le_bytes()));
    }
    for _ in 0..scene.k {
        out.extend(bytes.by_ref().take(3));
        out.push(0);
        out.extend(words.by_ref().take(2).flat_map(|w| w.to_le_bytes()));
        out.extend(numbers.by_ref().take(5).flat_map(|d| d.to_le_bytes()));
        for _ in 0..3 {
            out.extend(bytes.by_ref().take(2));
            out.extend(words.by_ref().take(1).flat_map(|w| w.to_le_bytes()));
            out.extend([0; 4]);
            out.extend(numbers.by_ref().take(8).flat_map(|d| d.to_le_bytes()));
        }
    }
    out
}

/// The number that writing the scene to so much room must give, as reading the sheet tells it.
pub fn by_reading(scene: &Scene, room: usize) -> u32 {
    if sheet::read(&header(scene.m, scene.k)).err() == Some(3) {
        return 3;
    }
    if !scene.is_whole() {
        return 10;
    }
    let bytes = laid(scene);
    match sheet::read(&bytes) {
        Err(number) => number,
        Ok(_) if room < bytes.len() => 10,
        Ok(_) => 0,
    }
}

/// The place of a field among what is lent.
#[derive(Clone, Copy, Debug, PartialEq)]
pub enum Place {
    Byte(usize),
    Word(usize),
    Number(usize),
}

/// What a field may hold: nothing but 0 bits where it has no use.
#[derive(Clone, Copy, Debug, PartialEq)]
pub enum Rule {
    Zero,
    UpTo(u8),
    Teeth,
    Body,
    Within(f64),
}

/// A field of a record: where it stands, what it is called, of which end it is, and what it may hold.
#[derive(Clone, Copy, Debug)]
pub struct Field {
    pub place: Place,
    pub name: &'static str,
    pub end: Option<usize>,
    pub rule: Rule,
}

/// What each law uses beyond the law byte and the ends a and b.
const USED: [&[&str]; 8] = [
    &["offset"],
    &["offset"],
    &["angle", "reference"],
    &["offset", "flag"],
    &["offset", "flag", "end radius"],
    &["third end"],
    &["offset", "angle", "flag", "joint", "mirrored"],
    &["angle", "mirrored", "teeth", "third end"],
];

impl Scene {
    pub fn get(&self, place: Place) -> u64 {
        match place {
            Place::Byte(i) => self.bytes[i] as u64,
            Place::Word(i) => self.words[i] as u64,
            Place::Number(i) => self.numbers[i],
        }
    }
    pub fn put(&mut self, place: Place, value: u64) {
        match place {
            Place::Byte(i) => self.bytes[i] = value as u8,
            Place::Word(i) => self.words[i] = value as u16,
            Place::Number(i) => self.numbers[i] = value,
        }
    }

    pub fn body(&self, i: usize) -> Vec<Field> {
        let field = |place: Place, name: &'static str, rule: Rule| Field { place, name, end: None, rule };
        let mut out = vec![field(Place::Byte(2 * i), "fixed", Rule::UpTo(1)), field(Place::Byte(2 * i + 1), "second byte", Rule::Zero)];
        for (at, n, name, limit) in [(0, 3, "origin", SIZE), (3, 9, "axis", AXIS), (12, 3, "centre", SIZE), (15, 1, "size", SIZE)] {
            out.extend((0..n).map(|j| field(Place::Number(16 * i + at + j), name, Rule::Within(limit))));
        }
        out
    }

    pub fn relation(&self, j: usize) -> Vec<Field> {
        let m = self.m as usize;
        let (byte, word, number) = (2 * m + 9 * j, 5 * j, 16 * m + 29 * j);
        let law = self.bytes[byte] as usize;
        let uses = |name: &str| USED.get(law).is_some_and(|used| used.contains(&name));
        let mut out = Vec::new();
        let mut add = |place: Place, name: &'static str, end: Option<usize>, used: bool, rule: Rule| {
            out.push(Field { place, name, end, rule: if used { rule } else { Rule::Zero } })
        };
        add(Place::Byte(byte), "law", None, true, Rule::UpTo(7));
        for (i, name, most) in [(1, "joint", 5), (2, "flag", 1)] {
            add(Place::Byte(byte + i), name, None, uses(name), Rule::UpTo(most));
        }
        (0..2).for_each(|e| add(Place::Word(word + e), "teeth", Some(e), uses("teeth"), Rule::Teeth));
        for (i, name, limit) in [(0, "offset", SIZE), (1, "angle", SIZE), (2, "reference", AXIS), (3, "reference", AXIS), (4, "reference", AXIS)] {
            add(Place::Number(number + i), name, None, uses(name), Rule::Within(limit));
        }
        for e in 0..3 {
            let there = e < 2 || uses("third end");
            let prim = self.bytes[byte + 3 + 2 * e];
            add(Place::Byte(byte + 3 + 2 * e), "primitive", Some(e), there, Rule::UpTo(3));
            add(Place::Byte(byte + 4 + 2 * e), "mirrored", Some(e), there && uses("mirrored"), Rule::UpTo(1));
            add(Place::Word(word + 2 + e), "body", Some(e), there, Rule::Body);
            let at = number + 5 + 8 * e;
            (0..3).for_each(|i| add(Place::Number(at + i), "point", Some(e), there, Rule::Within(SIZE)));
            (3..6).for_each(|i| add(Place::Number(at + i), "direction", Some(e), there && prim != sheet::POINT, Rule::Within(AXIS)));
            add(Place::Number(at + 6), "circle radius", Some(e), there && prim == sheet::CIRCLE, Rule::Within(SIZE));
            add(Place::Number(at + 7), "end radius", Some(e), there && uses("end radius"), Rule::Within(SIZE));
        }
        out
    }

    /// The test that a field fails, if it fails one.
    fn fault(&self, field: &Field) -> Option<u32> {
        let value = self.get(field.place);
        let (fails, number) = match field.rule {
            Rule::Zero => (value != 0, 5),
            Rule::UpTo(most) => (value > most as u64, 5),
            Rule::Teeth => (value == 0 || value > MOST_TEETH as u64, 14),
            Rule::Body => (value >= self.m as u64 && value != GROUND as u64, 6),
            // Without their sign, bits are ordered as magnitudes are, infinity and NaN last.
            Rule::Within(limit) => (value << 1 > limit.to_bits() << 1, 7),
        };
        fails.then_some(number)
    }

    /// The tests that each body, then each relation fails, in the order that a record is tested; all that is needed is lent.
    pub fn faults(&self) -> Vec<Vec<u32>> {
        let of = |fields: Vec<Field>| {
            let failed: Vec<u32> = fields.iter().filter_map(|field| self.fault(field)).collect();
            [5, 14, 6, 7].into_iter().filter(|number| failed.contains(number)).collect()
        };
        (0..self.m as usize).map(|i| of(self.body(i))).chain((0..self.k as usize).map(|j| of(self.relation(j)))).collect()
    }
}

/// The same number, as the table of fields tells it.
pub fn by_fields(scene: &Scene, room: usize) -> u32 {
    if scene.m as usize > MOST_BODIES || scene.k as usize > MOST_RELATIONS {
        return 3;
    }
    if !scene.is_whole() {
        return 10;
    }
    let first = scene.faults().into_iter().flatten().next();
    first.unwrap_or(if room < scene.room() { 10 } else { 0 })
}
