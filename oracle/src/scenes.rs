//! `sheet_write` beside the second program (writing.rs). `cases` makes the scenes and the lengths that are lent, and names the kinds that each
//! case shows; `want` enters at 0 those that must be met.

use crate::compare::{Tally, kept};
use crate::cover::{Cover, JOINTS, LAWS, PRIMS};
use crate::rng::Rng;
use crate::sheet::*;
use crate::trains::{self, ORDER};
use crate::writing::{Field, Place, Rule, Scene, apart, by_fields, by_reading, laid};
use crate::{generate, port};

pub const ENDS: [&str; 3] = ["a", "b", "the third end"];
const SLICES: [&str; 3] = ["bytes", "words", "numbers"];
pub const MINUS: u64 = 1 << 63;
/// NaNs of both signs, quiet and not, with few and with many bits.
pub const NANS: [u64; 6] = [0x7FF8000000000000, 0xFFF8000000000000, 0x7FF0000000000001, 0xFFF0000000000001, 0x7FFFFFFFFFFFFFFF, 0xFFF7FFFFFFFFFFFE];

/// A scene lent for a sheet of so many bytes, the number that it must give, and the kinds of cases that it is.
pub struct Case<'a> {
    pub scene: &'a Scene,
    pub room: usize,
    pub number: u32,
    pub kinds: Vec<String>,
}

pub fn said(number: u32) -> String {
    if number == 0 { "accepted".into() } else { format!("refused {number}") }
}

impl Case<'_> {
    fn of(scene: &Scene, room: usize) -> Case<'_> {
        let number = by_fields(scene, room);
        let mut case = Case { scene, room, number, kinds: vec![said(number)] };
        match number {
            0 => case.accepted(),
            3 => case.over(),
            10 => case.short(),
            _ => case.order(),
        }
        case
    }
    fn add(&mut self, kind: String) {
        self.kinds.push(kind);
    }

    fn accepted(&mut self) {
        let scene = self.scene;
        let (m, k) = (scene.m as usize, scene.k as usize);
        for (met, size) in [
            (m == 0 && k == 0, "no body and no relation"),
            (m == 0 && k > 0, "no body"),
            (m > 0 && k == 0, "no relation"),
            (m == MOST_BODIES, "64 bodies"),
            (k == MOST_RELATIONS, "128 relations"),
            (m == MOST_BODIES && k == MOST_RELATIONS, "64 bodies and 128 relations"),
        ] {
            if met {
                self.add(format!("accepted, {size}"));
            }
        }
        let slices = SLICES.into_iter().zip(scene.needs()).zip(scene.lengths());
        for ((slice, need), length) in slices.chain([(("sheet", scene.room()), self.room)]) {
            if need > 0 {
                self.add(format!("accepted, {slice} {}", if length == need { "exact" } else { "longer" }));
            }
        }
        (0..m).for_each(|i| self.add(format!("accepted, a {} body", ["free", "fixed"][scene.bytes[2 * i] as usize])));
        for j in 0..k {
            let (bytes, words) = (&scene.bytes[2 * m + 9 * j..], &scene.words[5 * j..]);
            let law = LAWS[bytes[0] as usize];
            self.add(format!("accepted, {law} flag {}", bytes[2]));
            self.add(format!("accepted, {law} {}", JOINTS[bytes[1] as usize]));
            for (e, end) in ENDS.iter().enumerate() {
                let (prim, mirrored, body) = (bytes[3 + 2 * e], bytes[4 + 2 * e], words[2 + e]);
                self.add(format!("accepted, {law}, {end} a {}", PRIMS[prim as usize]));
                self.add(format!("accepted, {law}, {end} mirrored {mirrored}"));
                let on = match body as usize {
                    _ if body == GROUND => "the ground",
                    0 => "the first body",
                    i if i + 1 == m => "the last body",
                    _ => "another body",
                };
                self.add(format!("accepted, {law}, {end} on {on}"));
            }
        }
    }

    /// Too many bodies or relations.
    fn over(&mut self) {
        let scene = self.scene;
        let lent = if scene.is_whole() && self.room >= scene.room() {
            "all lent"
        } else if scene.lengths() == [0; 3] && self.room == 0 {
            "nothing lent"
        } else {
            "little lent"
        };
        let (bodies, relations) = (scene.m as usize > MOST_BODIES, scene.k as usize > MOST_RELATIONS);
        let what = match (bodies, relations) {
            (true, false) => format!("m {}", scene.m),
            (false, true) => format!("k {}", scene.k),
            _ => "m and k".into(),
        };
        self.add(format!("refused 3, {what}, {lent}"));
    }

    /// A slice too short. One short counts where nothing else is.
    fn short(&mut self) {
        let scene = self.scene;
        let slices = SLICES.into_iter().zip(scene.needs()).zip(scene.lengths());
        let all: Vec<_> = slices.chain([(("sheet", scene.room()), self.room)]).filter(|((_, need), length)| length < need).collect();
        let by = |length: usize, need: usize| if length + 1 == need { "one short" } else { "short" };
        match all[..] {
            [((slice, need), length)] => self.add(format!("refused 10, {slice} {}", if length == 0 { "not lent" } else { by(length, need) })),
            [.., (("sheet", _), _)] => self.add("refused 10, some of the scene and the sheet short".into()),
            _ => self.add("refused 10, more than one of the scene short".into()),
        }
    }

    /// A fault in a record, and those that come after it.
    fn order(&mut self) {
        let (faults, m) = (self.scene.faults(), self.scene.m as usize);
        let what = |i: usize| if i < m { "body" } else { "relation" };
        let at = faults.iter().position(|f| !f.is_empty()).unwrap();
        let (number, first) = (self.number, what(at));
        faults[at][1..].iter().for_each(|then| self.add(format!("refused {number} in a {first}, {then} in the same {first}")));
        for (i, later) in faults.iter().enumerate().skip(at + 1) {
            later.iter().for_each(|then| self.add(format!("refused {number} in a {first}, {then} in a later {}", what(i))));
        }
        if self.room < self.scene.room() {
            self.add(format!("refused {number}, the sheet short"));
        }
        let last = if m == MOST_BODIES && at + 1 == m {
            "in the last of 64 bodies"
        } else if self.scene.k as usize == MOST_RELATIONS && at + 1 == faults.len() {
            "in the last of 128 relations"
        } else {
            return;
        };
        self.add(format!("refused {number} {last}"));
        self.add(format!("refused {last}"));
    }
}

/// A field's name, with its end's where it is of an end.
fn name(field: &Field) -> String {
    let of = field.end.map_or(String::new(), |e| format!(" of {}", ENDS[e]));
    format!("{}{of}", field.name)
}

/// What a field is changed to, in words.
fn label(scene: &Scene, field: &Field, value: u64) -> String {
    let limit = if let Rule::Within(limit) = field.rule { limit.to_bits() } else { MINUS };
    let minus = if value & MINUS != 0 { "minus " } else { "" };
    match (field.place, value & !MINUS) {
        (_, v) if field.rule == Rule::Body && v == scene.m as u64 => "m".into(),
        (_, v) if field.rule == Rule::Body && v + 1 == scene.m as u64 => "m - 1".into(),
        (Place::Byte(_) | Place::Word(_), v) => v.to_string(),
        (_, 0) => format!("{minus}0"),
        (_, 1) => format!("{minus}5e-324"),
        (_, v) if v == limit => format!("{minus}its limit"),
        (_, v) if v == limit + 1 => format!("{minus}the next after its limit"),
        (_, v) if v == f64::INFINITY.to_bits() => format!("{minus}infinity"),
        (_, v) if v > f64::INFINITY.to_bits() => "NaN".into(),
        _ => "another".into(),
    }
}

/// The values that a field is changed to.
fn values(scene: &Scene, field: &Field) -> Vec<u64> {
    let m = scene.m as u64;
    match field.place {
        Place::Byte(_) => (0..9).chain([128, 255]).collect(),
        Place::Word(_) => vec![0, 1, 2, 255, 256, 399, 400, 401, m.saturating_sub(1), m, m + 1, 32768, 65534, 65535],
        Place::Number(_) => {
            let edges = [0.0, 5e-324, 1.0, AXIS, AXIS.next_up(), SIZE, SIZE.next_up(), f64::MAX, f64::INFINITY].map(f64::to_bits);
            edges.iter().flat_map(|d| [*d, d | MINUS]).chain(NANS).collect()
        }
    }
}

/// A value that the field's rule refuses, the nearest to those it accepts.
fn spoiled(scene: &Scene, field: &Field) -> u64 {
    match (field.rule, field.place) {
        (Rule::Zero, Place::Number(_)) => MINUS,
        (Rule::Zero, _) => 1,
        (Rule::UpTo(most), _) => most as u64 + 1,
        (Rule::Teeth, _) => 0,
        (Rule::Body, _) => scene.m as u64,
        (Rule::Within(limit), _) => limit.to_bits() + 1,
    }
}

/// The scene in a sheet; laid out again it is that sheet.
fn taken(sheet: &Sheet) -> Scene {
    let bytes = sheet.bytes();
    let scene = apart(&bytes);
    assert!(scene.is_whole() && laid(&scene) == bytes);
    scene
}

/// Scenes of two bodies and one relation, of every law with every primitive at every end.
fn bases() -> Vec<Scene> {
    let two = |(i, mut s): (usize, Sheet)| {
        let body = s.bodies[0];
        s.bodies.push(Body {
            fixed: 1 - body.fixed,
            frame: [[3.0, -4.5, 0.25], body.frame[2], body.frame[3], body.frame[1]],
            center: [7.5, 8.25, -9.0],
            size: 3.5,
        });
        s.relations[0].ends[1].body = (i % 2) as u16;
        taken(&s)
    };
    generate::field_bases().into_iter().chain(trains::field_bases()).enumerate().map(two).collect()
}

/// All fields of a scene.
fn fields(scene: &Scene) -> Vec<Field> {
    let bodies = (0..scene.m as usize).flat_map(|i| scene.body(i));
    bodies.chain((0..scene.k as usize).flat_map(|j| scene.relation(j))).collect()
}

/// A whole scene: the sheet's slice exact, longer, one short and less, each slice of the scene one short and not lent, and more lent behind it.
fn lengths(scene: &Scene, ask: &mut impl FnMut(Case)) {
    let room = scene.room();
    [room, room + 1, room + 137, room - 1, room.min(24) - 1, 0].iter().for_each(|room| ask(Case::of(scene, *room)));
    for (i, need) in scene.needs().into_iter().enumerate().filter(|(_, need)| *need > 0) {
        for (length, room) in [(need - 1, room), (0, room), (need - 1, room - 1), (need - 1, room + 8)] {
            let mut short = scene.clone();
            cut(&mut short, i, length);
            ask(Case::of(&short, room));
        }
    }
    for i in 0..3 {
        let mut long = scene.clone();
        behind(&mut long, i, 1 + 3 * i);
        ask(Case::of(&long, room));
        (0..3).for_each(|i| behind(&mut long, i, 47));
        ask(Case::of(&long, room + i));
        cut(&mut long, i, scene.needs()[i].saturating_sub(1));
        ask(Case::of(&long, room));
    }
}
fn cut(scene: &mut Scene, slice: usize, length: usize) {
    match slice {
        0 => scene.bytes.truncate(length),
        1 => scene.words.truncate(length),
        _ => scene.numbers.truncate(length),
    }
}
/// Lends more of a slice, of what no field may hold.
fn behind(scene: &mut Scene, slice: usize, more: usize) {
    match slice {
        0 => scene.bytes.extend((0..more).map(|i| 254 - (i % 3) as u8)),
        1 => scene.words.extend((0..more).map(|i| 65534 - (i % 3) as u16)),
        _ => scene.numbers.extend((0..more).map(|i| NANS[i % 5])),
    }
}

/// All doubles that are used at once with each value that they may have; each field by itself with each of its values; every two fields
/// spoiled together.
fn each_field(ask: &mut impl FnMut(Case)) {
    for base in bases() {
        let fields = fields(&base);
        for (at_limit, value) in [(false, 0), (false, 1), (true, 0)].into_iter().flat_map(|(l, v)| [(l, v), (l, v | MINUS)]) {
            edge(&base, &fields, at_limit, value, ask);
        }
        for field in &fields {
            values(&base, field).into_iter().for_each(|value| one_field(&base, field, value, ask));
            one_field(&base, field, spoiled(&base, field), ask);
        }
        for (i, one) in fields.iter().enumerate() {
            for other in &fields[i + 1..] {
                let mut scene = base.clone();
                [one, other].iter().for_each(|field| scene.put(field.place, spoiled(&base, field)));
                ask(Case::of(&scene, scene.room()));
            }
        }
    }
    for law in (0..10).chain([128, 255]) {
        let mut scene = bare();
        scene.put(Place::Byte(2), law);
        let mut case = Case::of(&scene, scene.room());
        let said = said(case.number);
        case.add(format!("nothing but points, law {law}, {said}"));
        ask(case);
    }
}

/// A field's change in words, with what comes of it.
fn change(base: &Scene, field: &Field, value: u64, number: u32) -> String {
    let unused = if field.rule == Rule::Zero { "unused " } else { "" };
    format!("{unused}{} {}, {}", name(field), label(base, field, value), said(number))
}

/// Every used double of a scene is the value, or its limit with the value's sign.
fn edge(base: &Scene, fields: &[Field], at_limit: bool, value: u64, ask: &mut impl FnMut(Case)) {
    let mut scene = base.clone();
    let mut changes = Vec::new();
    for field in fields {
        if let Rule::Within(limit) = field.rule {
            let value = if at_limit { limit.to_bits() ^ value } else { value };
            scene.put(field.place, value);
            changes.push((field, value));
        } else if field.rule == Rule::Zero {
            changes.push((field, 0));
        }
    }
    let mut case = Case::of(&scene, scene.room());
    let number = case.number;
    changes.iter().for_each(|(field, value)| case.add(change(base, field, *value, number)));
    ask(case);
}

/// One field changed.
fn one_field(base: &Scene, field: &Field, value: u64, ask: &mut impl FnMut(Case)) {
    let mut scene = base.clone();
    scene.put(field.place, value);
    let mut case = Case::of(&scene, scene.room() + (value % 3) as usize);
    let number = case.number;
    case.add(change(base, field, value, number));
    if NANS.contains(&value) {
        let unused = if field.rule == Rule::Zero { "unused " } else { "" };
        case.add(format!("{unused}NaN {value:016X}, {}", said(number)));
    }
    if value == spoiled(base, field) {
        // The bases have two bodies and one relation.
        let law = LAWS[base.bytes[4] as usize];
        case.add(format!("spoiled {} of {law}, {}", name(field), said(number)));
        match field.place {
            Place::Number(i) if i < 32 => case.add(format!("spoiled number {} of a body", i % 16)),
            Place::Number(i) => case.add(format!("spoiled number {} of a relation", i - 32)),
            _ => {}
        }
    }
    ask(case);
}

/// A body and a mate of two points without offset: all of the relation is 0 but its ends a and b.
fn bare() -> Scene {
    let body = generate::field_bases()[0].bodies[0];
    let point = |body: u16| End { prim: POINT, body, ..End::default() };
    let mate = Relation { ends: [point(GROUND), point(0), End::default()], ..Relation::default() };
    taken(&Sheet { bodies: vec![body], relations: vec![mate] })
}

/// Two gears with every set of faults in one and every pair in two; then with less lent too.
fn orders(ask: &mut impl FnMut(Case)) {
    for (faults, sheet) in trains::orders() {
        let scene = taken(&sheet);
        let room = scene.room();
        [room, room + 5, room - 1, 0].iter().for_each(|room| ask(Case::of(&scene, *room)));
        let ([number], []) = (&faults[0][..], &faults[1][..]) else { continue };
        for (i, slice) in SLICES.iter().enumerate() {
            let mut short = scene.clone();
            cut(&mut short, i, scene.needs()[i] - 1);
            let mut case = Case::of(&short, room);
            let said = said(case.number);
            case.add(format!("{said}, {slice} short and a fault of {number}"));
            ask(case);
        }
    }
}

/// Valid scenes by seed, every third with gears, and the same with one to three fields changed.
fn generated(rng: &mut Rng, n: usize, ask: &mut impl FnMut(Case)) {
    for i in 0..n {
        let most = if i % 50 == 0 { 12 } else { 4 };
        let sheet = if i % 3 == 2 { trains::sheet(rng, i / 3) } else { generate::sheet(rng, i - i / 3, most) };
        let scene = taken(&sheet);
        lengths(&scene, ask);
        changed(rng, &scene, 12, ask);
    }
}
/// So many times a scene with one to three fields changed, and any room.
fn changed(rng: &mut Rng, scene: &Scene, times: usize, ask: &mut impl FnMut(Case)) {
    let fields = fields(scene);
    for _ in 0..times {
        let mut scene = scene.clone();
        for _ in 0..rng.pick(&[1, 1, 2, 2, 3]) {
            let field = rng.pick(&fields);
            let value = if rng.one_in(2) { spoiled(&scene, &field) } else { rng.pick(&values(&scene, &field)) };
            scene.put(field.place, value);
        }
        let room = scene.room();
        ask(Case::of(&scene, rng.pick(&[room, room, room, room + 1, room + 264, room - 1, 0])));
    }
}

/// The most bodies and relations and none, and more than the most, with all lent and with nothing.
fn counts(rng: &mut Rng, ask: &mut impl FnMut(Case)) {
    let large = generate::large().into_iter().map(|(sheet, _)| sheet).chain([trains::full()]);
    for sheet in large.chain(generate::limits(false).into_iter().map(|(_, sheet)| sheet)) {
        let scene = taken(&sheet);
        lengths(&scene, ask);
        if scene.m == 0 || scene.k == 0 {
            continue;
        }
        for fields in [scene.body(scene.m as usize - 1), scene.relation(scene.k as usize - 1)] {
            for field in fields {
                let mut scene = scene.clone();
                scene.put(field.place, spoiled(&scene, &field));
                ask(Case::of(&scene, scene.room()));
            }
        }
        changed(rng, &scene, 20, ask);
    }
    for (m, k) in [(0, 1), (0, 128), (64, 0), (65, 0), (0, 129), (65, 129), (65535, 0), (0, 65535), (65535, 65535)] {
        let mut scene = Scene { m, k, ..Scene::default() };
        [0, 65536].iter().for_each(|room| ask(Case::of(&scene, *room)));
        let [bytes, words, numbers] = scene.needs();
        (scene.bytes, scene.words, scene.numbers) = (vec![0; bytes], vec![0; words], vec![0; numbers]);
        // All 0 but the ends: mates of planes on the ground.
        scene.words.chunks_mut(5).for_each(|w| w[2..4].fill(GROUND));
        let room = scene.room();
        [room, room - 1, room + 9].iter().for_each(|room| ask(Case::of(&scene, *room)));
        if (m as usize, k as usize) == (MOST_BODIES, 0) || (m as usize, k as usize) == (0, MOST_RELATIONS) {
            let field = *fields(&scene).last().unwrap();
            let mut scene = scene.clone();
            scene.put(field.place, spoiled(&scene, &field));
            ask(Case::of(&scene, room));
        }
        (0..3).for_each(|i| behind(&mut scene, i, 5));
        ask(Case::of(&scene, room));
    }
}

/// Every case of a seed: N valid scenes, their fields changed, and the limits.
pub fn cases(seed: u64, n: usize, ask: &mut impl FnMut(Case)) {
    let mut rng = Rng(seed);
    bases().iter().for_each(|scene| lengths(scene, ask));
    each_field(ask);
    orders(ask);
    generated(&mut rng, n, ask);
    counts(&mut rng, ask);
}

/// What `cases` must meet.
pub fn want() -> Cover {
    let mut all: Vec<String> = [0, 3, 5, 6, 7, 10, 14].map(said).into();
    for (law, name) in LAWS.iter().enumerate() {
        let (flagged, mirrored) = (matches!(law as u8, INSERT | TANGENT | JOINT), matches!(law as u8, JOINT | GEAR));
        (0..=flagged as u8).for_each(|flag| all.push(format!("accepted, {name} flag {flag}")));
        for end in &ENDS[..if matches!(law as u8, SYMMETRY | GEAR) { 3 } else { 2 }] {
            PRIMS.iter().for_each(|prim| all.push(format!("accepted, {name}, {end} a {prim}")));
            (0..=mirrored as u8).for_each(|m| all.push(format!("accepted, {name}, {end} mirrored {m}")));
            ["the ground", "the first body", "the last body", "another body"]
                .iter()
                .for_each(|on| all.push(format!("accepted, {name}, {end} on {on}")));
        }
    }
    JOINTS.iter().for_each(|joint| all.push(format!("accepted, joint {joint}")));
    ["free", "fixed"].iter().for_each(|body| all.push(format!("accepted, a {body} body")));
    for size in ["no body and no relation", "no body", "no relation", "64 bodies", "128 relations", "64 bodies and 128 relations"] {
        all.push(format!("accepted, {size}"));
    }
    for slice in SLICES.iter().chain(&["sheet"]) {
        ["exact", "longer"].iter().for_each(|length| all.push(format!("accepted, {slice} {length}")));
        ["one short", "not lent"].iter().for_each(|length| all.push(format!("refused 10, {slice} {length}")));
    }
    ["some of the scene and the sheet", "more than one of the scene"].iter().for_each(|what| all.push(format!("refused 10, {what} short")));
    for count in ["m 65", "m 65535", "k 129", "k 65535", "m and k"] {
        ["all", "nothing", "little"].iter().for_each(|lent| all.push(format!("refused 3, {count}, {lent} lent")));
    }
    want_orders(&mut all);
    want_fields(&mut all);
    let mut cover = Cover::default();
    all.into_iter().for_each(|kind| cover.add(kind, 0));
    cover
}

/// The order of tests within a record, from record to record, and before and after those of lengths.
fn want_orders(all: &mut Vec<String>) {
    let tests = [("body", &[5, 7][..]), ("relation", &ORDER[..])];
    for (i, (first, numbers)) in tests.iter().enumerate() {
        for (at, number) in numbers.iter().enumerate() {
            numbers[at + 1..].iter().for_each(|then| all.push(format!("refused {number} in a {first}, {then} in the same {first}")));
            for (later, thens) in &tests[i..] {
                thens.iter().for_each(|then| all.push(format!("refused {number} in a {first}, {then} in a later {later}")));
            }
        }
    }
    ["64 bodies", "128 relations"].iter().for_each(|of| all.push(format!("refused in the last of {of}")));
    [5, 7].iter().for_each(|number| all.push(format!("refused {number} in the last of 64 bodies")));
    for number in ORDER {
        all.push(format!("refused {number} in the last of 128 relations"));
        all.push(format!("refused {number}, the sheet short"));
        SLICES.iter().for_each(|slice| all.push(format!("refused 10, {slice} short and a fault of {number}")));
    }
}

/// Each field, used and unused, at its edges.
fn want_fields(all: &mut Vec<String>) {
    let of = |name: &str, ends: &[&str]| ends.iter().map(|end| format!("{name} of {end}")).collect::<Vec<_>>();
    let plain = |names: &[&str]| names.iter().map(|name| name.to_string()).collect::<Vec<_>>();
    let used = [plain(&["origin", "axis", "centre", "size", "offset", "angle", "reference"]), of("point", &ENDS), of("direction", &ENDS)];
    for name in used.concat().into_iter().chain(of("circle radius", &ENDS)).chain(of("end radius", &ENDS[..2])) {
        for (value, said) in [
            ("0", "accepted"),
            ("5e-324", "accepted"),
            ("its limit", "accepted"),
            ("the next after its limit", "refused 7"),
            ("infinity", "refused 7"),
        ] {
            ["", "minus "].iter().for_each(|sign| all.push(format!("{name} {sign}{value}, {said}")));
        }
        all.push(format!("{name} NaN, refused 7"));
    }
    let unused = [plain(&["offset", "angle", "reference"]), of("point", &ENDS[2..]), of("direction", &ENDS), of("circle radius", &ENDS)];
    for name in unused.concat().into_iter().chain(of("end radius", &ENDS)) {
        all.push(format!("unused {name} 0, accepted"));
        for value in ["minus 0", "5e-324", "minus 5e-324", "infinity", "minus infinity", "NaN"] {
            all.push(format!("unused {name} {value}, refused 5"));
        }
    }
    for nan in NANS {
        all.push(format!("NaN {nan:016X}, refused 7"));
        all.push(format!("unused NaN {nan:016X}, refused 5"));
    }
    for law in LAWS {
        for name in ["joint", "flag", "offset", "angle", "reference"].map(String::from).into_iter().chain(of("teeth", &ENDS[..2])) {
            let number = match (name.as_str(), law) {
                ("offset", "mate" | "flush" | "insert" | "tangent" | "joint") | ("angle", "angle" | "joint" | "gear") => 7,
                ("reference", "angle") => 7,
                ("teeth of a" | "teeth of b", "gear") => 14,
                _ => 5,
            };
            all.push(format!("spoiled {name} of {law}, refused {number}"));
        }
        for (e, end) in ENDS.iter().enumerate() {
            let used = e < 2 || matches!(law, "symmetry" | "gear");
            let end_radius = if e < 2 && law == "tangent" { 7 } else { 5 };
            for (name, number) in [
                ("primitive", 5),
                ("mirrored", 5),
                ("body", if used { 6 } else { 5 }),
                ("point", if used { 7 } else { 5 }),
                ("end radius", end_radius),
            ] {
                all.push(format!("spoiled {name} of {end} of {law}, refused {number}"));
            }
        }
    }
    (0..16).for_each(|i| all.push(format!("spoiled number {i} of a body")));
    (0..29).for_each(|i| all.push(format!("spoiled number {i} of a relation")));
    (0..7).for_each(|law| all.push(format!("nothing but points, law {law}, accepted")));
    all.push("nothing but points, law 7, refused 14".into());
    [8, 9, 128, 255].iter().for_each(|law| all.push(format!("nothing but points, law {law}, refused 5")));
    let bytes = [("law".to_string(), 7), ("joint".into(), 5), ("flag".into(), 1), ("fixed".into(), 1)];
    let bytes = bytes.into_iter().chain(of("primitive", &ENDS).into_iter().map(|n| (n, 3))).chain(of("mirrored", &ENDS).into_iter().map(|n| (n, 1)));
    for (name, most) in bytes {
        all.push(format!("{name} {most}, accepted"));
        [most + 1, 255].iter().for_each(|value| all.push(format!("{name} {value}, refused 5")));
    }
    let unused = [plain(&["second byte", "joint", "flag"]), of("mirrored", &ENDS), of("primitive", &ENDS[2..])];
    for name in unused.concat().into_iter().chain(of("teeth", &ENDS[..2])).chain(of("body", &ENDS[2..])) {
        all.push(format!("unused {name} 0, accepted"));
        [1, 255].iter().for_each(|value| all.push(format!("unused {name} {value}, refused 5")));
    }
    all.push("unused body of the third end 65535, refused 5".into());
    for name in of("teeth", &ENDS[..2]) {
        [1, 399, 400].iter().for_each(|value| all.push(format!("{name} {value}, accepted")));
        [0, 401, 65535].iter().for_each(|value| all.push(format!("{name} {value}, refused 14")));
    }
    for name in of("body", &ENDS) {
        ["0", "m - 1", "65535"].iter().for_each(|value| all.push(format!("{name} {value}, accepted")));
        ["m", "65534"].iter().for_each(|value| all.push(format!("{name} {value}, refused 6")));
    }
}

/// The library beside the second program: the memory that is lent for sheets, and what was compared.
struct Library {
    memory: Vec<u8>,
    written: Tally,
    ways: Tally,
    nans: Tally,
    again: Tally,
}

/// How much of the memory stands behind the slice that is lent.
const GUARD: usize = 64;
/// What stands in it before a call; no byte of it is 0.
fn before(i: usize) -> u8 {
    (1 + i % 251) as u8
}

impl Library {
    fn new() -> Library {
        let [written, ways] = ["sheet_write", "numbers by reading the sheet and by the table of fields"].map(Tally::new);
        let [nans, again] = ["scenes with a NaN, refused", "sheets taken apart and written again"].map(Tally::new);
        Library { memory: Vec::new(), written, ways, nans, again }
    }

    /// Compares the number, the sheet's bytes, and what must stay as it was.
    fn ask(&mut self, case: &Case) {
        let (scene, room) = (case.scene, case.room);
        let read = by_reading(scene, room);
        self.ways.case(read == case.number, || format!("{read} and {}: {}", case.number, shown(case)));
        self.memory.clear();
        self.memory.extend((0..room + GUARD).map(before));
        let given = port::write(scene.m, scene.k, &scene.bytes, &scene.words, &scene.numbers, &mut self.memory[..room]);
        let want = if case.number == 0 { laid(scene) } else { Vec::new() };
        let rest = self.memory.iter().enumerate().skip(want.len()).all(|(i, byte)| *byte == before(i));
        let same = given == case.number && rest && self.memory[..want.len()] == want;
        self.written.case(same, || format!("{given} for {}: {}", case.number, shown(case)));
        if scene.is_whole() && scene.numbers[..scene.needs()[2]].iter().any(|d| f64::from_bits(*d).is_nan()) {
            self.nans.case(given != 0, || shown(case));
        }
    }

    /// An accepted sheet, taken apart and written to a slice of its length.
    fn again(&mut self, sheet: &[u8]) {
        let scene = apart(sheet);
        let mut written = vec![0xAA; sheet.len()];
        let number = port::write(scene.m, scene.k, &scene.bytes, &scene.words, &scene.numbers, &mut written);
        let name = format!("write-again-{}", self.again.differ);
        self.again.case(number == 0 && written == sheet, || format!("{number}, {}", kept(&name, sheet)));
    }

    fn done(&self) -> bool {
        [&self.written, &self.ways, &self.nans, &self.again].iter().fold(true, |good, tally| tally.done() & good)
    }
}

/// A case in words; where the whole scene is lent, it is kept as it would stand in a sheet.
fn shown(case: &Case) -> String {
    let Scene { m, k, .. } = case.scene;
    let text = format!("m {m}, k {k}, lent {:?} and {}, {}", case.scene.lengths(), case.room, case.kinds.last().unwrap());
    if case.scene.is_whole() { format!("{text}, {}", kept(&text.replace(|c: char| !c.is_alphanumeric(), "-"), &laid(case.scene))) } else { text }
}

/// `sheet_write` of the library against the second program on the cases of a seed, and on the sheets in these files.
pub fn run(seed: u64, n: usize, files: &[&str]) -> bool {
    let (mut library, mut cover, mut examples) = (Library::new(), want(), Tally::new("sheets in files"));
    let mut rng = Rng(seed + 1);
    for i in 0..n {
        library.again(&if i % 3 == 2 { trains::sheet(&mut rng, i / 3) } else { generate::sheet(&mut rng, i - i / 3, 8) }.bytes());
    }
    let mut ask = |case: Case| {
        library.ask(&case);
        case.kinds.iter().for_each(|kind| cover.meet(kind));
    };
    cases(seed, n, &mut ask);
    let mut sheets = Vec::new();
    for file in files {
        let bytes = std::fs::read(file).unwrap_or_else(|e| panic!("{file}: {e}"));
        examples.case(read(&bytes).is_ok() && laid(&apart(&bytes)) == bytes, || file.to_string());
        lengths(&apart(&bytes), &mut ask);
        sheets.push(bytes);
    }
    sheets.iter().for_each(|bytes| library.again(bytes));
    library.done() & examples.done() & cover.done()
}
