//! The sheet: its records, a writer, and a reader with tests 1 to 7 and 14, written from document 01 and request 1/14 alone.

pub const GROUND: u16 = 65535;
/// The most that a double of a direction, frame axis or reference may be in magnitude.
pub const AXIS: f64 = 1.01;
/// The most that any other double may be in magnitude.
pub const SIZE: f64 = 1000.0;
pub const MOST_BODIES: usize = 64;
pub const MOST_RELATIONS: usize = 128;
pub const MOST_TEETH: u16 = 400;

pub const MATE: u8 = 0;
pub const FLUSH: u8 = 1;
pub const ANGLE: u8 = 2;
pub const INSERT: u8 = 3;
pub const TANGENT: u8 = 4;
pub const SYMMETRY: u8 = 5;
pub const JOINT: u8 = 6;
pub const GEAR: u8 = 7;

pub const PLANE: u8 = 0;
pub const LINE: u8 = 1;
pub const POINT: u8 = 2;
pub const CIRCLE: u8 = 3;

#[derive(Clone, Copy, Debug, Default, PartialEq)]
pub struct Body {
    pub fixed: u8,
    /// Origin, x, y, z.
    pub frame: [[f64; 3]; 4],
    pub center: [f64; 3],
    pub size: f64,
}

#[derive(Clone, Copy, Debug, Default, PartialEq)]
pub struct End {
    pub prim: u8,
    pub mirrored: u8,
    pub body: u16,
    pub point: [f64; 3],
    pub direction: [f64; 3],
    pub circle_radius: f64,
    pub radius: f64,
}

#[derive(Clone, Copy, Debug, Default, PartialEq)]
pub struct Relation {
    pub law: u8,
    pub joint: u8,
    pub flag: u8,
    /// Of wheel a and wheel b.
    pub teeth: [u16; 2],
    pub offset: f64,
    pub angle: f64,
    pub reference: [f64; 3],
    /// a, b and symmetry's plane or a gear's carrier.
    pub ends: [End; 3],
}

#[derive(Clone, Debug, Default, PartialEq)]
pub struct Sheet {
    pub bodies: Vec<Body>,
    pub relations: Vec<Relation>,
}

impl Body {
    pub fn write(&self, out: &mut Vec<u8>) {
        out.extend([self.fixed, 0, 0, 0, 0, 0, 0, 0]);
        put(out, self.frame.as_flattened());
        put(out, &self.center);
        put(out, &[self.size]);
    }
}

impl End {
    fn write(&self, out: &mut Vec<u8>) {
        out.extend([self.prim, self.mirrored]);
        out.extend(self.body.to_le_bytes());
        out.extend([0; 4]);
        put(out, &self.point);
        put(out, &self.direction);
        put(out, &[self.circle_radius, self.radius]);
    }
}

impl Relation {
    pub fn write(&self, out: &mut Vec<u8>) {
        out.extend([self.law, self.joint, self.flag, 0]);
        self.teeth.iter().for_each(|teeth| out.extend(teeth.to_le_bytes()));
        put(out, &[self.offset, self.angle]);
        put(out, &self.reference);
        for end in &self.ends {
            end.write(out);
        }
    }

    /// The ends that its law uses.
    pub fn used_ends(&self) -> &[End] {
        &self.ends[..if Uses::of(self.law).third_end { 3 } else { 2 }]
    }

    /// The same relation with every field that has no use set to 0.
    pub fn cleared(mut self) -> Relation {
        let uses = Uses::of(self.law);
        if !uses.offset {
            self.offset = 0.0;
        }
        if !uses.angle {
            self.angle = 0.0;
        }
        if !uses.reference {
            self.reference = [0.0; 3];
        }
        if !uses.flag {
            self.flag = 0;
        }
        if !uses.joint {
            self.joint = 0;
        }
        if !uses.teeth {
            self.teeth = [0; 2];
        }
        for (i, end) in self.ends.iter_mut().enumerate() {
            if i == 2 && !uses.third_end {
                *end = End::default();
                continue;
            }
            if !uses.mirrored {
                end.mirrored = 0;
            }
            if !uses.radius {
                end.radius = 0.0;
            }
            if end.prim == POINT {
                end.direction = [0.0; 3];
            }
            if end.prim != CIRCLE {
                end.circle_radius = 0.0;
            }
        }
        self
    }
}

impl Sheet {
    pub fn has_gear(&self) -> bool {
        self.relations.iter().any(|r| r.law == GEAR)
    }
    pub fn bytes(&self) -> Vec<u8> {
        let (m, k) = (self.bodies.len() as u16, self.relations.len() as u16);
        let mut out = Vec::new();
        for half in [1, m, k, 0] {
            out.extend(half.to_le_bytes());
        }
        for word in [24, body_end(m), length(m, k), 0] {
            out.extend(word.to_le_bytes());
        }
        self.bodies.iter().for_each(|b| b.write(&mut out));
        self.relations.iter().for_each(|r| r.write(&mut out));
        out
    }
}

fn put(out: &mut Vec<u8>, doubles: &[f64]) {
    doubles.iter().for_each(|d| out.extend(d.to_bits().to_le_bytes()));
}
fn body_end(m: u16) -> u32 {
    24 + 136 * m as u32
}
fn length(m: u16, k: u16) -> u32 {
    body_end(m) + 264 * k as u32
}

/// Which fields a law uses.
struct Uses {
    offset: bool,
    angle: bool,
    reference: bool,
    flag: bool,
    joint: bool,
    mirrored: bool,
    teeth: bool,
    radius: bool,
    third_end: bool,
}

impl Uses {
    fn of(law: u8) -> Uses {
        Uses {
            offset: matches!(law, MATE | FLUSH | INSERT | TANGENT | JOINT),
            angle: matches!(law, ANGLE | JOINT | GEAR),
            reference: law == ANGLE,
            flag: matches!(law, INSERT | TANGENT | JOINT),
            joint: law == JOINT,
            mirrored: matches!(law, JOINT | GEAR),
            teeth: law == GEAR,
            radius: law == TANGENT,
            third_end: matches!(law, SYMMETRY | GEAR),
        }
    }
}

/// A record's bytes, taken one field after the other. `bad` tells of a byte outside its values or an
/// unused field that is not 0 (test 5), `over` of a double that is NaN or over its limit (test 7).
struct Fields<'a> {
    bytes: &'a [u8],
    bad: bool,
    over: bool,
}

impl<'a> Fields<'a> {
    fn take(&mut self, n: usize) -> &'a [u8] {
        let (head, rest) = self.bytes.split_at(n);
        self.bytes = rest;
        head
    }
    fn zeros(&mut self, n: usize) {
        self.bad |= self.take(n).iter().any(|b| *b != 0);
    }
    /// A byte of the values 0 to `most`; one without use is 0.
    fn byte(&mut self, used: bool, most: u8) -> u8 {
        let b = self.take(1)[0];
        self.bad |= b > if used { most } else { 0 };
        b
    }
    fn half(&mut self) -> u16 {
        u16::from_le_bytes(self.take(2).try_into().unwrap())
    }
    fn half_if(&mut self, used: bool) -> u16 {
        let h = self.half();
        self.bad |= !used && h != 0;
        h
    }
    fn double(&mut self, used: bool, limit: f64) -> f64 {
        let bits = u64::from_le_bytes(self.take(8).try_into().unwrap());
        let d = f64::from_bits(bits);
        if used {
            self.over |= d.is_nan() || d.abs() > limit;
        } else {
            self.bad |= bits != 0;
        }
        d
    }
    fn three(&mut self, used: bool, limit: f64) -> [f64; 3] {
        [(); 3].map(|()| self.double(used, limit))
    }

    fn body(&mut self) -> Body {
        let fixed = self.byte(true, 1);
        self.zeros(7);
        let origin = self.three(true, SIZE);
        let [x, y, z] = [(); 3].map(|()| self.three(true, AXIS));
        Body { fixed, frame: [origin, x, y, z], center: self.three(true, SIZE), size: self.double(true, SIZE) }
    }

    fn end(&mut self, law: &Uses, used: bool) -> End {
        if !used {
            self.zeros(72);
            return End::default();
        }
        let prim = self.byte(true, 3);
        let mirrored = self.byte(law.mirrored, 1);
        let body = self.half();
        self.zeros(4);
        End {
            prim,
            mirrored,
            body,
            point: self.three(true, SIZE),
            direction: self.three(prim != POINT, AXIS),
            circle_radius: self.double(prim == CIRCLE, SIZE),
            radius: self.double(law.radius, SIZE),
        }
    }

    fn relation(&mut self) -> Relation {
        let law = self.byte(true, 7);
        let uses = Uses::of(law);
        let joint = self.byte(uses.joint, 5);
        let flag = self.byte(uses.flag, 1);
        self.zeros(1);
        let teeth = [(); 2].map(|()| self.half_if(uses.teeth));
        Relation {
            law,
            joint,
            flag,
            teeth,
            offset: self.double(uses.offset, SIZE),
            angle: self.double(uses.angle, SIZE),
            reference: self.three(uses.reference, AXIS),
            ends: [self.end(&uses, true), self.end(&uses, true), self.end(&uses, uses.third_end)],
        }
    }
}

/// The sheet in `bytes`, or the number of the first of the tests 1 to 7 and 14 that refuses it.
pub fn read(bytes: &[u8]) -> Result<Sheet, u32> {
    if bytes.len() < 24 {
        return Err(1);
    }
    let half = |at: usize| u16::from_le_bytes([bytes[at], bytes[at + 1]]);
    let word = |at: usize| u32::from_le_bytes(bytes[at..at + 4].try_into().unwrap());
    let (m, k) = (half(2), half(4));
    if half(0) != 1 || half(6) != 0 || word(20) != 0 {
        return Err(2);
    }
    if m as usize > MOST_BODIES || k as usize > MOST_RELATIONS {
        return Err(3);
    }
    if word(8) != 24 || word(12) != body_end(m) || word(16) != length(m, k) || bytes.len() != length(m, k) as usize {
        return Err(4);
    }
    let mut sheet = Sheet::default();
    let (bodies, relations) = bytes[24..].split_at(136 * m as usize);
    for record in bodies.chunks(136) {
        let mut fields = Fields { bytes: record, bad: false, over: false };
        sheet.bodies.push(fields.body());
        fields.judge(false, false)?;
    }
    for record in relations.chunks(264) {
        let mut fields = Fields { bytes: record, bad: false, over: false };
        let relation = fields.relation();
        let no_wheel = relation.law == GEAR && relation.teeth.iter().any(|teeth| *teeth == 0 || *teeth > MOST_TEETH);
        fields.judge(no_wheel, relation.used_ends().iter().any(|e| e.body != GROUND && e.body >= m))?;
        sheet.relations.push(relation);
    }
    Ok(sheet)
}

impl Fields<'_> {
    /// Tests 5, 14, 6, 7 of one record.
    fn judge(&self, no_wheel: bool, no_body: bool) -> Result<(), u32> {
        let tests = [(self.bad, 5), (no_wheel, 14), (no_body, 6), (self.over, 7)];
        tests.iter().find(|(fails, _)| *fails).map_or(Ok(()), |(_, number)| Err(*number))
    }
}
