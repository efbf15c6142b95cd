//! The row of a gear, law 7: the second program, which stands opposite the port's. Written from request 1/14 and document 01 over plain
//! arrays of doubles. It shares nothing with the port: its arctangent is module `rule` of arcs.rs, its root the hardware's.

use arcs::rule::{P, T, arctangent};

pub type Three = [f64; 3];
/// Nine entries by row.
pub type Turning = [Three; 3];

pub const IDENTITY: Turning = [[1.0, 0.0, 0.0], [0.0, 1.0, 0.0], [0.0, 0.0, 1.0]];

/// An end in its part's coordinates. A point has no direction.
#[derive(Clone, Copy, Debug)]
pub struct End {
    pub point: Three,
    pub direction: Option<Three>,
    pub mirrored: bool,
}

#[derive(Clone, Copy, Debug)]
pub struct Gear {
    /// Of a and of b.
    pub teeth: [u16; 2],
    pub angle: f64,
    /// a, b and the carrier.
    pub ends: [End; 3],
}

/// A gear's row and what it is formed from.
#[derive(Clone, Copy, Debug)]
pub struct Worked {
    /// Whether a frame could be built of each end; else it has the world's.
    pub framed: [bool; 3],
    /// The arctangent's arguments (y, x) of each wheel.
    pub slopes: [[f64; 2]; 2],
    /// What is wrapped.
    pub difference: f64,
    pub row: f64,
}

fn dot(a: Three, b: Three) -> f64 {
    a[0] * b[0] + a[1] * b[1] + a[2] * b[2]
}
fn cross(a: Three, b: Three) -> Three {
    [a[1] * b[2] - a[2] * b[1], a[2] * b[0] - a[0] * b[2], a[0] * b[1] - a[1] * b[0]]
}
fn length(v: Three) -> f64 {
    dot(v, v).sqrt()
}
fn times(v: Three, s: f64) -> Three {
    v.map(|part| part * s)
}
fn less(a: Three, b: Three) -> Three {
    [a[0] - b[0], a[1] - b[1], a[2] - b[2]]
}
/// Zero unless the length is above `EPS`, 1e-9.
fn unit(v: Three) -> Three {
    let l = length(v);
    if l > 1e-9 { times(v, 1.0 / l) } else { [0.0; 3] }
}
fn finite(v: Three) -> bool {
    v.iter().all(|part| part.is_finite())
}
fn turned(r: &Turning, v: Three) -> Three {
    r.map(|row| dot(row, v))
}

/// X and Y of the frame at a point with this z: X is the world's X, or Y where z is near X, made square to z.
fn frame(point: Three, z: Three) -> Option<(Three, Three)> {
    let hint = if unit(z)[0].abs() > 0.9 { IDENTITY[1] } else { IDENTITY[0] };
    if !finite(point) || !finite(z) || length(z) <= 1e-7 {
        return None;
    }
    let z = unit(z);
    let x = less(hint, times(z, dot(hint, z)));
    if length(x) <= 1e-7 {
        return None;
    }
    let x = unit(x);
    Some((x, cross(z, x)))
}

impl End {
    /// X and Y of its joint frame, in its part's coordinates. A point takes the part's z, or its opposite where it is mirrored.
    fn joint_frame(&self) -> Option<(Three, Three)> {
        let z = if self.mirrored { [-0.0, -0.0, -1.0] } else { [0.0, 0.0, 1.0] };
        frame(self.point, self.direction.unwrap_or(z))
    }
}

/// Into (−π, π]. The remainder is % and, if negative, one addition.
pub fn wrap(a: f64) -> f64 {
    let r = (a + P) % T;
    let w = if r < 0.0 { r + T } else { r } - P;
    if w <= -P { w + T } else { w }
}

impl Gear {
    /// The row with the bodies of a, b and the carrier turned so.
    pub fn worked(&self, turnings: &[Turning; 3]) -> Worked {
        let frames = self.ends.map(|end| end.joint_frame());
        let axes = |i: usize| {
            let (x, y) = frames[i].unwrap_or((IDENTITY[0], IDENTITY[1]));
            (turned(&turnings[i], x), turned(&turnings[i], y))
        };
        let (carrier_x, carrier_y) = axes(2);
        let slopes = [0, 1].map(|wheel| {
            let (x, _) = axes(wheel);
            [dot(x, carrier_y), dot(x, carrier_x)]
        });
        let [theta_a, theta_b] = slopes.map(|[y, x]| arctangent(y, x));
        let [teeth_a, teeth_b] = self.teeth.map(f64::from);
        let difference = (teeth_a * theta_a + teeth_b * theta_b) - self.angle;
        Worked { framed: frames.map(|f| f.is_some()), slopes, difference, row: wrap(difference) }
    }
    pub fn row(&self, turnings: &[Turning; 3]) -> f64 {
        self.worked(turnings).row
    }
}
