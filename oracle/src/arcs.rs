//! Root, sine, cosine and arctangent of the static library that `tools/build.sh arcs` writes, which the oracle calls.
//! Module `rule` is a reading of document 01's rule and of request 3/14, written from documents 01 and 02; it shares nothing with the port, and the library is compared with it.

pub mod rule {
    /// 2π, π, π/2 and π/4, by bits.
    pub const T: f64 = f64::from_bits(0x401921FB54442D18);
    pub const P: f64 = f64::from_bits(0x400921FB54442D18);
    pub const H: f64 = f64::from_bits(0x3FF921FB54442D18);
    pub const E: f64 = f64::from_bits(0x3FE921FB54442D18);
    /// 2π cut to its first 33 significant bits, and the double nearest the rest, by bits.
    pub const T1: f64 = f64::from_bits(0x401921FB54400000);
    pub const T2: f64 = f64::from_bits(0x3DF0B4611A626331);
    /// The double nearest √2 − 1.
    pub const TURN: f64 = f64::from_bits(0x3FDA827999FCEF32);

    /// E, 3E, 5E, 7E, each rounded once.
    pub fn bounds() -> [f64; 4] {
        [E, 3.0 * E, 5.0 * E, 7.0 * E]
    }

    /// Horner's rule from the top: the last coefficient first.
    fn horner(coefficients: &[f64], z: f64) -> f64 {
        let (last, rest) = coefficients.split_last().unwrap();
        rest.iter().rev().fold(*last, |value, c| value * z + c)
    }

    /// The nine coefficients nearest ±1/j!, j = first, first + 2, .. (j! is a double for j up to 17).
    fn factorials(first: u32) -> Vec<f64> {
        (0..9).map(|i| (i, first + 2 * i)).map(|(i, j)| sign(i) / (1..=j as u64).product::<u64>() as f64).collect()
    }

    /// The twenty coefficients nearest ±1/j, j = 1, 3 to 39.
    fn odds() -> Vec<f64> {
        (0..20).map(|i| sign(i) / (2 * i + 1) as f64).collect()
    }

    fn sign(i: u32) -> f64 {
        if i % 2 == 0 { 1.0 } else { -1.0 }
    }

    /// Where request 3/14 holds: t over 64 and up to 2^20.
    pub fn far(t: f64) -> bool {
        64.0 < t && t <= 1048576.0
    }

    /// d·2^84: a whole number for T1, for T2 and for a double from 64 to 2^20.
    fn whole(d: f64) -> u128 {
        (d * (1u128 << 84) as f64) as u128
    }

    /// (T1 + T2)·2^84.
    pub fn turn() -> u128 {
        whole(T1) + whole(T2)
    }

    /// k, the greatest whole number with k·(T1 + T2) not above t.
    pub fn turns(t: f64) -> u128 {
        whole(t) / turn()
    }

    fn reduced(t: f64) -> f64 {
        if !far(t) {
            return t % T;
        }
        let k = turns(t) as f64;
        (t - k * T1) - k * T2
    }

    /// Sine and cosine of t.
    pub fn pair(t: f64) -> (f64, f64) {
        if !t.is_finite() || t < 0.0 {
            return (f64::NAN, f64::NAN);
        }
        let a = reduced(t);
        let q = bounds().iter().filter(|bound| **bound < a).count();
        let b = a - q as f64 * H;
        let z = b * b;
        thread_local!(static C: (Vec<f64>, Vec<f64>) = (factorials(1), factorials(0)));
        let (s, c) = C.with(|(odd, even)| (b * horner(odd, z), horner(even, z)));
        match q {
            1 => (c, -s),
            2 => (-s, -c),
            3 => (-c, s),
            _ => (s, c),
        }
    }

    pub fn sine(t: f64) -> f64 {
        pair(t).0
    }
    pub fn cosine(t: f64) -> f64 {
        pair(t).1
    }

    pub fn arctangent(y: f64, x: f64) -> f64 {
        if !y.is_finite() || !x.is_finite() {
            return f64::NAN;
        }
        let (small, large) = if y.abs() > x.abs() { (x.abs(), y.abs()) } else { (y.abs(), x.abs()) };
        let u = if large == 0.0 { 0.0 } else { small / large };
        thread_local!(static C: Vec<f64> = odds());
        let series = |v: f64| C.with(|odd| v * horner(odd, v * v));
        let mut r = if u > TURN { E + series((u - 1.0) / (u + 1.0)) } else { series(u) };
        if y.abs() > x.abs() {
            r = H - r;
        }
        if x.is_sign_negative() {
            r = P - r;
        }
        if y.is_sign_negative() { -r } else { r }
    }
}

mod c {
    unsafe extern "C" {
        pub fn root(x: f64) -> f64;
        pub fn sine(t: f64) -> f64;
        pub fn cosine(t: f64) -> f64;
        pub fn arctangent(y: f64, x: f64) -> f64;
    }
}
// Plain functions of doubles, with no memory behind them.
pub fn root(x: f64) -> f64 {
    unsafe { c::root(x) }
}
pub fn sine(t: f64) -> f64 {
    unsafe { c::sine(t) }
}
pub fn cosine(t: f64) -> f64 {
    unsafe { c::cosine(t) }
}
pub fn arctangent(y: f64, x: f64) -> f64 {
    unsafe { c::arctangent(y, x) }
}
