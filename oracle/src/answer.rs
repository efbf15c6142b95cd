//! A call, its answer, and both as plain text: one line a thing, doubles as 16 hexadecimal digits.

/// A set of parameters for `solve`, by request 5/14.
#[derive(Clone, Copy, Debug, PartialEq)]
pub struct Set {
    /// The most that an error may be where the flag is 1.
    pub tolerance: f64,
    /// The most rounds of each run.
    pub rounds: u32,
    /// The most rows that are iterated.
    pub row_limit: u32,
    /// What the six weights of a dragged body are multiplied by.
    pub drag_weight: f64,
}

impl Set {
    /// What a call without a set means, by requests 5/14 and 8/14.
    pub const PLAIN: Set = Set { tolerance: 1e-9, rounds: 60, row_limit: 800, drag_weight: 10000.0 };
    /// The same with tenon's own 200 rounds: what `report` names, and every trial and list that is not about the call without a set.
    pub const TWO_HUNDRED: Set = Set { tolerance: 1e-9, rounds: 200, row_limit: 800, drag_weight: 10000.0 };

    /// Whether each parameter is within its range, ends included; a NaN is within none.
    pub fn is_in_range(&self) -> bool {
        let whole = (1..=1000).contains(&self.rounds) && (1..=800).contains(&self.row_limit);
        whole && (1e-12..=1e-3).contains(&self.tolerance) && (1.0..=1e8).contains(&self.drag_weight)
    }
}

/// A call and the lengths of what is lent to it, in doubles.
#[derive(Clone, Copy, Debug, PartialEq)]
pub enum Call {
    Judge { relation: u16 },
    Reading { relation: u16 },
    Snap { relation: u16, motion: usize },
    Solve { drag: u16, set: Option<Set>, scratch: usize, poses: usize, frames: usize, errors: usize },
    Dof { scratch: usize, freedoms: usize },
}

/// The calls' names, by `Call::number`.
pub const NAMES: [&str; 6] = ["judge", "joint_reading", "snap", "solve", "dof", "solve_with"];
/// The numbers of the five that a sheet is asked with where nothing else is said; of the two that solve it is the one that names a set.
pub const FIVE: [usize; 5] = [0, 1, 2, 5, 4];

impl Call {
    pub fn number(self) -> usize {
        match self {
            Call::Judge { .. } => 0,
            Call::Reading { .. } => 1,
            Call::Snap { .. } => 2,
            Call::Solve { set: None, .. } => 3,
            Call::Dof { .. } => 4,
            Call::Solve { set: Some(_), .. } => 5,
        }
    }
    pub fn name(self) -> &'static str {
        NAMES[self.number()]
    }
}

#[derive(Clone, Debug, PartialEq)]
pub enum Answer {
    Judge,
    Reading { offset: f64, angle: f64 },
    Snap { motion: Vec<f64> },
    Solve { poses: Vec<f64>, frames: Vec<f64>, errors: Vec<f64>, converged: bool },
    Dof { freedoms: Vec<f64>, free: u32 },
}

/// A double's bits; all NaNs are one word.
pub fn bits(d: f64) -> u64 {
    if d.is_nan() { 0x7FF8000000000000 } else { d.to_bits() }
}
pub fn hex(d: f64) -> String {
    format!("{:016X}", bits(d))
}

fn line(out: &mut String, head: String, doubles: &[f64]) {
    *out += &head;
    for d in doubles {
        *out += " ";
        *out += &hex(*d);
    }
    *out += "\n";
}

/// The text of an answer: `refused` and its number, or what the call fills in.
pub fn text(call: Call, answer: &Result<Answer, u32>) -> String {
    let name = match call {
        Call::Judge { relation } => format!("judge {relation}"),
        Call::Reading { relation } => format!("joint_reading {relation}"),
        Call::Snap { relation, .. } => format!("snap {relation}"),
        Call::Solve { drag, .. } => format!("solve {drag}"),
        Call::Dof { .. } => "dof".into(),
    };
    let mut out = String::new();
    match answer {
        Err(number) => line(&mut out, format!("{name} refused {number}"), &[]),
        Ok(Answer::Judge) => line(&mut out, format!("{name} accepted"), &[]),
        Ok(Answer::Reading { offset, angle }) => line(&mut out, name, &[*offset, *angle]),
        Ok(Answer::Snap { motion }) => line(&mut out, name, motion),
        Ok(Answer::Solve { poses, frames, errors, converged }) => {
            line(&mut out, format!("{name} converged {}", *converged as u8), &[]);
            for (i, (p, f)) in poses.chunks(12).zip(frames.chunks(12)).enumerate() {
                line(&mut out, format!("pose {i}"), p);
                line(&mut out, format!("frame {i}"), f);
            }
            for (i, e) in errors.iter().enumerate() {
                line(&mut out, format!("error {i}"), &[*e]);
            }
        }
        Ok(Answer::Dof { freedoms, free }) => {
            line(&mut out, format!("{name} free {free}"), &[]);
            for (i, f) in freedoms.chunks(29).enumerate() {
                line(&mut out, format!("freedom {i}"), f);
            }
        }
    }
    out
}

/// The answer as words: refusal number (0: none), the flag or total where there is one, then all doubles.
pub fn words(answer: &Result<Answer, u32>) -> Vec<u64> {
    let doubles = |lists: &[&[f64]]| lists.iter().flat_map(|l| l.iter().copied().map(bits)).collect::<Vec<u64>>();
    match answer {
        Err(number) => vec![*number as u64],
        Ok(Answer::Judge) => vec![0],
        Ok(Answer::Reading { offset, angle }) => [vec![0], doubles(&[&[*offset, *angle]])].concat(),
        Ok(Answer::Snap { motion }) => [vec![0], doubles(&[motion])].concat(),
        Ok(Answer::Solve { poses, frames, errors, converged }) => [vec![0, *converged as u64], doubles(&[poses, frames, errors])].concat(),
        Ok(Answer::Dof { freedoms, free }) => [vec![0, *free as u64], doubles(&[freedoms])].concat(),
    }
}
