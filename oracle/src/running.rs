//! Solving by rounds, request 6/14: a call that begins or goes on, what its caller holds, and what the call makes of it.

use crate::answer::{Answer, Set, bits, words};

/// The most rounds that a call may be asked for.
pub const MOST_PORTION: u32 = 1000;
/// The most rows that any set iterates.
pub const MOST_ITERATED: usize = 800;
/// Which run, as the caller holds it.
pub const FIRST: u8 = 1;
pub const RETRY: u8 = 2;
pub const FINISHED: u8 = 3;

/// A call, and the lengths in doubles of what is lent to it.
#[derive(Clone, Copy, Debug, PartialEq)]
pub struct Portion {
    /// The unknown and row counts that are handed over for going on. A call that begins has none.
    pub counts: Option<[u32; 2]>,
    pub drag: u16,
    pub set: Set,
    /// The most rounds that the call makes.
    pub portion: u32,
    pub state: usize,
    pub scratch: usize,
    pub poses: usize,
    pub frames: usize,
    pub errors: usize,
}

impl Portion {
    pub fn name(&self) -> &'static str {
        if self.counts.is_some() { "on" } else { "begin" }
    }
}

/// What the caller holds between calls. The state's memory may be longer than what a call is lent of it.
#[derive(Clone, Debug)]
pub struct Held {
    pub done: u32,
    pub run: u8,
    pub state: Vec<f64>,
}

impl Held {
    pub fn same(&self, other: &Held) -> bool {
        let all = |held: &Held| held.state.iter().map(|d| bits(*d)).collect::<Vec<_>>();
        (self.done, self.run) == (other.done, other.run) && all(self) == all(other)
    }
    pub fn is_running(&self) -> bool {
        matches!(self.run, FIRST | RETRY)
    }
}

/// What an accepted call leaves.
#[derive(Clone, Debug)]
pub struct Told {
    pub counts: [u32; 2],
    pub done: u32,
    pub run: u8,
    /// Damping, unknowns, those of the first run, rows.
    pub state: Vec<f64>,
    /// That of `solve`.
    pub answer: Answer,
    /// The rounds that the call made in the first run and in the retry.
    pub rounds: [u32; 2],
    /// What became of each run in it, in order.
    pub events: Vec<String>,
}

impl Told {
    pub fn held(&self) -> Held {
        Held { done: self.done, run: self.run, state: self.state.clone() }
    }
    pub fn flag(&self) -> bool {
        matches!(self.answer, Answer::Solve { converged: true, .. })
    }
    pub fn answers(&self, other: &Answer) -> bool {
        words(&Ok(self.answer.clone())) == words(&Ok(other.clone()))
    }
    /// All that is left, but for what became of the runs.
    pub fn same(&self, other: &Told) -> bool {
        self.counts == other.counts && self.held().same(&other.held()) && self.answers(&other.answer)
    }
}

/// The parts of a state of n unknowns: damping, unknowns, those of the first run, rows.
pub const PARTS: [&str; 4] = ["the damping", "the unknowns", "the first run's unknowns", "the rows"];
pub fn part(n: usize, part: usize, len: usize) -> std::ops::Range<usize> {
    [0..1, 1..1 + n, 1 + n..1 + 2 * n, 1 + 2 * n..len][part].clone()
}
