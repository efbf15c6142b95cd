// Solving by rounds as request 6/14 has it, over tenon's own rounds: included after calls.rs over `tenon`, `tenon_max` and `tenon_gear`.
// The rows, the weights, a round, the retry's slight turn, the choice between the two runs and the answer are functions of tenon (adapt.py);
// when a run begins, when it ends and what is kept of it are written from the request.

use crate::running::{FINISHED, FIRST, Held, MOST_ITERATED, MOST_PORTION, Portion, RETRY, Told};
use tenon::lm;

/// Tests 8, 15, 16, 10 and 9 of a call, in this order.
fn portion_refusal(scene: &Scene, call: &Portion) -> Result<(), u32> {
    let (m, k, n, rows) = (scene.bodies.len(), scene.rels.len(), scene.unknowns(), scene.rows());
    test(call.drag == sheet::GROUND || (call.drag as usize) < m, 8)?;
    test(call.set.is_in_range(), 15)?;
    test((1..=MOST_PORTION).contains(&call.portion), 16)?;
    test(call.counts.is_none_or(|counts| counts.map(|count| count as usize) == [n, rows]), 16)?;
    test(call.state > 2 * n + rows && call.poses >= 12 * m && call.frames >= 12 * m && call.errors >= k, 10)?;
    test(call.scratch >= scene.solve_scratch(), 9)
}

/// A state under way, and what a call goes by.
struct Running<'a> {
    scene: &'a Scene,
    index: Vec<Option<usize>>,
    /// The unknowns that may change: all.
    free: Vec<usize>,
    set: Set,
    inverse_weights: Vec<f64>,
    damping: f64,
    x: Vec<f64>,
    first: Vec<f64>,
    rows: Vec<f64>,
    done: u32,
    run: u8,
    rounds: [u32; 2],
    events: Vec<String>,
}

impl<'a> Running<'a> {
    /// All unknowns 0, before any run.
    fn new(scene: &'a Scene, call: &Portion) -> Running<'a> {
        let (index, n) = (solve::layout(&scene.bodies, &scene.rels), scene.unknowns());
        let drag = (call.drag != sheet::GROUND).then_some(call.drag as usize);
        let free: Vec<usize> = (0..n).collect();
        let weights = solve::weights(&scene.bodies, &index, n, drag, parameters(call.set));
        let inverse_weights = lm::inverse_weights(&free, &weights);
        let (x, first) = (vec![0.0; n], vec![0.0; n]);
        let (set, rounds, events) = (call.set, [0; 2], Vec::new());
        Running { scene, index, free, set, inverse_weights, damping: 0.0, x, first, rows: Vec::new(), done: 0, run: 0, rounds, events }
    }
    /// What a caller holds of a state.
    fn held(scene: &'a Scene, call: &Portion, held: &Held) -> Running<'a> {
        let (n, rows) = (scene.unknowns(), scene.rows());
        let mut all = held.state[..1 + 2 * n + rows].iter().copied();
        let mut next = |count: usize| all.by_ref().take(count).collect::<Vec<f64>>();
        let (damping, x, first, rows) = (next(1)[0], next(n), next(n), next(rows));
        // Any other byte counts as finished.
        let run = if held.is_running() { held.run } else { FINISHED };
        Running { damping, x, first, rows, done: held.done, run, ..Running::new(scene, call) }
    }

    fn rows_at(&self, x: &[f64], out: &mut Vec<f64>) {
        solve::residuals(&self.scene.rels, &solve::poses_at(x, &self.scene.bodies, &self.index), out);
    }
    fn work_rows(&mut self) {
        let mut rows = Vec::new();
        self.rows_at(&self.x, &mut rows);
        self.rows = rows;
    }
    fn is_within(&self) -> bool {
        lm::max_abs(&self.rows) <= self.set.tolerance
    }
    fn is_running(&self) -> bool {
        matches!(self.run, FIRST | RETRY)
    }
    fn event(&mut self, what: &str) {
        self.events.push(format!("run {} {what}", self.run));
    }

    /// A run begins at the unknowns that stand there. The row limit counts here alone.
    fn start(&mut self, run: u8) {
        (self.run, self.done, self.damping) = (run, 0, lm::DAMPING);
        self.work_rows();
        let over = self.rows.len() > self.set.row_limit as usize;
        if self.is_within() {
            self.event(if over { "begins within the tolerance, over the row limit" } else { "begins within the tolerance" });
            self.end(true);
        } else if self.free.is_empty() {
            self.event("begins where nothing may move");
            self.end(false);
        } else if over {
            self.event("begins over the row limit");
            self.end(false);
        } else {
            self.event("begins");
        }
    }

    /// A run has ended. The retry begins where the first run did not converge and something may move; of the two ends tenon's choice is kept.
    fn end(&mut self, converged: bool) {
        if self.run == FIRST {
            if converged || self.free.is_empty() {
                self.run = FINISHED;
                return;
            }
            self.first = self.x.clone();
            self.x = solve::slight_turn(vec![0.0; self.free.len()]);
            self.start(RETRY);
            return;
        }
        let retry = lm::Outcome { x: self.x.clone(), converged };
        let first = lm::Outcome { x: self.first.clone(), converged: false };
        let kept = solve::is_kept(&|x: &[f64], out: &mut Vec<f64>| self.rows_at(x, out), &retry, &first);
        self.event(match (kept, converged) {
            (true, true) => "is kept, converged",
            (true, false) => "is kept, nearer",
            _ => "is not kept",
        });
        if !kept {
            self.x = first.x;
        }
        self.work_rows();
        self.run = FINISHED;
    }

    /// A run is judged before the first round of a call that goes on.
    fn judge(&mut self) {
        if !self.is_running() {
            self.events.push("finished stays".into());
            return;
        }
        let (within, over) = (self.is_within(), self.rows.len() > MOST_ITERATED);
        self.event(match (within, self.done.cmp(&self.set.rounds)) {
            (true, std::cmp::Ordering::Less) => "is judged within the tolerance",
            (true, _) => "is judged within the tolerance, its rounds done",
            _ if over => "is judged over 800 rows",
            (_, std::cmp::Ordering::Less) => "goes on",
            (_, std::cmp::Ordering::Equal) => "is judged with its rounds done",
            _ => "is judged with more than its rounds done",
        });
        if within || over || self.done >= self.set.rounds {
            self.end(within);
        }
    }

    fn round(&mut self) {
        let (x, rows) = (std::mem::take(&mut self.x), std::mem::take(&mut self.rows));
        let cost = lm::norm2(&rows);
        let f = |x: &[f64], out: &mut Vec<f64>| self.rows_at(x, out);
        let (x, rows, _, damping, improved) = lm::round(&f, &self.free, &self.inverse_weights, x, rows, cost, self.damping);
        (self.x, self.rows, self.damping) = (x, rows, damping);
        self.done += 1;
        self.rounds[self.run as usize - 1] += 1;
        let last = self.done >= self.set.rounds;
        if self.is_within() {
            self.event(if last { "ends within the tolerance by its last round" } else { "ends within the tolerance" });
            self.end(true);
        } else if !improved {
            self.event("ends in vain");
            self.end(false);
        } else if last {
            self.event("ends by its last round");
            self.end(false);
        }
    }
    fn go(&mut self, portion: u32) {
        let mut left = portion;
        while left > 0 && self.is_running() {
            self.round();
            left -= 1;
        }
        if self.is_running() {
            self.event(if self.done == 0 { "has begun as the portion ends" } else { "is under way as the portion ends" });
        } else if self.rounds != [0; 2] {
            self.events.push(if left == 0 { "finished by the portion's last round" } else { "finished before the portion ends" }.into());
        }
    }

    fn told(self) -> Told {
        let at = lm::Outcome { x: self.x.clone(), converged: false };
        let mut solution = solve::solution(&self.scene.bodies, &self.scene.rels, &self.index, at);
        solution.converged = solution.errors.iter().all(|e| *e <= self.set.tolerance);
        Told {
            counts: [self.x.len() as u32, self.rows.len() as u32],
            done: self.done,
            run: self.run,
            state: [vec![self.damping], self.x, self.first, self.rows].concat(),
            answer: filled_in(solution),
            rounds: self.rounds,
            events: self.events,
        }
    }
}

/// The rows where all unknowns are 0.
pub fn start_rows(sheet: &Sheet) -> Vec<f64> {
    let scene = Scene::of(sheet);
    let (index, n, mut rows) = (solve::layout(&scene.bodies, &scene.rels), scene.unknowns(), Vec::new());
    solve::residuals(&scene.rels, &solve::poses_at(&vec![0.0; n], &scene.bodies, &index), &mut rows);
    rows
}

/// What a call makes of what its caller holds, or the number it is refused with.
pub fn by_rounds(bytes: &[u8], call: &Portion, held: &Held) -> Result<Told, u32> {
    let scene = Scene::of(&sheet::read(bytes)?);
    portion_refusal(&scene, call)?;
    let mut running = if call.counts.is_some() {
        let mut running = Running::held(&scene, call, held);
        running.judge();
        running
    } else {
        let mut running = Running::new(&scene, call);
        running.start(FIRST);
        running
    };
    running.go(call.portion);
    Ok(running.told())
}
