"""Writes the three Rust crates that the oracle is built from, out of the unchanged tenon sources.

    python3 adapt.py TENON_SRC OUT

OUT/tenon is tenon's solver, OUT/tenon_max the same with `max` as document 01 has it (the larger zero
is +0), which tells whether that difference ever shows, OUT/tenon_gear the second with law 7, a gear,
whose row is that of src/gear.rs. In all three the tolerance, the rounds, the row limit and the drag weight
of `solve` are variables, which are the copy's constants until a caller sets them. These are tenon's, but for
the rounds: the copies are built for 60, as document 02, 8/14, has a call that chooses nothing, where tenon has
200. Parts of the two functions `solve` are functions of their own, which `solve` calls where they stood: so
one round can be made from any state. Nothing of the copies is kept in the repository.

Every change is a textual substitution with the number of places it must meet. Where a source is not
as expected, the build stops here and says which substitution failed.
"""
import pathlib
import re
import sys

SERDE_USE = "use serde::{Deserialize, Serialize};\n"
SERDE_DERIVE = ", Serialize, Deserialize)]"

# file -> [(old, new, places)]; `cut` below handles the parts of files that are left out.
CHANGES = {
    "geom/src/vec.rs": [(SERDE_USE, "", 1), (SERDE_DERIVE, ")]", 2)],
    "geom/src/space.rs": [
        (SERDE_USE, "", 1),
        (SERDE_DERIVE, ")]", 3),
        # A frame is read from a sheet as it stands, squared or not.
        ("    origin: Vec3,\n    x: Vec3,\n    y: Vec3,\n    z: Vec3,\n}",
         "    pub origin: Vec3,\n    pub x: Vec3,\n    pub y: Vec3,\n    pub z: Vec3,\n}", 1),
    ],
    "geom/src/tol.rs": [],
    "sketch/src/lm.rs": [
        ("\nfn norm2", "\npub fn norm2", 1),
        ("\nfn solve_dense", "\npub fn solve_dense", 1),
        ("rows > MAX_ROWS", "rows > crate::parameters().row_limit", 1),
        # The damping that a run begins with.
        ("let mut mu = 1e-10;", "let mut mu = DAMPING;", 1),
        ("\npub const MAX_ROWS", "\npub const DAMPING: f64 = 1e-10;\npub const MAX_ROWS", 1),
        # What PARTS leaves without a use.
        ("    let nf = free.len();\n    let winv", "    let winv", 1),
        ("    let mut rn = Vec::with_capacity(rows);\n    while", "    while", 1),
    ],
    "assembly/src/math.rs": [
        ("t.sin_cos()", "(arcs::sine(t), arcs::cosine(t))", 1),
        ("c.len().atan2(d)", "arcs::arctangent(c.len(), d)", 1),
    ],
    "assembly/src/geometry.rs": [
        ("use tenon_kernel::{CurveKind, SurfaceKind};\n", "", 1),
        ("use tenon_model::{EdgeFingerprint, Fingerprint, Scene, WorkGeom};\n", "", 1),
        ("use tenon_geom::{Frame, Vec3, tol};", "use tenon_geom::{Frame, Vec3};", 1),
        ("use crate::model::Geom;\n", "", 1),
    ],
    "assembly/src/solve.rs": [
        ("xa.cross(xb).dot(axis).atan2(xa.dot(xb))", "arcs::arctangent(xa.cross(xb).dot(axis), xa.dot(xb))", 1),
        ("#[derive(Clone, Copy, Debug)]\nstruct Pose {\n    r: M3,\n    t: Vec3,",
         "#[derive(Clone, Copy, Debug, PartialEq)]\npub struct Pose {\n    pub r: M3,\n    pub t: Vec3,", 1),
        ("    fn of(f: &Frame)", "    pub fn of(f: &Frame)", 1),
        ("\nfn tangent_gap", "\npub fn tangent_gap", 1),
        ("\nfn wrap", "\npub fn wrap", 1),
        ("\nfn turn", "\npub fn turn", 1),
        ("\nfn residual(", "\npub fn residual(", 1),
        ("\nfn residuals(", "\npub fn residuals(", 1),
        ("\nfn layout(", "\npub fn layout(", 1),
        ("\nfn half_size(", "\npub fn half_size(", 1),
        ("\nfn poses_at(", "\npub fn poses_at(", 1),
        # The poses are handed out beside the frames.
        ("pub struct Solution {\n", "pub struct Solution {\n    pub poses: Vec<Pose>,\n", 1),
        ("Solution { frames, converged: outcome.converged, errors: rel_errors(rels, &poses) }",
         "let errors = rel_errors(rels, &poses);\n    Solution { poses, frames, converged: outcome.converged, errors }", 1),
        # The constants stay but for the rounds, and a run goes by them until a caller sets others; their uses become those of the run's parameters.
        ("\nconst MAX_ITER: usize = 200;", "\npub const MAX_ITER: usize = 60;", 1),
        ("\nconst DRAG_WEIGHT", "\npub const DRAG_WEIGHT", 1),
        ("drag: Option<usize>) -> Solution {\n", "drag: Option<usize>) -> Solution {\n    let set = crate::begin(0);\n", 1),
        ("{ DRAG_WEIGHT }", "{ set.drag_weight }", 1),
        ("        let retry = lm::solve(", "        let set = crate::begin(1);\n        let retry = lm::solve(", 1),
        ("tol::ASSEMBLY, MAX_ITER", "set.tolerance, set.rounds", 2),
        ("    let mut x0 = vec!", "    let x0 = vec!", 1),
    ],
}

# Parts of a function that become functions: file, where the part begins and before what it ends (each found once), the call that takes its
# place, and what stands before and after the part in its function, which is put at the file's end. The part itself keeps its text.
ROWS_OF = "f: &dyn Fn(&[f64], &mut Vec<f64>)"
PARTS = [
    ("sketch/src/lm.rs", "    let winv: Vec<f64> = ", "    let mut mu = ",
     "    let winv = inverse_weights(free, weights);\n",
     "pub fn inverse_weights(free: &[usize], weights: &[f64]) -> Vec<f64> {\n", "    winv\n}\n"),
    # A round: from the unknowns, the rows, their cost and the damping to those after it, and whether something better was found.
    ("sketch/src/lm.rs", "        let jac = jacobian(f, &x, free, rows);\n", "        if max_abs(&r) <= tol {\n            return",
     "        let improved;\n        (x, r, cost, mu, improved) = round(f, free, &winv, x, r, cost, mu);\n",
     f"""pub fn round(
    {ROWS_OF}, free: &[usize], winv: &[f64], mut x: Vec<f64>, mut r: Vec<f64>, mut cost: f64, mut mu: f64,
) -> (Vec<f64>, Vec<f64>, f64, f64, bool) {{
        let (rows, nf) = (r.len(), free.len());
        let mut rn = Vec::with_capacity(rows);
""", "        (x, r, cost, mu, improved)\n}\n"),
    ("assembly/src/solve.rs", "    let mut weights = vec!", "    let f = |x: &[f64], out: &mut Vec<f64>| residuals(",
     "    let weights = weights(bodies, &index, n, drag, set);\n",
     "pub fn weights(bodies: &[Body], index: &[Option<usize>], n: usize, drag: Option<usize>, set: crate::Parameters) -> Vec<f64> {\n",
     "    weights\n}\n"),
    ("assembly/src/solve.rs", "        // A start exactly half a turn from the answer", "        let set = crate::begin(1);\n",
     "        let x0 = slight_turn(x0);\n", "pub fn slight_turn(mut x0: Vec<f64>) -> Vec<f64> {\n", "        x0\n}\n"),
    # Whether the retry's outcome takes the place of the first run's.
    ("assembly/src/solve.rs", "        let cost = |x: &[f64]| {\n", "            outcome = retry;\n",
     "        if is_kept(&f, &retry, &outcome) {\n",
     f"pub fn is_kept({ROWS_OF}, retry: &lm::Outcome, outcome: &lm::Outcome) -> bool {{\n", "            return true;\n        }\n        false\n}\n"),
    ("assembly/src/solve.rs", "    let poses = poses_at(&outcome.x, bodies, &index);\n", "}\n\n/// A rigid motion",
     "    solution(bodies, rels, &index, outcome)\n",
     "pub fn solution(bodies: &[Body], rels: &[Rel], index: &[Option<usize>], outcome: lm::Outcome) -> Solution {\n", "}\n"),
]

# What puts the gear into solve.rs of tenon_gear: (old, new), each found once.
GEAR = [
    ("        flip: bool,\n        offset: f64,\n        angle: f64,\n    },\n}",
     "        flip: bool,\n        offset: f64,\n        angle: f64,\n    },\n    Gear {\n        carrier: End,\n        angle: f64,\n        teeth: [u16; 2],\n    },\n}"),
    ("        Law::Joint { .. } => Ok(()),\n", "        Law::Joint { .. } | Law::Gear { .. } => Ok(()),\n"),
    ("if let Law::Symmetry { plane } = &self.law {", "if let Law::Symmetry { plane } | Law::Gear { carrier: plane, .. } = &self.law {"),
    ("        Law::Joint { joint, flip, offset, angle } => {\n            let (oa, xa, za) = joint_frame(&rel.a, &qa);\n",
     """        Law::Gear { carrier, angle, teeth } => {
            let end = |e: End| gear::End {
                point: [e.prim.point().x, e.prim.point().y, e.prim.point().z],
                direction: e.prim.direction().map(|d| [d.x, d.y, d.z]),
                mirrored: e.mirrored,
            };
            let wheels = gear::Gear { teeth, angle, ends: [rel.a, rel.b, carrier].map(end) };
            out.push(wheels.row(&[qa.r.0, qb.r.0, pose(&carrier).r.0]));
        }
        Law::Joint { joint, flip, offset, angle } => {
            let (oa, xa, za) = joint_frame(&rel.a, &qa);
"""),
    ("| Law::Tangent { .. } | Law::Symmetry { .. } => None,", "| Law::Tangent { .. } | Law::Symmetry { .. } | Law::Gear { .. } => None,"),
    ("Law::Angle { .. } | Law::Symmetry { .. } => Vec3::ZERO,", "Law::Angle { .. } | Law::Symmetry { .. } | Law::Gear { .. } => Vec3::ZERO,"),
]

# Counters of branches: name, file, old, new with HIT where the counter goes, each found once.
BRANCHES = [
    ("normalized: zero vector", "geom/src/vec.rs", "if l > crate::EPS { self * (1.0 / l) } else { Vec3::ZERO }",
     "if l > crate::EPS { self * (1.0 / l) } else { HIT; Vec3::ZERO }"),
    ("Frame::new: z too short or not finite", "geom/src/space.rs", "|| z.len() <= tol::LINEAR {\n",
     "|| z.len() <= tol::LINEAR {\n            HIT;\n"),
    ("Frame::new: x along z", "geom/src/space.rs", "if x.len() <= tol::LINEAR {\n", "if x.len() <= tol::LINEAR {\n            HIT;\n"),
    ("from_normal: hint Y", "geom/src/space.rs", "> 0.9 { Vec3::Y }", "> 0.9 { HIT; Vec3::Y }"),
    ("max_abs: row not finite", "sketch/src/lm.rs", "else { f64::INFINITY }", "else { HIT; f64::INFINITY }"),
    ("jacobian: slope not finite", "sketch/src/lm.rs", "if d.is_finite() { d } else { 0.0 }", "if d.is_finite() { d } else { HIT; 0.0 }"),
    ("solve_dense: singular", "sketch/src/lm.rs", "if best <= scale * 1e-15 {\n", "if best <= scale * 1e-15 {\n            HIT;\n"),
    ("solve_dense: rows swapped", "sketch/src/lm.rs", "if piv != col {\n", "if piv != col {\n            HIT;\n"),
    ("solve_dense: factor 0", "sketch/src/lm.rs", "if f == 0.0 {\n", "if f == 0.0 {\n                HIT;\n"),
    ("solve_dense: step not finite", "sketch/src/lm.rs", "y.iter().all(|v| v.is_finite()).then_some(y)",
     "if !y.iter().all(|v| v.is_finite()) { HIT; }\n    y.iter().all(|v| v.is_finite()).then_some(y)"),
    ("lm::solve: holds at the start", "sketch/src/lm.rs", "if rows == 0 || max_abs(&r) <= tol {\n",
     "if rows == 0 || max_abs(&r) <= tol {\n        HIT;\n"),
    ("lm::solve: nothing may move", "sketch/src/lm.rs", "    if free.is_empty() || rows > ",
     "    if free.is_empty() { HIT; }\n    if free.is_empty() || rows > "),
    ("lm::solve: over the row limit", "sketch/src/lm.rs", "    let rows = r.len();\n    if rows == 0",
     "    let rows = r.len();\n    if rows > crate::parameters().row_limit { HIT; }\n    if rows == 0"),
    ("lm::solve: round", "sketch/src/lm.rs", "        iter += 1;\n", "        iter += 1;\n        HIT;\n"),
    ("lm::solve: step accepted", "sketch/src/lm.rs", "                improved = true;\n", "                HIT;\n                improved = true;\n"),
    ("lm::solve: step refused", "sketch/src/lm.rs", "            }\n            mu *= 10.0;\n        }", "            }\n            HIT;\n            mu *= 10.0;\n        }"),
    ("lm::solve: step too far, squares not finite", "sketch/src/lm.rs", "            let cn = norm2(&rn);\n",
     "            let cn = norm2(&rn);\n            if !cn.is_finite() { HIT; }\n"),
    ("lm::solve: twelve trials in vain", "sketch/src/lm.rs", "        if !improved {\n", "        if !improved {\n            HIT;\n"),
    ("lm::solve: all rounds done", "sketch/src/lm.rs", "    let converged = max_abs(&r) <= tol;\n",
     "    if iter == max_iter { HIT; }\n    let converged = max_abs(&r) <= tol;\n"),
    ("exp: linear", "assembly/src/math.rs", "        if t < 1e-12 {\n", "        if t < 1e-12 {\n            HIT;\n"),
    ("rotation_between: along", "assembly/src/math.rs", "        if d > 0.0 {\n", "        if d > 0.0 {\n            HIT;\n"),
    ("rotation_between: opposite, about X", "assembly/src/math.rs", "< 0.9 { Vec3::X }", "< 0.9 { HIT; Vec3::X }"),
    ("rotation_between: opposite, about Y", "assembly/src/math.rs", "else { Vec3::Y };", "else { HIT; Vec3::Y };"),
    ("sym_eigen: diagonal reached", "assembly/src/math.rs", "        if off <= scale * 1e-30 {\n", "        if off <= scale * 1e-30 {\n            HIT;\n"),
    ("sym_eigen: 100 sweeps done", "assembly/src/math.rs", "    for _sweep in 0..100 {\n", "    for _sweep in 0..100 {\n        if _sweep == 99 { HIT; }\n"),
    ("sym_eigen: entry left alone", "assembly/src/math.rs", "if apq.abs() < 1e-300 {\n", "if apq.abs() < 1e-300 {\n                    HIT;\n"),
    ("sym_eigen: theta 0", "assembly/src/math.rs", "if theta == 0.0 { 1.0 }", "if theta == 0.0 { HIT; 1.0 }"),
    ("span_basis: nothing", "assembly/src/math.rs", "    if longest <= 0.0 {\n", "    if longest <= 0.0 {\n        HIT;\n"),
    ("span_basis: vector kept", "assembly/src/math.rs", "            out.push(u.normalized());\n", "            HIT;\n            out.push(u.normalized());\n"),
    ("joint_frame: Frame::WORLD", "assembly/src/geometry.rs", ".unwrap_or(Frame::WORLD)", ".unwrap_or_else(|| { HIT; Frame::WORLD })"),
    ("wrap: -pi becomes pi", "assembly/src/solve.rs", "if w <= -PI { w + 2.0 * PI }", "if w <= -PI { HIT; w + 2.0 * PI }"),
    ("solve: tried again", "assembly/src/solve.rs", "        let retry = lm::solve", "        HIT;\n        let retry = lm::solve"),
    ("solve: retry kept, converged", "assembly/src/solve.rs", "        if retry.converged || cost(&retry.x) < cost(&outcome.x) {\n",
     "        if retry.converged { HIT; }\n        if retry.converged || cost(&retry.x) < cost(&outcome.x) {\n"),
    ("solve: retry kept, converged or smaller", "assembly/src/solve.rs", "            outcome = retry;\n", "            HIT;\n            outcome = retry;\n"),
    ("solve: the body's own frame", "assembly/src/solve.rs", "p.frame().unwrap_or(b.frame)", "p.frame().unwrap_or_else(|| { HIT; b.frame })"),
    ("rank_rel: no slope", "assembly/src/solve.rs", "    if top <= 0.0 {\n", "    if top <= 0.0 {\n        HIT;\n"),
    ("body_dof: turn at the centre", "assembly/src/solve.rs", "if w2 > 0.0 { center + w.cross(t) * (1.0 / w2) } else { center }",
     "if w2 > 0.0 { center + w.cross(t) * (1.0 / w2) } else { HIT; center }"),
    ("body_dof: extra slide", "assembly/src/solve.rs", "Some(v) => translations.push(v.normalized()),", "Some(v) => { HIT; translations.push(v.normalized()) }"),
    ("body_dof: no extra slide", "assembly/src/solve.rs", "            None => break,\n", "            None => { HIT; break }\n"),
]

ROOT = """// Written by adapt.py from tenon's sources. Do not edit, do not keep.
#![allow(dead_code)]
extern crate self as tenon_geom;
extern crate self as tenon_sketch;

pub mod geometry;
pub mod lm;
pub mod math;
pub mod model;
pub mod solve;
mod space;
pub mod tol;
mod vec;
pub use space::{Axis, Frame};
pub use vec::{Vec2, Vec3};

/// The four constants of `solve` as variables.
#[derive(Clone, Copy, Debug, PartialEq)]
pub struct Parameters {
    pub tolerance: f64,
    pub rounds: usize,
    pub row_limit: usize,
    pub drag_weight: f64,
}
impl Parameters {
    /// This copy's own: tenon's, but for 60 rounds.
    pub const OWN: Parameters = Parameters {
        tolerance: tol::ASSEMBLY,
        rounds: solve::MAX_ITER,
        row_limit: lm::MAX_ROWS,
        drag_weight: solve::DRAG_WEIGHT,
    };
}
thread_local! {
    /// Those of the first run and of the second, and which of the two began last.
    static OF_RUNS: std::cell::Cell<[Parameters; 2]> = const { std::cell::Cell::new([Parameters::OWN; 2]) };
    static RUN: std::cell::Cell<usize> = const { std::cell::Cell::new(0) };
}
/// Sets what first and second runs go by from here on. The drag weight is the first's.
pub fn set_parameters(of_runs: [Parameters; 2]) {
    OF_RUNS.set(of_runs);
}
/// Begins the first run, 0, or the second, 1.
pub fn begin(run: usize) -> Parameters {
    RUN.set(run);
    parameters()
}
/// What the run goes by that began last.
pub fn parameters() -> Parameters {
    OF_RUNS.get()[RUN.get()]
}

/// How often each branch was taken.
pub static COVER: [std::sync::atomic::AtomicU64; NAMES.len()] = [const { std::sync::atomic::AtomicU64::new(0) }; NAMES.len()];
#[inline]
pub fn hit(i: usize) {
    COVER[i].fetch_add(1, std::sync::atomic::Ordering::Relaxed);
}

/// `max` as document 01 has it: of two zeros +0, of a NaN and a number the number.
pub fn max01(a: f64, b: f64) -> f64 {
    if a == 0.0 && b == 0.0 { 0.0 } else { a.max(b) }
}
pub trait Max01 {
    fn max01(self, o: f64) -> f64;
}
impl Max01 for f64 {
    fn max01(self, o: f64) -> f64 {
        max01(self, o)
    }
}
"""


def fail(what):
    sys.exit(f"adapt: {what}: the tenon source is not as expected")


def replace(text, old, new, places, where):
    if text.count(old) != places:
        fail(f"{where}: {text.count(old)} places, not {places}, of {old!r}")
    return text.replace(old, new)


def between(text, first, last, where):
    """The part from `first` up to `last`; each must stand there once."""
    if text.count(first) != 1 or text.count(last) != 1:
        fail(f"{where}: not one {first!r} or {last!r}")
    return text[text.index(first):text.index(last)]


def main(source, out):
    crates = pathlib.Path(source) / "crates"
    texts, done = {}, 0
    for name, changes in CHANGES.items():
        text = (crates / name).read_text()
        if name.endswith("geometry.rs"):
            text = between(text, "use tenon_geom", "/// The face of `scene` a reference means", name)
        for old, new, places in changes:
            text = replace(text, old, new, places, name)
            done += places
        texts[name] = text
    for name, first, last, call, head, tail in PARTS:
        part = between(texts[name], first, last, name)
        texts[name] = replace(texts[name], part, call, 1, name) + "\n" + head + part + tail
    lib = (crates / "geom/src/lib.rs").read_text()
    constants = between(lib, "/// Geometric tolerance for 2D", "/// Counter-clockwise sweep", "geom/src/lib.rs")
    model = (crates / "assembly/src/model.rs").read_text()
    joint = between(model, "/// The joint types.", "/// What a relationship holds together.", "assembly/src/model.rs")
    joint = replace(joint, SERDE_DERIVE, ")]", 1, "assembly/src/model.rs")
    joint = replace(joint, '#[serde(rename_all = "snake_case")]\n', "", 1, "assembly/src/model.rs")
    names = []
    for name, file, old, new in BRANCHES:
        texts[file] = replace(texts[file], old, new.replace("HIT", f"crate::hit({len(names)})"), 1, file)
        names.append(name)
    root = ROOT + constants + "pub const NAMES: [&str; %d] = %s;\n" % (
        len(names), "[" + ", ".join('"%s"' % n for n in names) + "]")
    for crate in ("tenon", "tenon_max", "tenon_gear"):
        folder = pathlib.Path(out) / crate
        folder.mkdir(parents=True, exist_ok=True)
        (folder / "lib.rs").write_text(root)
        (folder / "model.rs").write_text(joint)
        for name, text in texts.items():
            short = name.rsplit("/", 1)[1]
            if crate != "tenon" and short in ("lm.rs", "math.rs", "solve.rs"):
                text, n = re.subn(r"\.max\(", ".max01(", text)
                text, f = re.subn(r"f64::max\)", "crate::max01)", text)
                if (n, f) != {"lm.rs": (7, 1), "math.rs": (1, 1), "solve.rs": (4, 2)}[short]:
                    fail(f"{name}: {n} and {f} places of max")
                text = re.sub(r"\nuse |\n#\[derive|\n/// Most residual", lambda m: "\nuse crate::Max01;" + m.group(0), text, count=1)
            if crate == "tenon_gear" and short == "solve.rs":
                for old, new in GEAR:
                    text = replace(text, old, new, 1, name)
            (folder / short).write_text(text)
    print(f"adapt: {done} places changed in {len(CHANGES) + 2} files of tenon, {len(PARTS)} parts of functions made functions, "
          f"{len(GEAR)} more for the gear, {len(names)} branch counters")


if __name__ == "__main__":
    main(sys.argv[1], sys.argv[2])
