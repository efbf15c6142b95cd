// The calls on a sheet, answered by tenon: included over `tenon`, `tenon_max` and `tenon_gear`. Each place gives `gear_of`, the law of a gear.
// A call's tests 13, 8, 11, 12, 15, 10, 9 and its answer as document 01 and requests 5/14, 7/14 and 8/14 lay them out.

use crate::answer::{Answer, Call, Set};
use crate::sheet::{self, Sheet};
use tenon::geometry::Prim;
use tenon::math::M3;
use tenon::model::JointKind;
use tenon::solve::{self, Body, End, Law, Pose, Rel};
use tenon::{Frame, Parameters, Vec3};

/// A sheet as tenon's solver takes it.
pub struct Scene {
    pub bodies: Vec<Body>,
    pub rels: Vec<Rel>,
}

pub fn vec3(v: [f64; 3]) -> Vec3 {
    Vec3::new(v[0], v[1], v[2])
}
pub fn list(v: Vec3) -> [f64; 3] {
    [v.x, v.y, v.z]
}
pub fn frame_of(f: [[f64; 3]; 4]) -> Frame {
    Frame { origin: vec3(f[0]), x: vec3(f[1]), y: vec3(f[2]), z: vec3(f[3]) }
}
fn prim_of(e: &sheet::End) -> Prim {
    let (point, normal) = (vec3(e.point), vec3(e.direction));
    match e.prim {
        sheet::PLANE => Prim::Plane { point, normal },
        sheet::LINE => Prim::Line { point, dir: normal },
        sheet::POINT => Prim::Point(point),
        _ => Prim::Circle { center: point, normal, radius: e.circle_radius },
    }
}
fn end_of(e: &sheet::End) -> End {
    let body = (e.body != sheet::GROUND).then_some(e.body as usize);
    End { body, prim: prim_of(e), radius: e.radius, mirrored: e.mirrored == 1 }
}
pub fn rel_of(r: &sheet::Relation) -> Rel {
    let (offset, angle, flag) = (r.offset, r.angle, r.flag == 1);
    let law = match r.law {
        sheet::MATE => Law::Mate { offset },
        sheet::FLUSH => Law::Flush { offset },
        sheet::ANGLE => Law::Angle { angle, reference: vec3(r.reference) },
        sheet::INSERT => Law::Insert { offset, aligned: flag },
        sheet::TANGENT => Law::Tangent { offset, inside: flag },
        sheet::SYMMETRY => Law::Symmetry { plane: end_of(&r.ends[2]) },
        sheet::GEAR => gear_of(r),
        _ => Law::Joint { joint: JointKind::ALL[r.joint as usize], flip: flag, offset, angle },
    };
    Rel { law, a: end_of(&r.ends[0]), b: end_of(&r.ends[1]) }
}
pub fn body_of(b: &sheet::Body) -> Body {
    Body { frame: frame_of(b.frame), fixed: b.fixed == 1, center: vec3(b.center), size: b.size }
}

impl Scene {
    pub fn of(sheet: &Sheet) -> Scene {
        Scene { bodies: sheet.bodies.iter().map(body_of).collect(), rels: sheet.relations.iter().map(rel_of).collect() }
    }
    /// R, the sheet's row count.
    pub fn rows(&self) -> usize {
        let poses: Vec<Pose> = self.bodies.iter().map(|b| Pose::of(&b.frame)).collect();
        let mut rows = Vec::new();
        solve::residuals(&self.rels, &poses, &mut rows);
        rows.len()
    }
    /// n, six times the unfixed bodies named by relations.
    pub fn unknowns(&self) -> usize {
        solve::layout(&self.bodies, &self.rels).iter().flatten().count() * 6
    }
    /// Request 7/14: a whole square of R by R, and the lower triangle of one.
    pub fn solve_scratch(&self) -> usize {
        let (r, n, m) = (self.rows(), self.unknowns(), self.bodies.len());
        r * n + r * r + r * (r + 1) / 2 + 8 * r + 8 * n + 32 * m
    }
    pub fn dof_scratch(&self) -> usize {
        let (r, n, m) = (self.rows(), self.unknowns(), self.bodies.len());
        r * n + 2 * n * n + 8 * r + 8 * n + 32 * m
    }
}

/// Document 01's 11 and 12.
fn judge(rel: &Rel) -> Result<(), u32> {
    solve::check(&rel.law, &rel.a.prim, &rel.b.prim).map_err(|_| 11u32)?;
    if let Law::Tangent { .. } = rel.law {
        solve::check_tangent(&rel.a, &rel.b).map_err(|_| 12u32)?;
    }
    Ok(())
}

fn test(passed: bool, number: u32) -> Result<(), u32> {
    if passed { Ok(()) } else { Err(number) }
}

/// The refusal of a call on a sheet that passes tests 1 to 7 and 14.
fn refusal(scene: &Scene, call: Call) -> Result<(), u32> {
    let (m, k) = (scene.bodies.len(), scene.rels.len());
    match call {
        Call::Judge { relation } => {
            test((relation as usize) < k, 13)?;
            judge(&scene.rels[relation as usize])
        }
        Call::Reading { relation } => test((relation as usize) < k, 13),
        Call::Snap { relation, motion } => {
            test((relation as usize) < k, 13)?;
            test(motion >= 12, 10)
        }
        Call::Solve { drag, set, scratch, poses, frames, errors } => {
            test(drag == sheet::GROUND || (drag as usize) < m, 8)?;
            test(set.is_none_or(|set| set.is_in_range()), 15)?;
            test(poses >= 12 * m && frames >= 12 * m && errors >= k, 10)?;
            test(scratch >= scene.solve_scratch(), 9)
        }
        Call::Dof { scratch, freedoms } => {
            test(freedoms >= 29 * m, 10)?;
            test(scratch >= scene.dof_scratch(), 9)
        }
    }
}

fn pose_list(r: &M3, t: Vec3) -> Vec<f64> {
    r.0.as_flattened().iter().copied().chain(list(t)).collect()
}
fn frame_list(f: &Frame) -> Vec<f64> {
    [f.origin, f.x, f.y, f.z].into_iter().flat_map(list).collect()
}

/// 29 doubles: slide count, turn count, three slides, three turns (axis, point), unused 0.
fn freedom_list(d: &solve::BodyDof) -> Vec<f64> {
    let mut out = vec![d.translations.len() as f64, d.rotations.len() as f64];
    out.extend(d.translations.iter().copied().flat_map(list));
    out.resize(11, 0.0);
    out.extend(d.rotations.iter().flat_map(|(axis, point)| [list(*axis), list(*point)]).flatten());
    out.resize(29, 0.0);
    out
}

fn parameters(set: Set) -> Parameters {
    Parameters { tolerance: set.tolerance, rounds: set.rounds as usize, row_limit: set.row_limit as usize, drag_weight: set.drag_weight }
}
/// What a call without a set goes by: the copy's own constants.
pub fn own() -> Set {
    let Parameters { tolerance, rounds, row_limit, drag_weight } = Parameters::OWN;
    Set { tolerance, rounds: rounds as u32, row_limit: row_limit as u32, drag_weight }
}

/// What `solve` fills in if its first run goes by the one and its second by the other.
fn solved(scene: &Scene, drag: u16, of_runs: [Parameters; 2]) -> Answer {
    tenon::set_parameters(of_runs);
    let drag = (drag != sheet::GROUND).then_some(drag as usize);
    filled_in(solve::solve(&scene.bodies, &scene.rels, drag))
}
fn filled_in(s: solve::Solution) -> Answer {
    Answer::Solve {
        poses: s.poses.iter().flat_map(|p| pose_list(&p.r, p.t)).collect(),
        frames: s.frames.iter().flat_map(frame_list).collect(),
        errors: s.errors,
        converged: s.converged,
    }
}
/// The same by two sets, whose ranges are not tested.
pub fn by_runs(sheet: &Sheet, drag: u16, sets: [Set; 2]) -> Answer {
    solved(&Scene::of(sheet), drag, sets.map(parameters))
}

/// What an accepted call fills in.
pub fn accepted(scene: &Scene, call: Call) -> Answer {
    match call {
        Call::Judge { .. } => Answer::Judge,
        Call::Reading { relation } => {
            let (offset, angle) = solve::joint_reading(&scene.rels[relation as usize], &scene.bodies);
            Answer::Reading { offset, angle }
        }
        Call::Snap { relation, .. } => {
            let motion = solve::snap(&scene.bodies, &scene.rels[relation as usize]);
            Answer::Snap { motion: pose_list(&motion.r, motion.t) }
        }
        Call::Solve { drag, set, .. } => solved(scene, drag, [set.map_or(Parameters::OWN, parameters); 2]),
        Call::Dof { .. } => {
            let (bodies, free) = solve::dof(&scene.bodies, &scene.rels);
            Answer::Dof { freedoms: bodies.iter().flat_map(freedom_list).collect(), free: free as u32 }
        }
    }
}

/// The answer of a call on any bytes, or the number it is refused with.
pub fn answer(bytes: &[u8], call: Call) -> Result<Answer, u32> {
    let scene = Scene::of(&sheet::read(bytes)?);
    refusal(&scene, call)?;
    Ok(accepted(&scene, call))
}

/// The rows of a relation with bodies 0 to 2 at the given poses.
pub fn rows(relation: &sheet::Relation, poses: &[[f64; 12]]) -> Vec<f64> {
    let poses: Vec<Pose> = poses
        .iter()
        .map(|p| Pose { r: M3([[p[0], p[1], p[2]], [p[3], p[4], p[5]], [p[6], p[7], p[8]]]), t: Vec3::new(p[9], p[10], p[11]) })
        .collect();
    let mut out = Vec::new();
    solve::residual(&rel_of(relation), &poses, &mut out);
    out
}

/// The program `report`, which names 200 rounds: what it prints for what it reads.
pub fn report(input: &[u8]) -> String {
    report_by(input, Some(Set::TWO_HUNDRED))
}
/// What it would print if it solved by this set, or without one.
pub fn report_by(input: &[u8], set: Option<Set>) -> String {
    let bytes = &input[..input.len().min(42_521)];
    let run = || -> Result<String, u32> {
        let (m, k) = (sheet::MOST_BODIES, sheet::MOST_RELATIONS);
        let solve = Call::Solve { drag: sheet::GROUND, set, scratch: 8192, poses: 12 * m, frames: 12 * m, errors: k };
        let solved = answer(bytes, solve)?;
        let dof = answer(bytes, Call::Dof { scratch: 8192, freedoms: 29 * m })?;
        let (Answer::Solve { errors, converged, .. }, Answer::Dof { freedoms, free }) = (solved, dof) else { unreachable!() };
        let mut out = format!("converged {}\n", converged as u8);
        for (i, e) in errors.iter().enumerate() {
            out += &format!("relation {i} {}\n", crate::answer::hex(*e));
        }
        out += &format!("free {free}\n");
        for (i, f) in freedoms.chunks(29).enumerate() {
            out += &format!("body {i} {} {}\n", f[0], f[1]);
        }
        Ok(out)
    };
    run().unwrap_or_else(|number| format!("refused {number}\n"))
}
