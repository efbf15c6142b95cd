//! Sheets that need many rounds: one that jams as each round turns a body back, and such as converge in about 60.

use crate::generate;
use crate::rng::Rng;
use crate::sheet::*;
use crate::trials::body;

/// A body of the sheet held by its centre, and one of its points, 1 to 10 mm off it, pulled to a place that is nearly twice as far away: a turn by
/// the slope overshoots, so that each round turns the body back by nearly as much.
pub fn pulled(rng: &mut Rng, mut sheet: Sheet) -> Sheet {
    if sheet.bodies.is_empty() || sheet.relations.len() + 2 > MOST_RELATIONS {
        return sheet;
    }
    let body = rng.below(sheet.bodies.len());
    let (centre, frame) = (sheet.bodies[body].center, sheet.bodies[body].frame);
    // The centre and the point as the body's own frame has them, which is square or nearly so.
    let own = |place: [f64; 3]| [1, 2, 3].map(|axis| (0..3).map(|i| (place[i] - frame[0][i]) * frame[axis][i]).sum::<f64>());
    let arm = [(); 3].map(|()| rng.range(1.0, 10.0) / 1.7);
    let (far, aside) = (rng.range(1.8, 1.99), rng.range(0.01, 0.3));
    let place = |i: usize, by: f64| (centre[i] + arm[i] * by) + if by > 1.0 { arm[(i + 1) % 3] * aside } else { 0.0 };
    let point = |body: u16, point: [f64; 3]| End { prim: POINT, body, point, ..End::default() };
    for by in [0.0, far] {
        let ends =
            [point(GROUND, [0, 1, 2].map(|i| place(i, by))), point(body as u16, own([0, 1, 2].map(|i| place(i, by.min(1.0))))), End::default()];
        sheet.relations.push(Relation { law: MATE, ends, ..Relation::default() });
    }
    generate::limited(&mut sheet);
    sheet
}

/// A body whose centre is to stand 1e-8 over a plane of the ground with a normal of this length: one row, which falls by a part a round, the smaller
/// the shorter the normal.
pub fn slow(normal: f64) -> Sheet {
    let plane = End { prim: PLANE, body: GROUND, direction: [0.0, 0.0, normal], ..End::default() };
    let centre = End { prim: POINT, body: 0, ..End::default() };
    let over = Relation { law: MATE, offset: 1e-8, ends: [plane, centre, End::default()], ..Relation::default() };
    Sheet { bodies: vec![body()], relations: vec![over] }
}
/// The same of a body that also stands half a turn off a mate of two planes, whose normals are so long: the second run alone can bring it home.
fn slow_again(normal: f64, other: f64) -> Sheet {
    let mut sheet = slow(normal);
    sheet.relations[0].ends[0].direction = [0.0, normal, 0.0];
    let plane = |body: u16| End { prim: PLANE, body, direction: [0.0, 0.0, other], ..End::default() };
    sheet.relations.push(Relation { law: MATE, ends: [plane(GROUND), plane(0), End::default()], ..Relation::default() });
    sheet
}
/// The sheet with a wheel more, of one tooth, that meshes with the ground's as it stands.
pub fn meshed(mut sheet: Sheet) -> Sheet {
    let end = |body: u16| End { prim: LINE, body, direction: [0.0, 0.0, 1.0], ..End::default() };
    let ends = [end(sheet.bodies.len() as u16), end(GROUND), end(GROUND)];
    sheet.bodies.push(body());
    sheet.relations.push(Relation { law: GEAR, teeth: [1, 1], ends, ..Relation::default() });
    sheet
}
/// A sheet with a gear that converges with 200 rounds, and not with 60.
pub fn slow_with_gear() -> Sheet {
    meshed(slow_again(1.5e-8, 1.0))
}
/// Sheets that converge in about 60 rounds: of the first run, of the second where the first ends in vain, and of the second after 60 of the first.
pub fn about_sixty() -> Vec<Sheet> {
    let from = |least: f64, by: f64, count: i32| (0..count).map(move |i| least * by.powi(i));
    let first = from(6e-15, 1.004, 40).map(slow);
    let second = from(2.2e-8, 1.004, 30).map(|normal| slow_again(normal, 1.0));
    let after = from(2e-12, 1.1, 5).map(|normal| slow_again(normal, 1e-4));
    let geared = [slow_again(1e-8, 1.0), slow_again(2.4e-8, 1.0), slow_again(1e-8, 1e-4), slow_again(2e-8, 1e-4)].map(meshed);
    first.chain(second).chain(after).chain(geared).collect()
}
