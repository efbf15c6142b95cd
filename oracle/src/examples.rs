//! Document 01's own examples, asked of the oracle: the table of refusals, report's text, the marked cases; a gear's, by request 1/14; what
//! requests 5/14 and 8/14 say of sets of parameters; what request 6/14 says of solving by rounds, and request 7/14 of scratch, on sheets that can
//! be worked by hand.

use crate::answer::{Answer, Call, Set, words};
use crate::generate;
use crate::jams::slow;
use crate::plain::body_of;
use crate::running::{FINISHED, FIRST, Held, Portion, RETRY, Told};
use crate::sheet::*;
use crate::trains::{pose_of, worked};
use crate::trials::{body, off_by};
use crate::whole::{answer, by_rounds, report, report_without};
use crate::{plain, with_gears, with_max01};
use tenon::{lm, solve};

fn check(failed: &mut u32, what: &str, good: bool) {
    if !good {
        *failed += 1;
        println!("example does not hold: {what}");
    }
}

pub fn run() -> bool {
    let (mut failed, mut count) = (0, 0);
    let mut holds = |what: &str, good: bool| {
        count += 1;
        check(&mut failed, what, good);
    };
    let limits = generate::limits(false);
    let named = |name: &str| limits.iter().find(|(n, _)| *n == name).unwrap().1.clone();
    let example = named("the worked example");
    let one = named("an unnamed free body");
    let lots = 2_000_000;
    let judge = Call::Judge { relation: 0 };
    let solve_with = |drag, scratch, frames| Call::Solve { drag, set: None, scratch, poses: lots, frames, errors: lots };
    let solved = |s: &Sheet| answer(&s.bytes(), solve_with(GROUND, lots, lots));
    let converged = |s: &Sheet| matches!(solved(s), Ok(Answer::Solve { converged: true, .. }));

    // The table of refusals.
    let refused = |bytes: &[u8], call: Call, number: u32| answer(bytes, call) == Err(number);
    let changed = |s: &Sheet, at: usize, byte: u8| {
        let mut b = s.bytes();
        b[at] = byte;
        b
    };
    let of_ends = |law: u8, a: u8, b: u8| {
        let mut s = example.clone();
        s.relations[0].law = law;
        (s.relations[0].ends[0].prim, s.relations[0].ends[1].prim) = (a, b);
        s.bytes()
    };
    let none = Sheet::default();
    let mut size = one.clone();
    size.bodies[0].size = 1000.5;
    let mut no_body = example.clone();
    no_body.relations[0].ends[1].body = 1;
    holds("1", refused(&none.bytes()[..23], judge, 1));
    holds("2", refused(&changed(&none, 0, 2), judge, 2));
    holds("3", refused(&changed(&none, 2, 65), judge, 3));
    holds("4", refused(&changed(&none, 16, 25), judge, 4));
    holds("5", refused(&changed(&one, 24, 2), judge, 5));
    holds("6", refused(&no_body.bytes(), judge, 6));
    holds("7", refused(&size.bytes(), judge, 7));
    holds("8", refused(&one.bytes(), solve_with(1, lots, lots), 8));
    holds("9", refused(&one.bytes(), solve_with(GROUND, 0, lots), 9));
    holds("10", refused(&one.bytes(), solve_with(GROUND, lots, 11), 10));
    holds("11", refused(&of_ends(FLUSH, POINT, POINT), judge, 11));
    holds("12", refused(&of_ends(TANGENT, PLANE, LINE), judge, 12));
    holds("13", refused(&none.bytes(), judge, 13));

    // What report prints.
    holds("report", report(&example.bytes()) == "converged 1\nrelation 0 0000000000000000\nfree 3\nbody 0 0 3\n");
    holds("report refused", report(&example.bytes()[..23]) == "refused 1\n");

    // The marked cases.
    let pi = std::f64::consts::PI;
    holds("wrap", solve::wrap(pi) == pi && solve::wrap(-pi) == pi);
    let sized = |size: f64| solve::half_size(&body_of(&Body { size, ..Body::default() }));
    holds("half size", sized(2.0) == 1.0 && sized(3.0) == 1.5);
    let gap = |inside, plane| solve::tangent_gap(2.0, 3.0, 0.5, inside, plane);
    holds("tangent gap", [gap(false, false), gap(true, false), gap(false, true), gap(true, true)] == [5.5, 1.5, 3.5, -2.5]);
    holds("root of 2", 2f64.sqrt().to_bits() == 0x3FF6A09E667F3BCD);
    holds("largest", lm::max_abs(&[1.0, -3.0, 2.0]) == 3.0 && lm::max_abs(&[]) == 0.0 && lm::max_abs(&[1.0, f64::NAN]) == f64::INFINITY);
    holds("arctangent", arcs::arctangent(0.0, -1.0) == pi && arcs::arctangent(-0.0, -1.0) == -pi);
    holds("no relations", converged(&none) && converged(&one));
    holds("off by 1e-9", converged(&named("a fixed point off by 1e-9")));
    holds("off by the next double", !converged(&named("a fixed point off by the next double")));
    let freedom = answer(&one.bytes(), Call::Dof { scratch: lots, freedoms: lots });
    holds("unnamed free body", matches!(freedom, Ok(Answer::Dof { free: 6, .. })));
    holds("800 rows", converged(&named("800 rows")));
    holds("801 rows", !converged(&named("801 rows")));
    gears(&example.bodies[0], &mut holds);
    sets(&limits, &mut holds);
    sixty(&mut holds);
    portions(&limits, &mut holds);
    changed_between(&mut holds);
    scratch(&limits, &mut holds);
    println!("examples of document 01 and of requests 1/14, 5/14, 6/14, 7/14 and 8/14: {count}, {failed} do not hold");
    failed == 0
}

/// Gears of 12 and 30 teeth, whose wheels are fixed bodies, a turned by a quarter, and whose carrier is the ground.
fn gears(world: &Body, holds: &mut impl FnMut(&str, bool)) {
    let mut wheels = Sheet { bodies: vec![Body { fixed: 1, ..*world }; 2], relations: vec![] };
    wheels.bodies[0].frame = [[0.0; 3], [0.0, 1.0, 0.0], [-1.0, 0.0, 0.0], [0.0, 0.0, 1.0]];
    let end = |body: u16| End { prim: LINE, body, direction: [0.0, 0.0, 1.0], ..End::default() };
    let gear = Relation { law: GEAR, teeth: [12, 30], ends: [end(0), end(1), end(GROUND)], ..Relation::default() };
    let with = |change: &dyn Fn(&mut Relation)| {
        let mut r = gear;
        change(&mut r);
        Sheet { relations: vec![r], ..wheels.clone() }
    };
    let judge = Call::Judge { relation: 0 };
    let refused = |bytes: &[u8], number: u32| answer(bytes, judge) == Err(number);
    let solve = Call::Solve { drag: GROUND, set: None, scratch: 1000, poses: 24, frames: 24, errors: 1 };
    let error = |s: &Sheet| if let Ok(Answer::Solve { errors, .. }) = answer(&s.bytes(), solve) { errors[0] } else { f64::NAN };
    let row = |s: &Sheet| worked(&s.relations[0], &[0, 1].map(|i| pose_of(&s.bodies[i]))).row;
    let of_teeth = |teeth: [u16; 2]| with(&|r| r.teeth = teeth).bytes();
    for teeth in [[0, 30], [12, 0], [401, 30], [12, 401], [12, 65535]] {
        holds("14", refused(&of_teeth(teeth), 14));
        holds("report refused 14", report(&of_teeth(teeth)) == "refused 14\n");
    }
    for teeth in [[1, 1], [400, 400]] {
        holds("1 to 400 teeth", answer(&of_teeth(teeth), judge) == Ok(Answer::Judge));
    }
    let no_teeth_no_body = |flag: u8| with(&|r| (r.teeth[0], r.ends[0].body, r.flag) = (0, 2, flag)).bytes();
    holds("14 before 6", refused(&no_teeth_no_body(0), 14));
    holds("5 before 14", refused(&no_teeth_no_body(1), 5));
    holds("no carrier", refused(&with(&|r| r.ends[2].body = 2).bytes(), 6));
    holds("law 8", refused(&with(&|r| r.law = 8).bytes(), 5));
    holds("teeth of another law", refused(&with(&|r| r.law = MATE).bytes(), 5));
    let unused: [fn(&mut Relation); 4] = [|r| r.joint = 1, |r| r.offset = 1.0, |r| r.reference[2] = 1.0, |r| r.ends[2].radius = 1.0];
    for change in unused {
        holds("unused by a gear", refused(&with(&change).bytes(), 5));
    }
    // 12 quarters less as much; half a turn from either side; a quarter and half a turn, which is a quarter back.
    let (pi, quarter) = (std::f64::consts::PI, std::f64::consts::FRAC_PI_2);
    holds("a row of 0", error(&with(&|r| r.angle = 12.0 * quarter)) == 0.0);
    holds("a row of half a turn", [pi, -pi].iter().all(|by| row(&with(&|r| (r.teeth, r.angle) = ([4, 1], 4.0 * quarter + by))) == pi));
    let back = with(&|r| (r.teeth, r.angle) = ([1, 30], -pi));
    holds("the whole difference is wrapped", (row(&back) + quarter).abs() < 1e-15 && error(&back) == row(&back).abs());
    let mirrored = |i: usize| row(&with(&|r| (r.ends[i].prim, r.ends[i].direction, r.ends[i].mirrored, r.teeth) = (POINT, [0.0; 3], 1, [1, 1])));
    holds("a mirrored wheel turns alike, a mirrored carrier the other way", [0, 1, 2].map(mirrored) == [quarter, quarter, -quarter]);
    holds("snapping leaves the wheel", {
        let motion = [[1.0, 0.0, 0.0, 0.0], [1.0, 0.0, 0.0, 0.0], [1.0, 0.0, 0.0, 0.0]].concat();
        answer(&with(&|_| ()).bytes(), Call::Snap { relation: 0, motion: 12 }) == Ok(Answer::Snap { motion })
    });
}

/// Requests 5/14 and 8/14: what no set means, the ranges, the place of 15 among the tests, the flag and the row limit.
fn sets(limits: &[(&str, Sheet)], holds: &mut impl FnMut(&str, bool)) {
    let plain = Set { tolerance: 1e-9, rounds: 60, row_limit: 800, drag_weight: 10000.0 };
    for own in [plain::own(), with_max01::own(), with_gears::own()] {
        holds("no set", own == plain);
    }
    let named = |name: &str| limits.iter().find(|(n, _)| *n == name).unwrap().1.bytes();
    let (one, lots) = (named("an unnamed free body"), 2_000_000);
    let ask = |bytes: &[u8], set: Set, drag: u16, frames: usize| {
        answer(bytes, Call::Solve { drag, set: Some(set), scratch: lots, poses: lots, frames, errors: lots })
    };
    let tolerance = |tolerance: f64| Set { tolerance, ..plain };
    let drag_weight = |drag_weight: f64| Set { drag_weight, ..plain };
    let (rounds, row_limit) = (|rounds: u32| Set { rounds, ..plain }, |row_limit: u32| Set { row_limit, ..plain });
    for set in [tolerance(1e-12), tolerance(1e-3), rounds(1), rounds(1000), row_limit(1), row_limit(800), drag_weight(1.0), drag_weight(1e8)] {
        holds("an end of a range", ask(&one, set, GROUND, lots).is_ok());
    }
    let beside = [tolerance(1e-12f64.next_down()), tolerance(1e-3f64.next_up()), drag_weight(1f64.next_down()), drag_weight(1e8f64.next_up())];
    let whole = [rounds(0), rounds(1001), row_limit(0), row_limit(801)];
    for set in beside.into_iter().chain(whole).chain([tolerance(f64::NAN), drag_weight(f64::NAN)]) {
        holds("15", ask(&one, set, GROUND, lots) == Err(15));
        holds("8 before 15", ask(&one, set, 1, lots) == Err(8));
        holds("15 before 10", ask(&one, set, GROUND, 11) == Err(15));
    }
    let converged = |name: &str, set: Set| matches!(ask(&named(name), set, GROUND, lots), Ok(Answer::Solve { converged: true, .. }));
    holds("off by 1e-9, finer", !converged("a fixed point off by 1e-9", tolerance(1e-9f64.next_down())));
    holds("off by the next double, coarser", converged("a fixed point off by the next double", tolerance(1e-9f64.next_up())));
    holds("800 rows over the limit", !converged("800 rows", row_limit(799)));
}

/// Request 8/14, on a body that is to stand 1e-8 over a plane with a short normal. The row's slope is the normal's length, so J W⁻¹ Jᵀ is its square,
/// and the damping is measured by its least figure, 1e-12. It is 1e-10 of that in the first round and a tenth of the last in each round after, but
/// 1e-15 of it at least; a round leaves the part d/(square + d) of the row.
fn sixty(holds: &mut impl FnMut(&str, bool)) {
    let left = |normal: f64, rounds: u32| {
        let part = |k: u32| {
            let d = 1e-12 * 10f64.powi(-10 - k as i32).max(1e-15);
            d / (normal * normal + d)
        };
        (0..rounds).fold(1e-8, |row, k| row * part(k))
    };
    let ask =
        |sheet: &Sheet, set: Option<Set>| answer(&sheet.bytes(), Call::Solve { drag: GROUND, set, scratch: 96, poses: 12, frames: 12, errors: 1 });
    let named = |rounds: u32| Some(Set { rounds, ..Set::PLAIN });
    let of = |sheet: &Sheet, set: Option<Set>| {
        let Ok(Answer::Solve { errors, converged, .. }) = ask(sheet, set) else { panic!("a sheet of one row is refused") };
        (errors[0], converged)
    };
    for (normal, rounds) in [(1e-14, 30), (8e-15, 43), (7e-15, 54), (5e-15, 99), (4.5e-15, 120), (3e-15, 262)] {
        let (sheet, needs) = (slow(normal), (1..1000).find(|n| left(normal, *n) <= 1e-9).unwrap());
        holds("the rounds that a short normal takes", needs == rounds && of(&sheet, named(rounds)).1);
        for (set, most) in [(None, 60), (named(59), 59), (named(60), 60), (named(61), 61), (named(200), 200)] {
            let (error, converged) = of(&sheet, set);
            let row = left(normal, needs.min(most));
            holds(&format!("a normal of {normal:e}, {set:?}"), converged == (needs <= most) && (error - row).abs() < row / 500.0);
        }
        holds("no set is 60", words(&ask(&sheet, None)) == words(&ask(&sheet, named(60))));
        for rounds in [59, 61, 200] {
            let same = words(&ask(&sheet, None)) == words(&ask(&sheet, named(rounds)));
            holds("other rounds", same == (needs <= rounds.min(60)));
        }
    }
    // The sheet that docs/DIFFERENCES.md names.
    let sheet = read(include_bytes!("../sheets/sixty_rounds.sheet")).unwrap();
    holds("the sheet of a normal of 5e-15", sheet == slow(5e-15));
    holds("converges with 99 rounds, not with 98", of(&sheet, named(99)).1 && !of(&sheet, named(98)).1);
    holds("report names 200", report(&sheet.bytes()).starts_with("converged 1\n") && report_without(&sheet.bytes()).starts_with("converged 0\n"));
}

/// A call that solves by rounds, with no drag and long slices: it begins, or continues with these counts.
fn portion_call(set: Set, portion: u32, counts: Option<[u32; 2]>) -> Portion {
    let lots = 2_000_000;
    Portion { counts, drag: GROUND, set, portion, state: 1000, scratch: lots, poses: lots, frames: lots, errors: lots }
}
/// A running state that no call has written.
fn unwritten() -> Held {
    Held { done: 5, run: 9, state: vec![f64::NAN; 1000] }
}
fn begun(sheet: &Sheet, set: Set, portion: u32) -> Told {
    by_rounds(&sheet.bytes(), &portion_call(set, portion, None), &unwritten()).unwrap()
}
fn on(sheet: &Sheet, told: &Told, set: Set, portion: u32) -> Told {
    let mut held = told.held();
    held.state.resize(1000, f64::NAN);
    by_rounds(&sheet.bytes(), &portion_call(set, portion, Some(told.counts)), &held).unwrap()
}
/// True if a call leaves these counts, rounds done, run and flag, and a state of the length that the counts give.
fn is(told: &Told, counts: [u32; 2], done: u32, run: u8, flag: bool) -> bool {
    (told.counts, told.done, told.run, told.flag(), told.state.len() as u32) == (counts, done, run, flag, 1 + 2 * counts[0] + counts[1])
}

/// Request 6/14: a tolerance of 1e-12 in the first calls and of 1e-3 in the last one. The end is the same state, since no round is made.
///
/// A body of 2 mm at the ground's axes. Its point (1, 0, 0) is to be 1/4 mm over the ground's plane through 0 with normal y. With a shift y and
/// a turn θ about z the row is y + sin θ − 1/4. At 0 its slopes by y and by θ are 1, and by the other unknowns 0; both weights are 1, since half
/// the size is 1. So J W⁻¹ Jᵀ is 2, and round 1 moves y and θ by half of 1/4 each, but for 1e-10 of it by the damping:
/// - after round 1 y = θ = 1/8, and the row is sin(1/8) − 1/8 = −3.2527e-4. The damping is a tenth of 1e-10.
/// - round 2 moves θ by t = c·r/(1 + c²), where c = cos(1/8) is the slope by θ and r = 3.2527e-4, and y by r/(1 + c²). The sine's second order is
///   left: −sin(1/8)·t²/2 = −1.6487e-9. The damping is a hundredth of 1e-10.
/// - round 3 leaves less than 1e-12 in the same way.
///
/// So with 1e-12 the run needs three rounds. After one and after two the row is over 1e-12 and within 1e-3.
fn changed_between(holds: &mut impl FnMut(&str, bool)) {
    let (fine, coarse) = (Set { tolerance: 1e-12, ..Set::PLAIN }, Set { tolerance: 1e-3, ..Set::PLAIN });
    let plane = End { prim: PLANE, body: GROUND, direction: [0.0, 1.0, 0.0], ..End::default() };
    let point = End { prim: POINT, body: 0, point: [1.0, 0.0, 0.0], ..End::default() };
    let over = Relation { law: MATE, offset: 0.25, ends: [plane, point, End::default()], ..Relation::default() };
    let sheet = Sheet { bodies: vec![body()], relations: vec![over] };
    let near = |found: &[f64], worked: &[f64], by: f64| found.iter().zip(worked).all(|(f, w)| (f - w).abs() < by);

    // A state is the damping, six unknowns, six of a first run that has not ended, and the row.
    let one = begun(&sheet, fine, 1);
    holds("one round is not enough for 1e-12", is(&one, [6, 1], 1, FIRST, false));
    holds("it moves shift and turn by an eighth", near(&one.state[1..7], &[0.0, 0.125, 0.0, 0.0, 0.0, 0.125], 1e-9));
    holds("and leaves 3.2527e-4", near(&one.state[13..], &[-3.2526661e-4], 1e-9) && one.state[0] == 1e-10 * 0.1);
    let two = on(&sheet, &one, fine, 1);
    holds("two rounds are not enough for 1e-12", is(&two, [6, 1], 2, FIRST, false));
    holds("and leave 1.6487e-9", near(&two.state[13..], &[-1.6487e-9], 1e-12) && two.state[0] == 1e-10 * 0.1 * 0.1);
    let three = on(&sheet, &two, fine, 1);
    holds("three are", is(&three, [6, 1], 3, FINISHED, true) && three.state[13].abs() <= 1e-12);

    // Continued with 1e-3, the run ends before its first round. Unknowns, damping and row are as they are.
    for (told, done) in [(&one, 1), (&two, 2)] {
        for portion in [1, 1000] {
            let end = on(&sheet, told, coarse, portion);
            holds("1e-3 ends the run with no round", is(&end, [6, 1], done, FINISHED, true) && end.rounds == [0, 0]);
            holds("and leaves the state as it is", end.held().same(&Held { run: FINISHED, ..told.held() }));
            let fine_again = on(&sheet, &end, fine, 1000);
            holds(
                "1e-12 then gives flag 0 and makes no round",
                is(&fine_again, [6, 1], done, FINISHED, false) && fine_again.held().same(&end.held()),
            );
        }
    }
    // Begun with 1e-3, the run ends after round 1.
    holds("1e-3 alone needs one round", begun(&sheet, coarse, 1000).same(&on(&sheet, &one, coarse, 1)));
}

/// Request 6/14: when a run ends and when it begins, what is carried over, the flag, and the place of 16 among the tests.
fn portions(limits: &[(&str, Sheet)], holds: &mut impl FnMut(&str, bool)) {
    let (plain, lots) = (Set::PLAIN, 2_000_000);
    let fine = Set { tolerance: 1e-12, ..plain };
    let named = |name: &str| limits.iter().find(|(n, _)| *n == name).unwrap().1.clone();
    let solved = |sheet: &Sheet, set: Set, told: &Told| {
        let whole = Call::Solve { drag: GROUND, set: Some(set), scratch: lots, poses: lots, frames: lots, errors: lots };
        answer(&sheet.bytes(), whole).is_ok_and(|whole| told.answers(&whole))
    };

    // What holds as it stands is finished at once, and so is what nothing moves in.
    let example = named("the worked example");
    let told = begun(&example, plain, 1);
    holds("the worked example is finished at once", is(&told, [6, 3], 0, FINISHED, true) && solved(&example, plain, &told));
    holds("with unknowns and rows of 0", told.state[0] == 1e-10 && told.state[1..].iter().all(|d| *d == 0.0));
    for name in ["nothing", "an unnamed free body", "64 unnamed bodies"] {
        holds("no unknowns and no rows", is(&begun(&named(name), plain, 1), [0, 0], 0, FINISHED, true));
    }
    let off = named("a fixed point off by the next double");
    let told = begun(&off, plain, 1);
    holds("nothing may move", is(&told, [0, 3], 0, FINISHED, false));
    let coarse = Set { tolerance: 1e-9f64.next_up(), ..plain };
    holds("finished, the flag is that of the call's set", is(&on(&off, &told, coarse, 1), [0, 3], 0, FINISHED, true));

    // A free body whose point, which is its centre, is 0.25 mm off: a round leaves about 1e-10 of it, and a tenth of the damping.
    let mut off = off_by(0, 0.25);
    off.bodies[0].center[0] = 0.25;
    let told = begun(&off, plain, 1);
    holds("one round is enough for 1e-9", is(&told, [6, 3], 1, FINISHED, true) && solved(&off, plain, &told));
    let told = begun(&off, fine, 1);
    let row = told.state[13].abs();
    holds("one round is not for 1e-12", is(&told, [6, 3], 1, FIRST, false) && (1e-12..1e-9).contains(&row) && told.state[0] == 1e-10 * 0.1);
    let end = on(&off, &told, fine, 1);
    holds("two are", is(&end, [6, 3], 2, FINISHED, true) && solved(&off, fine, &end));
    holds("in one call too", begun(&off, fine, 2).same(&end) && begun(&off, fine, 1000).same(&end));
    holds("finished it stays", on(&off, &end, fine, 1000).same(&end));
    let coarser = on(&off, &told, plain, 1000);
    holds("a coarser tolerance ends the run", is(&coarser, [6, 3], 1, FINISHED, true) && coarser.held().state == told.held().state);
    holds("the largest row ends it, the double before does not", {
        let at = |tolerance: f64| on(&off, &told, Set { tolerance, ..plain }, 1).done;
        (at(row), at(row.next_down())) == (1, 2)
    });
    let limited = on(&off, &told, Set { row_limit: 1, ..fine }, 1);
    holds("the row limit does not count on going on", limited.same(&end));

    // As many rounds as the set allows end the first run, and the retry begins in that call: a slight turn, which leaves the point where it is.
    let turn = [0.0, 0.0, 0.0, 0.05, -0.03, 0.07];
    let one = Set { rounds: 1, ..fine };
    let told = begun(&off, one, 1);
    holds("the retry begins", is(&told, [6, 3], 0, RETRY, false) && told.state[0] == 1e-10 && told.state[1..7] == turn);
    holds("the first run's unknowns are kept", (0.24..0.26).contains(&told.state[7].abs()) && told.state[13].abs() == 0.25);
    let last = on(&off, &told, one, 1);
    holds(
        "its one round comes as near, not nearer",
        is(&last, [6, 3], 1, FINISHED, false) && last.state[1..7] == told.state[7..13] && solved(&off, one, &last),
    );
    holds("both in a portion of 2", begun(&off, one, 2).same(&last));
    let fewer = on(&off, &begun(&off, fine, 1), one, 1);
    holds("rounds that are done end the run, and the portion is the retry's", fewer.same(&last));
    let over = on(&off, &begun(&off, fine, 1), Set { row_limit: 2, ..one }, 1);
    holds("over the row limit the retry has no round", is(&over, [6, 3], 0, FINISHED, false) && over.state[1..7] == over.state[7..13]);

    // 800 rows are iterated, 801 are not.
    holds("800 rows", begun(&named("800 rows"), plain, 1).rounds == [1, 0]);
    let most = begun(&named("801 rows"), plain, 1000);
    holds("801 rows", is(&most, [6, 801], 0, FINISHED, false) && most.rounds == [0, 0]);

    // Another byte than 1 and 2 counts as finished.
    let sheet = example.bytes();
    for run in [0, 4, 255] {
        let held = Held { done: u32::MAX, run, state: vec![0.25; 1000] };
        let told = by_rounds(&sheet, &portion_call(plain, 1000, Some([6, 3])), &held).unwrap();
        holds("another byte", is(&told, [6, 3], u32::MAX, FINISHED, false) && told.state == vec![0.25; 16]);
    }

    // 16, after 8 and 15, before 10 and 9.
    let refused = |call: Portion, number: u32| by_rounds(&sheet, &call, &unwritten()).is_err_and(|given| given == number);
    let none = Set { rounds: 0, ..plain };
    for portion in [0, 1001, u32::MAX] {
        for counts in [None, Some([6, 3])] {
            holds("16", refused(portion_call(plain, portion, counts), 16));
            holds("8 before 16", refused(Portion { drag: 1, ..portion_call(plain, portion, counts) }, 8));
            holds("15 before 16", refused(portion_call(none, portion, counts), 15));
            holds("16 before 10", refused(Portion { state: 15, ..portion_call(plain, portion, counts) }, 16));
            holds("16 before 9", refused(Portion { scratch: 0, ..portion_call(plain, portion, counts) }, 16));
        }
    }
    for counts in [[5, 3], [7, 3], [6, 2], [6, 4], [0, 0], [3, 6]] {
        holds("16 for the counts", refused(portion_call(plain, 1, Some(counts)), 16));
    }
    for counts in [None, Some([6, 3])] {
        for portion in [1, 1000] {
            let accepted = |state: usize| by_rounds(&sheet, &Portion { state, ..portion_call(plain, portion, counts) }, &unwritten()).map(|_| ());
            holds("a state of 16 doubles", accepted(16) == Ok(()) && accepted(15) == Err(10));
        }
        holds("10 before 9", refused(Portion { state: 15, scratch: 0, ..portion_call(plain, 1, counts) }, 10));
    }
}

/// Request 7/14: how much scratch each call of `solve` needs. One double less is 9.
fn scratch(limits: &[(&str, Sheet)], holds: &mut impl FnMut(&str, bool)) {
    let named = |name: &str| limits.iter().find(|(n, _)| *n == name).unwrap().1.clone();
    let example = named("the worked example");
    let of_ends = |a: u8, b: u8| {
        let mut s = example.clone();
        for (end, prim) in s.relations[0].ends.iter_mut().zip([a, b]) {
            (end.prim, end.direction[2]) = (prim, if prim == POINT { 0.0 } else { 1.0 });
        }
        s
    };
    let twice = Sheet { relations: example.relations.repeat(2), ..example.clone() };
    // R·n + R² + R(R + 1)/2 + 8R + 8n + 32m, term by term.
    let worked = [
        ("nothing", Sheet::default(), 0),
        ("a body and no rows", named("an unnamed free body"), 32),
        ("1 row", of_ends(PLANE, POINT), 96),                                      // 6 + 1 + 1 + 8 + 48 + 32
        ("2 rows", of_ends(PLANE, LINE), 115),                                     // 12 + 4 + 3 + 16 + 48 + 32
        ("3 rows", example.clone(), 137),                                          // 18 + 9 + 6 + 24 + 48 + 32
        ("3 rows of a fixed body", off_by(1, 0.25), 71),                           // 0 + 9 + 6 + 24 + 0 + 32
        ("6 rows", twice, 221),                                                    // 36 + 36 + 21 + 48 + 48 + 32
        ("384 rows of the ground", named("128 relations of the ground"), 224_480), // 0 + 147456 + 73920 + 3072 + 0 + 32
        ("800 rows", named("800 rows"), 971_712),                                  // 4800 + 640000 + 320400 + 6400 + 48 + 64
        ("801 rows", named("801 rows"), 974_128),                                  // 4806 + 641601 + 321201 + 6408 + 48 + 64
    ];
    let (set, lots) = (Set { rounds: 1, ..Set::PLAIN }, 3000);
    for (name, sheet, need) in worked {
        let bytes = sheet.bytes();
        let solve = |set: Option<Set>, scratch: usize| {
            answer(&bytes, Call::Solve { drag: GROUND, set, scratch, poses: lots, frames: lots, errors: lots }).map(|_| ())
        };
        let by_portion = |counts: Option<[u32; 2]>, held: &Held, scratch: usize| {
            let call = Portion { counts, drag: GROUND, set, portion: 1, state: lots, scratch, poses: lots, frames: lots, errors: lots };
            by_rounds(&bytes, &call, held)
        };
        let memory = Held { done: 0, run: 0, state: vec![0.0; lots] };
        let begun = by_portion(None, &memory, need);
        holds(&format!("{name}, begun with {need}"), begun.is_ok());
        let (counts, mut held) = begun.map_or(([0; 2], memory.clone()), |told| (told.counts, told.held()));
        held.state.resize(lots, 0.0);
        holds(&format!("{name}, gone on with {need}"), by_portion(Some(counts), &held, need).is_ok());
        holds(&format!("{name}, {need} with no set"), solve(None, need) == Ok(()));
        holds(&format!("{name}, {need} with a set"), solve(Some(set), need) == Ok(()));
        if let Some(short) = need.checked_sub(1) {
            holds(&format!("{name}, begun with {short}"), by_portion(None, &memory, short).is_err_and(|number| number == 9));
            holds(&format!("{name}, gone on with {short}"), by_portion(Some(counts), &held, short).is_err_and(|number| number == 9));
            holds(&format!("{name}, {short} with no set"), solve(None, short) == Err(9));
            holds(&format!("{name}, {short} with a set"), solve(Some(set), short) == Err(9));
        }
    }
    // `dof` needs R·n + 2n² + 8R + 8n + 32m: 18 + 72 + 24 + 48 + 32.
    let dof = |scratch: usize| answer(&example.bytes(), Call::Dof { scratch, freedoms: lots }).map(|_| ());
    holds("194 for dof", dof(194) == Ok(()) && dof(193) == Err(9));
    // `report` lends 8192. 57 rows of 3 bodies out of 52 need 1026 + 3249 + 1653 + 456 + 144 + 1664, 64 of 2 out of 20 need
    // 768 + 4096 + 2080 + 512 + 96 + 640; 62 of 3 out of 20 need one more, 1116 + 3844 + 1953 + 496 + 144 + 640.
    let about = generate::scratch_of_report();
    let refused = [0, 1, 2].map(|i| report(&about[i].bytes()) == "refused 9\n");
    holds("8192 and 8193 for report", refused == [false, false, true]);
}
