//! What the check answers to worked texts, over memory and over sources, in each version of the texts.
use crate::crates::mapf_app::{CertFault, CheckFault, Fault, PlanFault, PlanTextFault, Verdict};
use crate::crates::mapf_certificate::convert_cert;
use crate::crates::mapf_checker::check;
use crate::problems::*;
use crate::rattle_std::alloc::Global;
use crate::running;

/// What the check answers.
type Answer = Result<Verdict, CheckFault>;

/// The texts are answered so over memory and over sources, with the plan text in each version that it has, and with a
/// certificate of version 1 also as the one of version 2 that it becomes.
#[track_caller]
fn assert_answer(given: &Given, plan: &str, cert: &str, answer: Answer) {
    let problem = given.problem();
    let plans = [Some(plan.to_owned()), plan_in_other_version(plan)];
    let converted = convert_cert(Global, cert.as_bytes(), problem.grid()).ok();
    assert_eq!(converted.is_some(), cert.starts_with("mapf-cert 1"), "{cert}");
    let certs = [Some(cert.as_bytes()), converted.as_deref()];
    for plan in plans.iter().flatten() {
        for cert in certs.into_iter().flatten() {
            let texts = || format!("{plan}{}", String::from_utf8_lossy(cert));
            assert_eq!(check(Global, &problem, plan.as_bytes(), cert), answer, "over memory: {}", texts());
            let answer = answer.map_err(Fault::Refused);
            assert_eq!(running::check(given, plan, cert), answer, "over sources: {}", texts());
        }
    }
}

#[test]
fn certificates_of_version_1_show_that_plans_are_optimal() {
    for (given, plan, cert, cost) in [
        (AT_REST, AT_REST_PLAN, AT_REST_ONE, 0),
        (CORRIDOR, CORRIDOR_PLAN, CORRIDOR_ONE, 2),
        (CROSSING, CROSSING_PLAN, CROSSING_ONE, 5),
        (NICHE, NICHE_PLAN, NICHE_ONE, 4),
        (ROTATION, ROTATION_PLAN, ROTATION_ONE, 4),
    ] {
        assert_answer(&given, plan, cert, Ok(Verdict::Optimal(cost)));
    }
}

#[test]
fn certificates_of_version_1_show_that_no_plan_is_valid() {
    for (given, plan, cert) in [
        (SHARED_START, SHARED_START_PLAN, SHARED_START_ONE),
        (SHARED_GOAL, SHARED_GOAL_PLAN, SHARED_GOAL_ONE),
        (WALL, WALL_PLAN, WALL_ONE),
    ] {
        assert_answer(&given, plan, cert, Ok(Verdict::Impossible));
    }
}

#[test]
fn certificates_of_version_2_have_blocks_on_splits_and_show_bounds() {
    assert_answer(&NICHE, NICHE_PLAN, NICHE_CERT, Ok(Verdict::Optimal(4)));
    for (given, plan, cert, bound) in [
        (CROSSING, CROSSING_STOPPED_PLAN, CROSSING_STOPPED_CERT, 4),
        (NICHE, NICHE_STOPPED_PLAN, NICHE_STOPPED_CERT, 4),
        (SHARED_START, SHARED_START_STOPPED_PLAN, SHARED_START_STOPPED_CERT, 3),
        (EXCHANGE, EXCHANGE_STOPPED_PLAN, EXCHANGE_STOPPED_CERT, 4),
    ] {
        assert_answer(&given, plan, cert, Ok(Verdict::Bound(bound)));
    }
}

/// The crossing without a split: both agents together cost 5 at least.
const BY_A_PAIR: &str = "\
mapf-cert 3\nagents 2\nclaim cost 5\nprices 0\nlemmas 1\n\
two 0 1 0 0 0 1 -\nat 0,1 1,0 0 5\nleaf 0 1 -\ngroup 1 1\nuse 0 1\nend\n";

/// The same by a price of the cell in the middle at tick 1.
const BY_A_PRICE: &str = "\
mapf-cert 3\nagents 2\nclaim cost 5\nprices 1\nlist 1 1\nprice 1,1 1 1\nlemmas 2\n\
one 0 0 1 0\nat 0,1 0 3\none 1 0 1 0\nat 1,0 0 3\nleaf 2 0 0\nuse 0\nuse 1\nend\n";

#[test]
fn certificates_of_version_3_claim_costs_and_bounds_beside_plans() {
    for cert in [BY_A_PAIR, BY_A_PRICE] {
        for (plan, claim, answer) in [
            (CROSSING_PLAN, "cost 5", Ok(Verdict::Optimal(5))),
            (CROSSING_PLAN, "bound 5", Ok(Verdict::Optimal(5))),
            (CROSSING_PLAN, "bound 4", Ok(Verdict::Within { bound: 4, cost: 5 })),
            (CROSSING_PLAN, "bound 6", Err(CheckFault::C4)),
            (CROSSING_PLAN, "cost 4", Err(CheckFault::C4)),
            (CROSSING_PLAN, "impossible", Err(CheckFault::C4)),
            (DEARER, "bound 5", Ok(Verdict::Within { bound: 5, cost: 6 })),
            (DEARER, "bound 4", Ok(Verdict::Within { bound: 4, cost: 6 })),
            (DEARER, "cost 5", Err(CheckFault::C4)),
            (DEARER, "bound 7", Err(CheckFault::C4)),
            (CROSSING_STOPPED_PLAN, "bound 4", Ok(Verdict::Bound(4))),
            (CROSSING_STOPPED_PLAN, "bound 3", Err(CheckFault::C4)),
            (CROSSING_STOPPED_PLAN, "cost 4", Err(CheckFault::C4)),
        ] {
            let cert = with_lines(cert, 3..=3, &format!("claim {claim}\n"));
            assert_answer(&CROSSING, plan, &cert, answer);
        }
    }
}

#[test]
fn plan_texts_are_refused() {
    for (given, plan, refusal) in [
        (EXCHANGE, "mapf-plan 1\nagents 2\nlimit 3\nend\n", CheckFault::C4),
        (EXCHANGE, SWAPPING, CheckFault::C5(PlanFault::V5 { i: 0, j: 1, tick: 0 })),
        (CROSSING, MEETING, CheckFault::C5(PlanFault::V4 { i: 0, j: 1, tick: 1 })),
        (CROSSING, "mapf-plan 2\nagents 1\nimpossible\nend\n", CheckFault::C3),
        (CROSSING, "mapf-plan 2\nagents 201\n", CheckFault::C1(PlanTextFault::P3(2))),
    ] {
        assert_answer(&given, plan, "", Err(refusal));
    }
}

#[test]
fn certificates_are_refused() {
    assert_answer(&AT_REST, AT_REST_PLAN, "", Err(CheckFault::C2(CertFault::K2(1))));
    let false_clash = "mapf-cert 1\nagents 4\nclaim cost 4\nclash 0 1\nend\n";
    assert_answer(&ROTATION, ROTATION_PLAN, false_clash, Err(CheckFault::C9(4)));
    for (plan, cert, line, changed, refusal) in [
        (CROSSING_PLAN, CROSSING_ONE, 2, "agents 3\n", CheckFault::C3),
        (CROSSING_PLAN, CROSSING_ONE, 4, "vertex 0 0 1,1 1\n", CheckFault::C6(4)),
        (CROSSING_PLAN, CROSSING_ONE, 7, "at 0,1 0 4\n", CheckFault::C7(7)),
        // Its leaves add up to 5.
        (DEARER, CROSSING_ONE, 3, "claim cost 6\n", CheckFault::C8(5)),
        (CROSSING_PLAN, BY_A_PAIR, 6, "two 0 0 0 0 0 1 -\n", CheckFault::C10(6)),
    ] {
        let cert = with_lines(cert, line..=line, changed);
        assert_answer(&CROSSING, plan, &cert, Err(refusal));
    }
}
