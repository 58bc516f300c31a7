//! Plans and plan texts.
use super::judging::{crossing_plan, judged, judged_from};
use crate::crates::mapf_certificate::PlanTextFault;
use crate::crates::mapf_checker::{CheckFault, FromFault, PlanFault, Verdict, check_from, check_plan};
use crate::crates::mapf_model::Source;
use crate::crates::mapf_model::devices::{FuseSource, Pace};
use crate::made::{plan_of, problem_of};
use crate::problems::{CROSSING, CROSSING_ONE, SHARED_GOAL_ONE, SHARED_GOAL_PLAN, with_lines};
use crate::rattle_std::alloc::Global;

#[test]
fn the_costs_are_added_up() {
    let problem = problem_of("... ... ...", &[(3, 5), (1, 7)]);
    assert_eq!(check_plan(&problem, &plan_of(&[&[3, 3, 4, 5], &[1, 4, 7]])), Ok(5));
}

#[test]
fn an_agent_may_be_at_the_goal_of_another() {
    let problem = problem_of("..", &[(0, 1), (1, 1)]);
    assert_eq!(judged(&problem, SHARED_GOAL_PLAN, SHARED_GOAL_ONE), Ok(Verdict::Impossible));
}

#[test]
fn plan_texts_are_refused() {
    let problem = CROSSING.problem();
    for (replaced, lines, refusal) in [
        (6..=6, "end\nx", CheckFault::C1(PlanTextFault::P4(7))),
        (2..=5, "agents 1\nimpossible\n", CheckFault::C3),
        (3..=5, "limit ticks\n", CheckFault::C4),
        (3..=4, "cost 3\npath 0 1 1,1 2,1\n", CheckFault::C5(PlanFault::V1 { agent: 0 })),
        (3..=4, "cost 3\npath 0 1 0,1 2,1\n", CheckFault::C5(PlanFault::V2 { agent: 0, tick: 0 })),
        (3..=4, "cost 3\npath 0 1 0,1 1,1\n", CheckFault::C5(PlanFault::V3 { agent: 0 })),
        (
            3..=5,
            "cost 7\npath 0 4 0,1 1,1 1,0 2,0 2,1\npath 1 3 1,0 1,0 1,1 1,2\n",
            CheckFault::C5(PlanFault::V5 { i: 0, j: 1, tick: 1 }),
        ),
    ] {
        let plan = with_lines(&crossing_plan(), replaced, lines);
        assert_eq!(judged(&problem, &plan, CROSSING_ONE), Err(refusal), "{plan}");
    }
}

#[test]
fn a_certificate_is_pulled_only_after_a_good_plan() {
    let mut source = FuseSource::of(CROSSING_ONE.as_bytes(), Pace::AllAtOnce, Some(0));
    let limit = b"mapf-plan 1\nagents 2\nlimit 3\nend\n";
    let answer = check_from(Global, &CROSSING.problem(), limit, &mut source, 999);
    assert_eq!(answer, Err(FromFault::Refused(CheckFault::C4)));
    assert!(!source.failed());
    assert_eq!(judged_from(&mut source, 999), Err(FromFault::Device));
}
