//! Plans that are valid, and each fault that one can have.
use super::{CROSSING_PLAN, OPEN, assert_told, crossing, problem};
use mapf::{Cell, Error, InvalidPlan, Plan, Problem, validate, validate_paths};

/// The path of agent 0 of the crossing in `CROSSING_PLAN`, and that of agent 1.
const FIRST: &[Cell] = &[(0, 1), (0, 1), (1, 1), (2, 1)];
const SECOND: &[Cell] = &[(1, 0), (1, 1), (1, 2)];

#[test]
fn plans_tell_what_they_are_of() {
    let plan = Plan::from_text(&crossing(), CROSSING_PLAN).expect("a plan");
    assert_eq!(plan.paths(), [FIRST, SECOND]);
    assert_eq!((plan.cost(), plan.makespan()), (5, 3));
    let wanted =
        [(0, 0, (0, 1)), (0, 2, (1, 1)), (0, 3, (2, 1)), (1, 2, (1, 2)), (1, 3, (1, 2)), (1, u32::MAX, (1, 2))];
    for (agent, tick, cell) in wanted {
        assert_eq!(plan.cell(agent, tick), Some(cell), "agent {agent} at tick {tick}");
    }
    assert_eq!((plan.cell(2, 0), plan.cell(u32::MAX, u32::MAX)), (None, None));
    assert_eq!(plan.to_text().as_deref(), Ok(CROSSING_PLAN.as_bytes()));
    assert_eq!(validate(&crossing(), CROSSING_PLAN), Ok(5));
}

#[test]
fn waits_at_the_end_cost_nothing() {
    let padded = [(1, 0), (1, 1), (1, 2), (1, 2), (1, 2)];
    let plan = Plan::new(&crossing(), &[FIRST, &padded]).expect("a plan");
    assert_eq!(plan.paths(), [FIRST, SECOND]);
    assert_eq!(validate_paths(&crossing(), &[FIRST, &padded]), Ok(5));
    let resting = problem(&["."], &[((0, 0), (0, 0))]);
    assert_eq!(validate_paths(&resting, &[vec![(0, 0); 1_000]]), Ok(0));
    // An agent that leaves its goal again arrives when it is back.
    let leaving = problem(&[".."], &[((0, 0), (0, 0))]);
    assert_eq!(validate_paths(&leaving, &[[(0, 0), (1, 0), (0, 0), (0, 0)]]), Ok(2));
}

#[test]
fn following_and_cycles_are_allowed() {
    let square = problem(&["..", ".."], &[((0, 0), (1, 0)), ((1, 0), (1, 1)), ((1, 1), (0, 1)), ((0, 1), (0, 0))]);
    let paths = [[(0, 0), (1, 0)], [(1, 0), (1, 1)], [(1, 1), (0, 1)], [(0, 1), (0, 0)]];
    assert_eq!(validate_paths(&square, &paths), Ok(4));
}

/// The problem, the paths, what is wrong first, the words and the code.
type Fault<'a> = (Problem, Vec<&'a [Cell]>, InvalidPlan, &'a str, Option<&'a str>);

#[test]
fn each_fault_is_told_in_words() {
    let step = |agent, tick| InvalidPlan::Step { agent, tick };
    let no_step = "the step of agent 0 from tick 0 on is neither a wait nor a move to an adjacent free cell";
    let no_start = "the path of agent 0 doesn't begin at the agent's start";
    let walled = problem(&[".@", ".."], &[((0, 0), (1, 1))]);
    let opposite = problem(&["..", "@."], &[((0, 0), (1, 0)), ((1, 0), (0, 0))]);
    let table: [Fault; 18] = [
        (
            crossing(),
            vec![&[(0, 1), (1, 1), (2, 1)], &[(1, 0), (1, 1), (1, 2)]],
            InvalidPlan::VertexConflict { agents: [0, 1], tick: 1 },
            "vertex conflict: agents 0 and 1 are in one cell at tick 1",
            Some("F3 V4 0 1 1"),
        ),
        (
            opposite,
            vec![&[(0, 0), (1, 0)], &[(1, 0), (0, 0)]],
            InvalidPlan::SwappingConflict { agents: [0, 1], tick: 0 },
            "swapping conflict: agents 0 and 1 exchange their cells from tick 0 to the next",
            Some("F3 V5 0 1 0"),
        ),
        // One that has arrived is still in the way.
        (
            problem(&["...."], &[((1, 0), (2, 0)), ((0, 0), (3, 0))]),
            vec![&[(1, 0), (2, 0)], &[(0, 0), (0, 0), (1, 0), (2, 0), (3, 0)]],
            InvalidPlan::VertexConflict { agents: [0, 1], tick: 3 },
            "vertex conflict: agents 0 and 1 are in one cell at tick 3",
            Some("F3 V4 0 1 3"),
        ),
        (crossing(), vec![&[(0, 1), (1, 2), (2, 1)], SECOND], step(0, 0), no_step, Some("F3 V2 0 0")),
        (crossing(), vec![&[(0, 1), (2, 1)], SECOND], step(0, 0), no_step, Some("F3 V2 0 0")),
        (walled.clone(), vec![&[(0, 0), (1, 0), (1, 1)]], step(0, 0), no_step, Some("F3 V2 0 0")),
        (walled.clone(), vec![&[(0, 0), (0, 2), (1, 1)]], step(0, 0), no_step, Some("F3 V2 0 0")),
        (walled.clone(), vec![&[(0, 0), (u32::MAX, u32::MAX), (1, 1)]], step(0, 0), no_step, Some("F3 V2 0 0")),
        // Beyond the right side of a row isn't the beginning of the next one.
        (walled.clone(), vec![&[(0, 0), (2, 0), (1, 1)]], step(0, 0), no_step, Some("F3 V2 0 0")),
        (
            walled.clone(),
            vec![&[(0, 0), (0, 1), (9, 9), (9, 9)]],
            step(0, 1),
            "the step of agent 0 from tick 1 on is neither a wait nor a move to an adjacent free cell",
            Some("F3 V2 0 1"),
        ),
        (walled.clone(), vec![&[(0, 1), (1, 1)]], InvalidPlan::Start { agent: 0 }, no_start, Some("F3 V1 0")),
        (walled.clone(), vec![&[(9, 9)]], InvalidPlan::Start { agent: 0 }, no_start, Some("F3 V1 0")),
        (
            walled.clone(),
            vec![&[(0, 0), (0, 1)]],
            InvalidPlan::Goal { agent: 0 },
            "the path of agent 0 doesn't end at the agent's goal",
            Some("F3 V3 0"),
        ),
        // The least agent comes first, and what concerns one agent before what concerns two.
        (
            crossing(),
            vec![&[(0, 1), (1, 1), (2, 1)], &[(1, 0), (1, 1), (0, 2)]],
            step(1, 1),
            "the step of agent 1 from tick 1 on is neither a wait nor a move to an adjacent free cell",
            Some("F3 V2 1 1"),
        ),
        (
            crossing(),
            vec![FIRST],
            InvalidPlan::PathCount { paths: 1, agents: 2 },
            "there are 2 agents and 1 paths",
            None,
        ),
        (
            crossing(),
            vec![FIRST, SECOND, FIRST],
            InvalidPlan::PathCount { paths: 3, agents: 2 },
            "there are 2 agents and 3 paths",
            None,
        ),
        (crossing(), vec![], InvalidPlan::PathCount { paths: 0, agents: 2 }, "there are 2 agents and 0 paths", None),
        (crossing(), vec![FIRST, &[]], InvalidPlan::EmptyPath { agent: 1 }, "the path of agent 1 has no cell", None),
    ];
    for (problem, paths, why, words, code) in table {
        let error = Error::InvalidPlan(why);
        assert_eq!(validate_paths(&problem, &paths), Err(error));
        assert_eq!(Plan::new(&problem, &paths), Err(error));
        assert_eq!(mapf::check_paths(&problem, &paths, ""), Err(error));
        assert_eq!(why.to_string(), words);
        assert_told(error, &format!("the plan isn't valid: {words}"), code);
    }
}

#[test]
fn a_path_has_at_most_ten_million_cells() {
    let problem = problem(&[".."], &[((0, 0), (0, 0))]);
    let path: Vec<Cell> = (0..10_000_001).map(|tick| (tick % 2, 0)).collect();
    let error = validate_paths(&problem, &[path]).expect_err("too long");
    assert_told(error, "the plan isn't valid: the path of agent 0 has more than 10,000,000 cells", None);
}

#[test]
fn faults_of_plan_texts_are_told() {
    let whole = |answer: &str| format!("mapf-plan 2\nagents 2\n{answer}\nend\n");
    let paths = |first: &str, second: &str| whole(&format!("cost 5\npath 0 3 {first}\npath 1 2 {second}"));
    let second = "1,0 1,1 1,2";
    let table = [
        (String::new(), "PlanText", "the text ends where line 1 should begin, or before its end", "F3 P2 1"),
        (
            "mapf-plan 3\n".to_owned(),
            "PlanText",
            "line 1 has another shape than it must have, or doesn't fit",
            "F3 P1 1",
        ),
        (whole("cost 5"), "PlanText", "line 4 has another shape than it must have, or doesn't fit", "F3 P1 4"),
        (paths("0,1 0,1 1,1 3,1", second), "PlanText", "a number in line 4 is out of range", "F3 P3 4"),
        (format!("{CROSSING_PLAN}\n"), "PlanText", "something follows the line 'end'; it begins at line 7", "F3 P4 7"),
        (whole("impossible"), "PlanText", "the plan text holds no plan", "F3 none"),
        (
            "mapf-plan 2\nagents 1\ncost 0\npath 0 0 0,1\nend\n".to_owned(),
            "PlanText",
            "its number of agents isn't that of the problem",
            "F3 count",
        ),
        (
            paths("0,1 1,1 1,1 2,1", second),
            "InvalidPlan",
            "vertex conflict: agents 0 and 1 are in one cell at tick 1",
            "F3 V4 0 1 1",
        ),
        (
            paths("0,1 0,1 1,1 2,1", "0,0 1,0 1,1"),
            "InvalidPlan",
            "the path of agent 1 doesn't begin at the agent's start",
            "F3 V1 1",
        ),
    ];
    for (text, kind, reason, code) in table {
        let error = validate(&crossing(), &text).expect_err(code);
        assert_eq!(Plan::from_text(&crossing(), &text), Err(error));
        assert!(format!("{error:?}").starts_with(kind), "{error:?}");
        let subject = if kind == "PlanText" { "the plan text can't be used" } else { "the plan isn't valid" };
        assert_told(error, &format!("{subject}: {reason}"), Some(code));
    }
}

#[test]
fn a_plan_is_one_of_its_problem() {
    let other = problem(&OPEN, &[((0, 1), (2, 1)), ((1, 0), (1, 1))]);
    let error = Plan::from_text(&other, CROSSING_PLAN).expect_err("another goal");
    assert_eq!(error, Error::InvalidPlan(InvalidPlan::Goal { agent: 1 }));
}
