//! Agents that follow a plan with delays, as docs/USE.md and tests/cases have it.
use super::{CROSSING_PLAN, OPEN, assert_told, crossing, problem};
use mapf::{Dispatcher, Error, InvalidPlan, Plan, Problem, Reply, Visit};

fn dispatcher(problem: &Problem, plan_text: &str) -> Dispatcher {
    let plan = Plan::from_text(problem, plan_text).expect("a plan");
    Dispatcher::new(problem, &plan).expect("a dispatcher")
}

#[test]
fn agents_keep_the_order_of_the_plan() {
    let mut dispatcher = dispatcher(&crossing(), CROSSING_PLAN);
    let wanted = [
        (0, Reply::Hold { by: 1 }),
        (1, Reply::Go((1, 1))),
        (0, Reply::Hold { by: 1 }),
        (1, Reply::Go((1, 2))),
        (0, Reply::Go((1, 1))),
        (0, Reply::Go((2, 1))),
        (0, Reply::Done),
        (1, Reply::Done),
    ];
    for (number, (agent, reply)) in wanted.into_iter().enumerate() {
        assert_eq!(dispatcher.is_done(), number >= 6, "before question {number}");
        assert_eq!(dispatcher.ask(agent), Ok(reply), "question {number}");
        assert_eq!(dispatcher.in_cycles().count(), 0);
    }
}

#[test]
fn where_agents_are_and_go_is_told() {
    let mut dispatcher = dispatcher(&crossing(), CROSSING_PLAN);
    let visits: Vec<Visit> = dispatcher.visits(0).expect("visits").collect();
    // The wait from tick 0 on is left out.
    let wanted = [((0, 1), 0), ((1, 1), 2), ((2, 1), 3)];
    assert_eq!(visits, wanted.map(|(cell, tick)| Visit { cell, tick }));
    assert_eq!(dispatcher.visits(1).expect("visits").len(), 3);
    assert_eq!((dispatcher.agents(), dispatcher.is_done()), (2, false));
    assert_eq!((dispatcher.holder(0), dispatcher.holder(1)), (Ok(Some(1)), Ok(None)));
    for cell in [(1, 0), (1, 1), (1, 2)] {
        assert_eq!(dispatcher.cell(1), Ok(cell));
        let _ = dispatcher.ask(1).expect("a reply");
    }
    assert_eq!((dispatcher.cell(1), dispatcher.cell(0)), (Ok((1, 2)), Ok((0, 1))));
    assert_eq!((dispatcher.holder(0), dispatcher.holder(1)), (Ok(None), Ok(None)));
}

#[test]
fn agents_in_a_full_cycle_are_told() {
    let agents = [((0, 0), (1, 0)), ((1, 0), (1, 1)), ((1, 1), (0, 1)), ((0, 1), (0, 0))];
    let text = "mapf-plan 2\nagents 4\ncost 4\npath 0 1 0,0 1,0\npath 1 1 1,0 1,1\npath 2 1 1,1 0,1\n\
                path 3 1 0,1 0,0\nend\n";
    let mut dispatcher = dispatcher(&problem(&["..", ".."], &agents), text);
    for agent in 0..4 {
        assert_eq!(dispatcher.ask(agent), Ok(Reply::Hold { by: (agent + 1) % 4 }));
        assert_eq!(dispatcher.holder(agent), Ok(Some((agent + 1) % 4)));
    }
    assert_eq!(dispatcher.in_cycles().collect::<Vec<_>>(), [0, 1, 2, 3]);
    assert!(!dispatcher.is_done());
}

#[test]
fn whoever_waits_for_a_cycle_isnt_in_it() {
    // Agents 1 to 4 turn in a square of four cells. Then agent 1 makes room for agent 4, and agent 0 follows that one.
    let paths = [
        vec![(0, 0), (0, 0), (1, 0)],
        vec![(1, 0), (2, 0), (3, 0)],
        vec![(2, 0), (2, 1)],
        vec![(2, 1), (1, 1)],
        vec![(1, 1), (1, 0), (2, 0)],
    ];
    let agents: Vec<_> = paths.iter().map(|path| (path[0], path[path.len() - 1])).collect();
    let problem = problem(&["....", "@..@"], &agents);
    let plan = Plan::new(&problem, &paths).expect("a plan");
    let dispatcher = Dispatcher::new(&problem, &plan).expect("a dispatcher");
    assert_eq!(dispatcher.holder(0), Ok(Some(1)));
    assert_eq!(dispatcher.in_cycles().collect::<Vec<_>>(), [1, 2, 3, 4]);
}

#[test]
fn an_agent_that_isnt_there_changes_nothing() {
    let mut dispatcher = dispatcher(&crossing(), CROSSING_PLAN);
    for agent in [2, 200, u32::MAX] {
        let error = Error::NoAgent { agent, agents: 2 };
        assert_eq!(dispatcher.ask(agent), Err(error));
        assert_eq!(dispatcher.cell(agent), Err(error));
        assert_eq!(dispatcher.holder(agent), Err(error));
        assert_eq!(dispatcher.visits(agent).err(), Some(error));
        assert_told(error, &format!("there is no agent {agent}: there are 2, counted from 0"), None);
    }
    assert_eq!((dispatcher.cell(0), dispatcher.cell(1)), (Ok((0, 1)), Ok((1, 0))));
}

#[test]
fn a_plan_of_another_problem_is_refused() {
    let plan = Plan::from_text(&crossing(), CROSSING_PLAN).expect("a plan");
    let fewer = problem(&OPEN, &[((0, 1), (2, 1))]);
    let other = problem(&OPEN, &[((0, 0), (2, 1)), ((1, 0), (1, 2))]);
    let blocked = problem(&["..@", "...", "@.."], &[((0, 1), (2, 1)), ((1, 0), (1, 2))]);
    let count = InvalidPlan::PathCount { paths: 2, agents: 1 };
    assert_eq!(Dispatcher::new(&fewer, &plan).err(), Some(Error::InvalidPlan(count)));
    let start = InvalidPlan::Start { agent: 0 };
    assert_eq!(Dispatcher::new(&other, &plan).err(), Some(Error::InvalidPlan(start)));
    assert!(Dispatcher::new(&blocked, &plan).is_ok());
}
