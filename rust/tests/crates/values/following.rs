//! The replies to agents that follow a plan, also beside those of a slower dispatcher, which looks at all visits of all
//! agents.
use crate::crates::mapf_checker::check_plan;
use crate::crates::mapf_model::{Cell, Path, Plan, Problem};
use crate::crates::mapf_player::{Dispatch, Reply, dispatch_all, read_events};
use crate::made::{Drawn, grid, list, path_of, plan_of, problem_of, problem_on};
use crate::problems::{
    CROSSING, CROSSING_PLAN, CROSSING_TOLD, Given, NICHE, NICHE_PLAN, ROTATION, ROTATION_PLAN, event_text,
};
use crate::rattle_std::alloc::Global;
use crate::running::{sink, text_in};
use std::collections::HashSet;

/// The agents of a plan, which has to be valid, before they move.
fn followers(problem: &Problem, plan: &Plan) -> Dispatch {
    check_plan(problem, plan).expect("a valid plan");
    Dispatch::new(Global, plan).expect("memory")
}

/// Agents that follow a plan text get these replies, each when it asks.
#[track_caller]
fn assert_replies(given: &Given, plan: &str, replies: &[(u32, Reply)]) {
    let mut followers = followers(&given.problem(), &given.plan(plan));
    for (place, &(agent, reply)) in replies.iter().enumerate() {
        assert_eq!(followers.ask(agent), reply, "request {place}, of agent {agent}");
    }
}

#[test]
fn agents_that_cross_get_replies() {
    let replies = [
        (0, Reply::Hold { other: 1 }),
        (1, Reply::Go(Cell(4))),
        (0, Reply::Hold { other: 1 }),
        (1, Reply::Go(Cell(7))),
        (0, Reply::Go(Cell(4))),
        (0, Reply::Go(Cell(5))),
        (0, Reply::Done),
    ];
    assert_replies(&CROSSING, CROSSING_PLAN, &replies);
}

#[test]
fn agents_that_rotate_are_held() {
    let replies = [(0, 1), (1, 2), (2, 3), (3, 0)].map(|(agent, other)| (agent, Reply::Hold { other }));
    assert_replies(&ROTATION, ROTATION_PLAN, &replies);
}

#[test]
fn an_agent_that_steps_aside_gets_replies() {
    let replies = [
        (1, Reply::Go(Cell(4))),
        (1, Reply::Hold { other: 0 }),
        (0, Reply::Go(Cell(1))),
        (1, Reply::Hold { other: 0 }),
        (0, Reply::Go(Cell(2))),
        (1, Reply::Go(Cell(1))),
        (0, Reply::Done),
        (1, Reply::Done),
    ];
    assert_replies(&NICHE, NICHE_PLAN, &replies);
}

#[test]
fn two_event_texts_are_told_the_same_as_one() {
    let asking = [0, 1, 0, 1, 0, 0, 0];
    let problem = CROSSING.problem();
    for place in 0..=asking.len() {
        let mut dispatch = followers(&problem, &CROSSING.plan(CROSSING_PLAN));
        let mut told = sink();
        for agents in [&asking[..place], &asking[place..]] {
            let agents = read_events(Global, event_text(agents).as_bytes(), 2).expect("events");
            dispatch_all(&mut dispatch, problem.grid(), &agents, &mut told).expect("room");
        }
        assert_eq!(text_in(&told), CROSSING_TOLD, "{place}");
    }
}

/// An agent on its way: its stays in cells, each with the tick of the plan in which it begins, and how many of them it
/// has left.
struct Way {
    stays: Vec<(Cell, usize)>,
    left: usize,
}

impl Way {
    fn of(path: &Path) -> Way {
        let mut stays: Vec<(Cell, usize)> = path.cells().iter().copied().zip(0..).collect();
        stays.dedup_by_key(|&mut (cell, _)| cell);
        Way { stays, left: 0 }
    }

    /// Whether the agent has a stay in the cell that begins before this tick, and hasn't left it.
    fn is_awaited(&self, cell: Cell, tick: usize) -> bool {
        self.stays[self.left..].iter().any(|&(own, entry)| own == cell && entry < tick)
    }
}

/// The slower dispatcher's reply.
fn ask_slowly(ways: &mut [Way], agent: usize) -> Reply {
    let own = &ways[agent];
    let Some(&(cell, tick)) = own.stays.get(own.left + 1) else {
        return Reply::Done;
    };
    let mut others = (0..ways.len()).filter(|&other| other != agent);
    if let Some(other) = others.find(|&other| ways[other].is_awaited(cell, tick)) {
        return Reply::Hold { other: other as u32 };
    }
    ways[agent].left += 1;
    Reply::Go(cell)
}

/// Agents that ask both dispatchers.
struct Both {
    dispatch: Dispatch,
    ways: Vec<Way>,
}

impl Both {
    fn of(problem: &Problem, plan: &Plan) -> Both {
        Both { dispatch: followers(problem, plan), ways: plan.paths().iter().map(Way::of).collect() }
    }

    /// The reply, which both give.
    #[track_caller]
    fn ask(&mut self, agent: u32) -> Reply {
        let reply = self.dispatch.ask(agent);
        assert_eq!(reply, ask_slowly(&mut self.ways, agent as usize), "agent {agent}");
        reply
    }
}

/// Three agents that go through one cell, the last first.
fn queue() -> (Problem, Plan) {
    let problem = problem_of("@.@ ... @.@ @.@ @.@", &[(3, 7), (1, 10), (5, 13)]);
    (problem, plan_of(&[&[3, 3, 3, 4, 7], &[1, 1, 4, 7, 10], &[5, 4, 7, 10, 13]]))
}

// Each shorter list is a prefix of some of these.
#[test]
fn each_list_of_seven_events_gets_its_replies() {
    let crossing = (CROSSING.problem(), CROSSING.plan(CROSSING_PLAN));
    let rotation = (ROTATION.problem(), ROTATION.plan(ROTATION_PLAN));
    for (problem, plan) in [crossing, rotation, queue()] {
        let count = problem.agents().len() as u32;
        for list in 0..count.pow(7) {
            let mut agents = Both::of(&problem, &plan);
            (0..7).for_each(|place| _ = agents.ask(list / count.pow(place) % count));
        }
    }
}

/// A stretch of a path: its first cell, by how much the number of each later cell is greater than that of the one
/// before, and how many cells there are.
type Stretch = (u32, u32, u32);

/// Three agents that go down a column before those in the rows cross it, three that wait until all have crossed it and
/// then rest on the way, and two by turns in one cell of the first row.
const COLUMNS: [&[Stretch]; 8] = [
    &[(17, 20, 18)],
    &[(18, 20, 18)],
    &[(19, 20, 18)],
    &[(3, 0, 3), (3, 20, 6), (103, 0, 2), (123, 20, 12)],
    &[(6, 0, 6), (6, 20, 6), (106, 0, 2), (126, 20, 12)],
    &[(9, 0, 9), (9, 20, 6), (109, 0, 2), (129, 20, 12)],
    &[(1, 0, 1), (0, 1, 2)],
    &[(2, 0, 1), (1, 1, 2)],
];

/// The path of these stretches.
fn path_along(stretches: &[Stretch]) -> Path {
    let cells = stretches.iter().flat_map(|&(first, step, count)| (0..count).map(move |place| first + step * place));
    path_of(&cells.collect::<Vec<_>>())
}

/// The cells in which a path begins and ends.
fn ends_of(path: &Path) -> (u32, u32) {
    let cells = path.cells();
    (cells[0].0, cells[cells.len() - 1].0)
}

/// An open map of 20 columns and 18 rows with a plan for 24 agents: sixteen cross it in the rows below the first, the
/// others go as above.
fn crowd() -> (Problem, Plan) {
    let rows = (1..17).map(|row| path_along(&[(row * 20, 1, 20)]));
    let plan = Plan::of(list(rows.chain(COLUMNS.map(path_along)))).expect("a plan");
    let ends: Vec<(u32, u32)> = plan.paths().iter().map(ends_of).collect();
    (problem_on(grid(20, 18, |_, _| true), &ends), plan)
}

#[test]
fn many_agents_that_ask_by_chance_are_kept_apart() {
    let (problem, plan) = crowd();
    let mut agents = Both::of(&problem, &plan);
    let mut cells: Vec<u32> = problem.agents().iter().map(|agent| agent.start.0).collect();
    let mut numbers = Drawn::of(1);
    for _ in 0..4000 {
        let agent = numbers.below(24);
        if let Reply::Go(cell) = agents.ask(agent) {
            cells[agent as usize] = cell.0;
        }
        assert_eq!(cells.iter().collect::<HashSet<_>>().len(), 24, "{cells:?}");
    }
    for (number, agent) in (0..).zip(problem.agents()) {
        assert_eq!(agents.ask(number), Reply::Done);
        assert_eq!(cells[number as usize], agent.goal.0);
    }
}
