//! The calls for programs in Rust. What is wanted comes from the documents and from tests/cases, whose texts some of the
//! problems here have, and not from what the calls gave.
#[path = "api/checking.rs"]
mod checking;
#[path = "api/damaged.rs"]
mod damaged;
#[path = "api/dispatching.rs"]
mod dispatching;
#[path = "api/memory.rs"]
mod memory;
#[path = "api/plans.rs"]
mod plans;
#[path = "api/problems.rs"]
mod problems;
mod refusing;
#[path = "api/solving.rs"]
mod solving;

use mapf::{Cell, Error, Problem};

/// Rows of a grid that is free all over.
const OPEN: [&str; 3] = ["...", "...", "..."];

/// The plan text of a valid plan for two agents whose shortest paths cross: `tests/cases/solve-crossing`.
const CROSSING_PLAN: &str = "mapf-plan 2\nagents 2\ncost 5\npath 0 3 0,1 0,1 1,1 2,1\npath 1 2 1,0 1,1 1,2\nend\n";

/// A certificate that shows that no valid plan costs less: `tests/cases/check-crossing-in-version-two`.
const CROSSING_CERTIFICATE: &str = "mapf-cert 2\nagents 2\nclaim cost 5\nvertex 0 1 1,1 1 0\n\
    leaf 1\nagent 0 1\nat 0,1 0 3\nleaf 1\nagent 1 1\nat 1,0 0 3\nend\n";

/// A problem of agents that go from the first cell of a pair to the second.
#[track_caller]
fn problem(rows: &[&str], agents: &[(Cell, Cell)]) -> Problem {
    let (starts, goals): (Vec<Cell>, Vec<Cell>) = agents.iter().copied().unzip();
    Problem::from_rows(rows, &starts, &goals).expect("a problem")
}

/// Two agents whose shortest paths cross in the middle of nine cells.
fn crossing() -> Problem {
    problem(&OPEN, &[((0, 1), (2, 1)), ((1, 0), (1, 2))])
}

/// The problem of the first agents of an example.
fn example(name: &str, agents: usize) -> Problem {
    let text = |ending| std::fs::read(format!("{}/examples/{name}.{ending}", env!("CARGO_MANIFEST_DIR")));
    let (map, scenario) = (text("map").expect("a map"), text("scen").expect("a scenario"));
    Problem::from_movingai(map, scenario, agents).expect("a problem")
}

/// Tries the words of an error, and that its code stands in them.
#[track_caller]
fn assert_told(error: Error, words: &str, code: Option<&str>) {
    assert_eq!(error.code().map(|code| code.to_string()).as_deref(), code, "{error}");
    let wanted = code.map_or(words.to_owned(), |code| format!("{words} ({code})"));
    assert_eq!(error.to_string(), wanted);
}
