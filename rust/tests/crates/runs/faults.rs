//! The error of a bad map or scenario, which each run that reads them names, and which comes before all that is judged
//! later.
use crate::crates::mapf_app::{Fault, MapFault, ScenFault, Search};
use crate::problems::Given;
use crate::running::{Solved, check, dispatch, play, solve, solve_by};

/// Each run on these inputs ends with this error, and writes nothing.
#[track_caller]
fn assert_fault(given: &Given, fault: Fault) {
    let unwritten = (Err(fault), String::new());
    assert_eq!(solve(given, 0), unsolved(fault), "{given:?}");
    assert_eq!(solve_by(given, Search::Cbs, 0), unsolved(fault), "{given:?}");
    assert_eq!(solve_by(given, Search::Cbsh, 0), unsolved(fault), "{given:?}");
    assert_eq!(check(given, "", ""), Err(fault), "{given:?}");
    assert_eq!(play(given, ""), unwritten, "{given:?}");
    assert_eq!(dispatch(given, "", ""), unwritten, "{given:?}");
}

/// A search that ended with this error and wrote nothing.
fn unsolved<A>(fault: Fault) -> Solved<A> {
    Solved { answer: Err(fault), plan: String::new(), cert: String::new() }
}

#[test]
fn each_run_names_the_error_of_the_map() {
    for (map, fault) in [
        ("type tile\n", MapFault::M1),
        ("type octile\nheight two\n", MapFault::M2),
        ("type octile\nheight 2\nheight 2\n", MapFault::M3),
        ("type octile\nheight 0\nwidth 3\nmap\n", MapFault::M4 { line: 2 }),
        ("type octile\nheight 2\nwidth 2049\nmap\n...\n...\n", MapFault::M4 { line: 3 }),
        ("type octile\nheight 2\nwidth 3\n...\n...\n", MapFault::M5),
        ("type octile\nheight 2\nwidth 3\nmap\n...\n..\n", MapFault::M6 { row: 1 }),
        ("type octile\nheight 2\nwidth 3\nmap\n..x\n...\n", MapFault::M7 { x: 2, y: 0 }),
        ("type octile\nheight 2\nwidth 3\nmap\n...\n", MapFault::M8 { rows: 1 }),
        ("type octile\nheight 2\nwidth 3\nmap\n...\n...\n.\n", MapFault::M9 { line: 7 }),
    ] {
        assert_fault(&Given { map, scen: "", k: 1 }, Fault::F1(fault));
    }
}

/// A map whose upper right cell is blocked.
const CORNER: &str = "type octile\nheight 2\nwidth 3\nmap\n..T\n...\n";

#[test]
fn each_run_names_the_error_of_the_scenario() {
    for (scen, k, fault) in [
        ("version 2\n", 1, ScenFault::S1),
        ("version 1\n0 a 3 2 0 0 1 0 1\n0 a 3 2 0 1 1 1\n", 2, ScenFault::S2 { row: 1 }),
        ("version 1\n0 a 3 2 0 0 x 0 1\n", 1, ScenFault::S3 { row: 0, field: 7 }),
        ("version 1\n0 a 3 3 0 0 1 0 1\n", 1, ScenFault::S4 { row: 0 }),
        ("version 1\n0 a 3 2 0 0 2 0 2\n", 1, ScenFault::S5 { row: 0 }),
        ("version 1\n0 a 3 2 0 0 1 0 1.4.1\n", 1, ScenFault::S6 { row: 0 }),
        // S5 comes before S6.
        ("version 1\n0 a 3 2 0 0 2 0 1.4.1\n", 1, ScenFault::S5 { row: 0 }),
        ("version 1\n0 a 3 2 0 0 1 0 1\n0 a 3 2 0 1 1 1 1\n", 3, ScenFault::S7 { rows: 2 }),
        ("version 1.0", 200, ScenFault::S7 { rows: 0 }),
    ] {
        assert_fault(&Given { map: CORNER, scen, k }, Fault::F2(fault));
    }
}
