//! Texts of scenarios: the agents that are read, and the first error.
use crate::crates::mapf_model::{Agent, Cell, Problem};
use crate::crates::mapf_text::ScenFault::{self, S1, S2, S3, S4, S5, S6, S7};
use crate::crates::mapf_text::read_scen;
use crate::made::grid_of;
use crate::problems::CROSSING_SCEN;
use crate::rattle_std::alloc::Global;

/// What a scenario of so many agents is on the grid of these rows.
fn read(rows: &str, text: &str, agents: u32) -> Result<Problem, ScenFault> {
    read_scen(Global, text.as_bytes(), grid_of(rows), agents)
}

const OPEN: &str = "... ... ...";

/// The error of the first so many bytes of the crossing's scenario.
fn front_fault(length: usize) -> Option<ScenFault> {
    match length {
        0..=8 => Some(S1),
        9..=10 => Some(S7 { rows: 0 }),
        11..=34 => Some(S2 { row: 0 }),
        35..=36 => Some(S7 { rows: 1 }),
        37..=60 => Some(S2 { row: 1 }),
        // The line end of the last row may be missing.
        _ => None,
    }
}

#[test]
fn each_front_of_a_scenario_ends_early() {
    assert_eq!(CROSSING_SCEN.len(), 62);
    for length in 0..=CROSSING_SCEN.len() {
        assert_eq!(read(OPEN, &CROSSING_SCEN[..length], 2).err(), front_fault(length), "{length} bytes");
    }
}

#[test]
fn agents_are_read() {
    let problem = read(OPEN, CROSSING_SCEN, 2).expect("a problem");
    let agent = |start, goal| Agent { start: Cell(start), goal: Cell(goal) };
    assert_eq!(problem.agents(), [agent(3, 5), agent(1, 7)]);
    assert_eq!(problem.grid().width(), 3);
}

/// A grid with its last cell of the first row blocked.
const BLOCKED: &str = "..@ ...";

#[test]
fn blanks_zeros_and_text_after_the_rows_are_taken() {
    for (text, agents) in [
        ("version 1.0\r\n0\tm 3  2 0 0 0 1 1.50\r", 1),
        ("\n \t\r\n version  1 \n\n007 m 03 2 00 0 0 1 -1.5E-7\n\n\r\n0 m 3 2 0 0 0 1 +0", 2),
        // Nothing after the rows is looked at.
        ("version 1\n0 m 3 2 0 0 0 1 1\nx\n", 1),
    ] {
        assert_eq!(read(BLOCKED, text, agents).err(), None, "{text:?}");
    }
}

#[test]
fn other_first_lines_are_refused() {
    for text in ["\n\n", "version 1.00\n", "version 01\n", "version 1 x\n", "0 m 3 2 0 0 0 1 1\n"] {
        assert_eq!(read(BLOCKED, text, 1).err(), Some(S1), "{text:?}");
    }
}

/// The error of a scenario with these rows, each of which is one of an agent.
fn fault_of_rows(rows: &[&str]) -> Option<ScenFault> {
    let text = format!("version 1\n{}\n", rows.join("\n"));
    read(BLOCKED, &text, rows.len() as u32).err()
}

#[test]
fn wrong_rows_are_refused() {
    for (row, fault) in [
        ("0 m +3 2 0 0 0 1 1", S3 { row: 0, field: 3 }),
        ("0 m 9 -2 0 0 0 1 1", S3 { row: 0, field: 4 }),
        ("0 m 3 2 0 y 0 1 1", S3 { row: 0, field: 6 }),
        ("0 m 3 2 0 0 1. 1 1", S3 { row: 0, field: 7 }),
        ("0 m 3 2 0 0 0 99999999999999999999 1", S3 { row: 0, field: 8 }),
        ("0 m 3 3 0 0 0 1 1", S4 { row: 0 }),
        ("0 m 3 2 4294967295 0 0 1 1", S5 { row: 0 }),
        ("0 m 3 2 2 0 0 0 1", S5 { row: 0 }),
        ("0 m 3 2 0 0 0 2 1", S5 { row: 0 }),
        ("0 m 3 2 0 0 3 0 1", S5 { row: 0 }),
        // A row's words are counted before they are read, and its fields come in their order.
        ("x m x 9 9 9 9 x", S2 { row: 0 }),
        ("x m x 2 0 0 0 1 x", S3 { row: 0, field: 1 }),
        ("0 m 9 2 0 0 0 x 1", S3 { row: 0, field: 8 }),
        ("0 m 2 3 5 5 5 5 x", S4 { row: 0 }),
    ] {
        assert_eq!(fault_of_rows(&[row]), Some(fault), "{row}");
    }
}

#[test]
fn the_first_wrong_row_is_told() {
    let good = "0 m 3 2 0 0 0 1 1";
    assert_eq!(fault_of_rows(&[good, "0 m 3 2 0 0 0 1 1 1"]), Some(S2 { row: 1 }));
    assert_eq!(fault_of_rows(&["0 m 3 2 0 0 0 1 x", "0 m"]), Some(S6 { row: 0 }));
    assert_eq!(fault_of_rows(&[good, "0 m 3 2 0 0 1 1 1", "0 m 3 2 2 0 1 1 1"]), Some(S5 { row: 2 }));
}

#[test]
fn lengths_are_decimal_numbers() {
    let fault_of = |length| fault_of_rows(&[&format!("0 m 3 2 0 0 0 1 {length}")]);
    for length in ["0", "+1", "-1", "007", "1.5", "1e5", "1E-5", "1.25e+02", "1e+02"] {
        assert_eq!(fault_of(length), None, "{length}");
    }
    for length in
        ["+", "+-1", ".5", "1.", "1.e5", "1e", "1e+", "e5", "1e5.5", "1.4.1", "1e5e5", "1x", "x1", "1,5", "inf"]
    {
        assert_eq!(fault_of(length), Some(S6 { row: 0 }), "{length}");
    }
    assert_eq!(fault_of(""), Some(S2 { row: 0 }));
}
