//! Problems of arrays, of rows and of texts, and what is refused.
use super::{OPEN, assert_told, crossing, example, problem};
use mapf::{Cell, Error, Problem};

/// The text of a map of so many rows and columns.
fn map(height: &str, width: &str, rows: &str) -> String {
    format!("type octile\nheight {height}\nwidth {width}\nmap\n{rows}")
}

const SCENARIO: &str = "version 1\n0 a.map 2 2 0 0 1 1 0\n0 a.map 2 2 1 0 0 1 0\n";

#[test]
fn arrays_rows_and_texts_make_the_same_problem() {
    let starts = [(0, 0), (1, 0)];
    let goals = [(1, 1), (0, 0)];
    let of_vectors = Problem::new(&[vec![true, true], vec![false, true]], &starts, &goals).expect("a problem");
    let of_arrays = Problem::new(&[[true, true], [false, true]], &starts, &goals);
    let rows: [&[bool]; 2] = [&[true, true], &[false, true]];
    assert_eq!(of_arrays.as_ref(), Ok(&of_vectors));
    assert_eq!(Problem::new(&rows, &starts, &goals).as_ref(), Ok(&of_vectors));
    for signs in [["..", "@."], ["GS", "O."], ["..", "TS"], ["G.", "WG"]] {
        assert_eq!(Problem::from_rows(&signs, &starts, &goals).as_ref(), Ok(&of_vectors), "{signs:?}");
        let owned = signs.map(str::to_owned);
        assert_eq!(Problem::from_rows(&owned, &starts, &goals).as_ref(), Ok(&of_vectors));
    }
    let scenario = "version 1.0\r\n\n7 a b.map 2 2 0 0 1 1 1.5\n";
    assert!(Problem::from_movingai(map("2", "2", "..\n@.\n"), scenario, 1).is_err(), "ten words");
    let scenario = "version 1.0\r\n\n7 a.map 2 2 0 0 1 1 1.5\n 8 a.map 2 2 1 0 0 0 1e1\nand what follows isn't read";
    assert_eq!(Problem::from_movingai(map("2", "2", "..\n@."), scenario, 2).as_ref(), Ok(&of_vectors));
    let written = Problem::from_movingai(of_vectors.map_text(), of_vectors.scenario_text(), 2);
    assert_eq!(written.as_ref(), Ok(&of_vectors));
    assert_ne!(problem(&["..", ".."], &[((0, 0), (1, 1)), ((1, 0), (0, 0))]), of_vectors);
    assert_eq!(of_vectors.clone(), of_vectors);
}

#[test]
fn problems_tell_what_they_are_of() {
    let problem = problem(&["..@", "..."], &[((0, 0), (2, 1)), ((1, 1), (1, 1))]);
    assert_eq!((problem.agents(), problem.width(), problem.height()), (2, 3, 2));
    assert_eq!(problem.starts(), [(0, 0), (1, 1)]);
    assert_eq!(problem.goals(), [(2, 1), (1, 1)]);
    for (cell, is_free) in [((2, 0), false), ((2, 1), true), ((3, 1), false), ((0, 2), false)] {
        assert_eq!(problem.is_free(cell), is_free, "{cell:?}");
    }
    assert!(!problem.is_free((u32::MAX, u32::MAX)));
    let kept = example("random-32-32", 16);
    assert_eq!((kept.agents(), kept.width(), kept.height()), (16, 32, 32));
}

#[test]
fn the_greatest_problems_are_taken() {
    let cells: Vec<Cell> = (0..200).map(|x| (x, 0)).collect();
    let many = Problem::new(&[[true; 200]], &cells, &cells).expect("200 agents");
    assert_eq!(many.agents(), 200);
    let free = vec![vec![true; 2048]; 2048];
    let large = Problem::new(&free, &[(0, 0)], &[(2047, 2047)]).expect("2,048 rows and columns");
    assert!(large.is_free((2047, 2047)) && !large.is_free((2048, 2047)));
}

/// A grid, the starts, the goals, the error, its words and its code.
type Misuse<'a> = (&'a [&'a str], &'a [Cell], &'a [Cell], Error, &'a str, Option<&'a str>);

#[test]
fn misuse_of_arrays_is_told() {
    let many = [(0, 0); 201];
    let far = (u32::MAX, u32::MAX);
    let blocked = "agent 0 starts or ends outside of the grid or in a blocked cell";
    let table: &[Misuse] = &[
        (&OPEN, &[], &[], Error::AgentCount { agents: 0 }, "there are 0 agents, and there may be 1 to 200", None),
        (
            &OPEN,
            &many,
            &many,
            Error::AgentCount { agents: 201 },
            "there are 201 agents, and there may be 1 to 200",
            None,
        ),
        (
            &OPEN,
            &[(0, 0), (1, 0)],
            &[(0, 0)],
            Error::StartsAndGoals { starts: 2, goals: 1 },
            "there are 2 starts and 1 goals, and each agent has one of each",
            None,
        ),
        (
            &[],
            &[(0, 0)],
            &[(0, 0)],
            Error::GridSize { width: 0, height: 0 },
            "the grid has 0 columns and 0 rows, and there may be 1 to 2,048 of each",
            Some("F1 M4 2"),
        ),
        (
            &["", ""],
            &[(0, 0)],
            &[(0, 0)],
            Error::GridSize { width: 0, height: 2 },
            "the grid has 0 columns and 2 rows, and there may be 1 to 2,048 of each",
            Some("F1 M4 3"),
        ),
        (
            &["...", ".."],
            &[(0, 0)],
            &[(0, 0)],
            Error::RowLength { row: 1, length: 2, width: 3 },
            "row 1 of the grid has 2 cells, and row 0 has 3",
            Some("F1 M6 1"),
        ),
        (
            &["...", "...", "...."],
            &[(0, 0)],
            &[(0, 0)],
            Error::RowLength { row: 2, length: 4, width: 3 },
            "row 2 of the grid has 4 cells, and row 0 has 3",
            Some("F1 M6 2"),
        ),
        (&OPEN, &[(3, 0)], &[(0, 0)], Error::NotFree { agent: 0 }, blocked, Some("F2 S5 0")),
        (&OPEN, &[(0, 0)], &[(0, 3)], Error::NotFree { agent: 0 }, blocked, Some("F2 S5 0")),
        (&OPEN, &[far], &[(0, 0)], Error::NotFree { agent: 0 }, blocked, Some("F2 S5 0")),
        (&["@."], &[(0, 0)], &[(1, 0)], Error::NotFree { agent: 0 }, blocked, Some("F2 S5 0")),
        (
            &[".@"],
            &[(0, 0), (0, 0)],
            &[(0, 0), (1, 0)],
            Error::NotFree { agent: 1 },
            "agent 1 starts or ends outside of the grid or in a blocked cell",
            Some("F2 S5 1"),
        ),
    ];
    for (rows, starts, goals, error, words, code) in table {
        assert_eq!(Problem::from_rows(rows, starts, goals), Err(*error));
        let free: Vec<Vec<bool>> = rows.iter().map(|row| row.chars().map(|sign| sign == '.').collect()).collect();
        assert_eq!(Problem::new(&free, starts, goals), Err(*error));
        assert_told(*error, words, *code);
    }
    let long = vec![true; 2049];
    let error = Error::GridSize { width: 2049, height: 1 };
    assert_eq!(Problem::new(&[long], &[(0, 0)], &[(0, 0)]), Err(error));
    assert_told(error, "the grid has 2049 columns and 1 rows, and there may be 1 to 2,048 of each", Some("F1 M4 3"));
    let error = Error::GridSize { width: 1, height: 2049 };
    assert_eq!(Problem::new(&[[true]; 2049], &[(0, 0)], &[(0, 0)]), Err(error));
    assert_eq!(error.code().map(|code| code.to_string()).as_deref(), Some("F1 M4 2"));
}

#[test]
fn strange_characters_are_told() {
    let table: [(&[&[u8]], u32, u32); 9] = [
        (&[b"..x"], 2, 0),
        (&[b"...", b".#."], 1, 1),
        (&[b"\0.."], 0, 0),
        (&[b"...", b"..\n"], 2, 1),
        (&[b"...", b"..\r"], 2, 1),
        (&[b".\n.", b"..."], 1, 0),
        (&[b". .", b"..."], 1, 0),
        (&[b"...", b"\xff.."], 0, 1),
        (&["é.".as_bytes(), b"..."], 0, 0),
    ];
    for (rows, column, row) in table {
        let error = Problem::from_rows(rows, &[(0, 0)], &[(0, 0)]).expect_err("no terrain");
        assert_eq!(error, Error::Terrain { column, row }, "{rows:?}");
        let words = format!("the character in column {column} of row {row} is no terrain");
        assert_told(error, &words, Some(&format!("F1 M7 {column} {row}")));
    }
}

#[test]
fn faults_of_texts_are_told() {
    let rows = "..\n..\n";
    let maps = [
        ("", "line 1 isn't 'type octile'", "F1 M1"),
        ("type octile\nheight x\n", "line 2 isn't 'height' and digits", "F1 M2"),
        ("type octile\nheight 2\nwidth -2\n", "line 3 isn't 'width' and digits", "F1 M3"),
        (&map("0", "2", rows), "the size in line 2 is out of range", "F1 M4 2"),
        (&map("2", "99999999999999999999", rows), "the size in line 3 is out of range", "F1 M4 3"),
        ("type octile\nheight 2\nwidth 2\nrows\n", "line 4 isn't 'map'", "F1 M5"),
        (
            &map("2", "2", "..\n...\n"),
            "row 1 hasn't as many characters as line 3 says; rows are counted from 0",
            "F1 M6 1",
        ),
        (
            &map("2", "2", "..\n.?\n"),
            "the character in column 1 of row 1 is no terrain; both are counted from 0",
            "F1 M7 1 1",
        ),
        (&map("2", "2", "..\n"), "the text ends after 1 rows, before the height that line 2 says", "F1 M8 1"),
        (&map("2", "2", "..\n..\n..\n"), "line 7 comes after the rows and isn't blank", "F1 M9 7"),
    ];
    for (text, reason, code) in maps {
        let error = Problem::from_movingai(text, SCENARIO, 1).expect_err(code);
        assert!(matches!(error, Error::Map(_)), "{error:?}");
        assert_told(error, &format!("the map can't be used: {reason}"), Some(code));
    }
    let scenarios = [
        ("", "it doesn't begin with 'version 1'", "F2 S1"),
        ("version 1\n0 a.map 2 2 0 0 1 1\n", "row 0 hasn't nine words; rows are counted from 0", "F2 S2 0"),
        (
            "version 1\n0 a.map 2 2 0 -1 1 1 0\n",
            "in row 0 field 6 isn't a number from 0 to 4294967295; rows are counted from 0, fields from 1",
            "F2 S3 0 6",
        ),
        (
            "version 1\n0 a.map 3 2 0 0 1 1 0\n",
            "the size in row 0 isn't that of the map; rows are counted from 0",
            "F2 S4 0",
        ),
        (
            "version 1\n0 a.map 2 2 0 0 1 2 0\n",
            "the start or the goal in row 0 is outside the map or blocked; rows are counted from 0",
            "F2 S5 0",
        ),
        (
            "version 1\n0 a.map 2 2 0 0 1 1 x\n",
            "field 9 of row 0 isn't a decimal number; rows are counted from 0",
            "F2 S6 0",
        ),
    ];
    for (text, reason, code) in scenarios {
        let error = Problem::from_movingai(map("2", "2", rows), text, 1).expect_err(code);
        assert!(matches!(error, Error::Scenario(_)), "{error:?}");
        assert_told(error, &format!("the scenario can't be used: {reason}"), Some(code));
    }
    let error = Problem::from_movingai(map("2", "2", rows), SCENARIO, 3).expect_err("too few rows");
    let words = "the scenario can't be used: the text ends after 2 rows, and each agent needs one";
    assert_told(error, words, Some("F2 S7 2"));
}

#[test]
fn other_numbers_of_agents_are_told() {
    for agents in [0, 201, 1 << 32, usize::MAX] {
        let error = Problem::from_movingai(map("2", "2", "..\n..\n"), SCENARIO, agents).expect_err("a number");
        assert_eq!(error, Error::AgentCount { agents });
        assert_told(error, &format!("there are {agents} agents, and there may be 1 to 200"), None);
    }
}

#[test]
fn texts_that_are_too_long_are_told() {
    let long = || vec![b' '; 67_108_865];
    let error = Problem::from_movingai(long(), SCENARIO, 1).expect_err("a long map");
    assert!(matches!(error, Error::TooLong(_)));
    assert_told(error, "a text is too long: the map", Some("F4 map"));
    let error = Problem::from_movingai(map("2", "2", "..\n..\n"), long(), 1).expect_err("a long scenario");
    assert_told(error, "a text is too long: the scenario", Some("F4 scen"));
    let error = mapf::validate(&crossing(), long()).expect_err("a long plan text");
    assert_told(error, "a text is too long: the plan text", Some("F4 plan"));
}
