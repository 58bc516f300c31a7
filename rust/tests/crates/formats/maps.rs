//! Texts of maps: the cells that are read, and the first error.
use crate::crates::mapf_model::Cell;
use crate::crates::mapf_text::MapFault::{self, M1, M2, M3, M4, M5, M6, M7, M8, M9};
use crate::crates::mapf_text::read_map;
use crate::problems::CROSSING_MAP;
use crate::rattle_std::alloc::Global;

/// The error of a map.
fn fault_of(text: &str) -> Option<MapFault> {
    read_map(Global, text.as_bytes()).err()
}

/// The error of the first so many bytes of the crossing's map.
fn front_fault(length: usize) -> Option<MapFault> {
    match length {
        0..=10 => Some(M1),
        11..=19 => Some(M2),
        20..=27 => Some(M3),
        28..=31 => Some(M5),
        32..=33 => Some(M8 { rows: 0 }),
        34..=35 => Some(M6 { row: 0 }),
        36..=37 => Some(M8 { rows: 1 }),
        38..=39 => Some(M6 { row: 1 }),
        40..=41 => Some(M8 { rows: 2 }),
        42..=43 => Some(M6 { row: 2 }),
        // The line end of the last row may be missing.
        _ => None,
    }
}

#[test]
fn each_front_of_a_map_ends_early() {
    assert_eq!(CROSSING_MAP.len(), 45);
    for length in 0..=CROSSING_MAP.len() {
        assert_eq!(fault_of(&CROSSING_MAP[..length]), front_fault(length), "{length} bytes");
    }
}

#[test]
fn the_kinds_of_cells_are_free_or_blocked() {
    let grid = read_map(Global, b"type octile\nheight 2\nwidth 4\nmap\n.WSG\n@OT.\n").expect("a map");
    assert_eq!((grid.width(), grid.height()), (4, 2));
    let free: Vec<u32> = (0..8).filter(|&cell| grid.is_free(Cell(cell))).collect();
    assert_eq!(free, [0, 2, 3, 7]);
}

#[test]
fn blanks_zeros_and_blank_lines_are_taken() {
    for text in [
        "\ttype  octile \r\nheight\t01\nwidth 0003 \n map\t\r\n...\r",
        "type octile\nheight 2\nwidth 3\nmap\n...\n...\n \t\n\r\n\n",
        // A last part of one CR alone is a line.
        "type octile\nheight 1\nwidth 1\nmap\n.\n\r",
    ] {
        assert_eq!(fault_of(text), None, "{text:?}");
    }
}

#[test]
fn wrong_heads_are_refused() {
    for (text, fault) in [
        ("type tile\n", M1),
        ("\ntype octile\n", M1),
        ("octile type\n", M1),
        ("type octile\nheight +1\n", M2),
        ("type octile\nheight 1 1\n", M2),
        ("type octile\nwidth 1\nheight 1\nmap\n.\n", M2),
        ("type octile\nheight 1\nwidth -1\nmap\n.\n", M3),
        ("type octile\nheight 0\n", M4 { line: 2 }),
        ("type octile\nheight 4294967297\n", M4 { line: 2 }),
        ("type octile\nheight 999999999999999999999999999999999999999999999999999999999999\n", M4 { line: 2 }),
        ("type octile\nheight 2049\nwidth x\n", M4 { line: 2 }),
        ("type octile\nheight 2\nwidth 2049\nmap\n", M4 { line: 3 }),
        ("type octile\nheight 1\nwidth 1\nmap map\n.\n", M5),
    ] {
        assert_eq!(fault_of(text), Some(fault), "{text:?}");
    }
}

#[test]
fn wrong_rows_are_refused() {
    for (height, width, rows, fault) in [
        (2, 3, "...\n...\n \t\n\r\n\nx", M9 { line: 10 }),
        (1, 1, "\r", M6 { row: 0 }),
        // Only one CR belongs to a line end, and blanks in a row belong to the row.
        (1, 1, ".\r\r\n", M6 { row: 0 }),
        (1, 1, " .\n", M6 { row: 0 }),
        (1, 2, " .\n", M7 { x: 0, y: 0 }),
        // A row's length comes before its bytes, and both before what follows the row.
        (2, 2, ".x.\n", M6 { row: 0 }),
        (2, 2, "xy\n", M7 { x: 0, y: 0 }),
        (1, 2, ".y\nx\n", M7 { x: 1, y: 0 }),
    ] {
        let text = format!("type octile\nheight {height}\nwidth {width}\nmap\n{rows}");
        assert_eq!(fault_of(&text), Some(fault), "{text:?}");
    }
}
