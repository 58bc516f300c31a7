//! The steps from a cell, the distances to a goal, and the path that is read off them.
use super::{Printed, distances_to, numbers};
use crate::crates::mapf_distance::{Distances, LazyTables, goal_tables, shortest_path, start_distances};
use crate::crates::mapf_model::{Agent, Cell, Grid, OutOfMemory};
use crate::made::{Shape, drawn, grid_of, problem_of};
use crate::memory::assert_refusals_told;
use crate::rattle_std::alloc::Global;
use crate::refusing::{Refused, refusing};

// The cell left of the middle is blocked.
#[test]
fn steps_lead_to_the_cell_itself_and_to_free_cells_beside_it_in_rising_order() {
    let grid = grid_of("... @.. ...");
    let steps: [(u32, &[u32]); 5] =
        [(0, &[0, 1]), (1, &[0, 1, 2, 4]), (4, &[1, 4, 5, 7]), (6, &[6, 7]), (8, &[5, 7, 8])];
    for (cell, wanted) in steps {
        let (found, requests) = refusing(Refused::All, 0, || grid.steps(Global, Cell(cell)));
        assert_eq!(found.as_slice().iter().map(|step| step.0).collect::<Vec<_>>(), wanted, "from {cell}");
        assert_eq!(requests, 0, "from {cell}");
    }
}

/// The way is the path that leads down from its first cell to its last one, and its cells have these distances.
#[track_caller]
fn assert_way(rows: &str, way: &[u32]) {
    let distances = distances_to(rows, way[way.len() - 1]);
    for (&cell, left) in way.iter().rev().zip(0..) {
        assert_eq!(distances.get(Cell(cell)), Some(left), "{rows}: {cell}");
    }
    let path = distances.descend(Global, Cell(way[0])).expect("memory");
    assert_eq!(numbers(&path), way, "{rows}");
}

#[test]
fn the_path_goes_by_the_least_cells() {
    assert_way(".. ..", &[0, 1, 3]);
    assert_way(".. ..", &[3]);
}

#[test]
fn the_path_goes_upwards_before_it_goes_leftwards() {
    assert_way(".. ..", &[3, 1, 0]);
}

const SPIRAL: &str = "..... @@@@. ...@. .@@@. .....";

#[test]
fn the_path_follows_a_spiral_to_its_middle() {
    assert_way(SPIRAL, &[0, 1, 2, 3, 4, 9, 14, 19, 24, 23, 22, 21, 20, 15, 10, 11, 12]);
}

#[test]
fn no_distance_past_a_wall_in_it_or_outside() {
    let distances = distances_to(".@.", 2);
    assert_eq!(distances.get(Cell(2)), Some(0));
    for cell in [0, 1, 3, u32::MAX] {
        assert_eq!(distances.get(Cell(cell)), None, "{cell}");
    }
}

/// Three cells in a row, and one below the first and one below the last. Two agents go from one row to the other.
const TWO_ROWS: (&str, [(u32, u32); 2]) = ("... .@.", [(0, 2), (5, 3)]);

/// The distances to the goals of both.
const IN_TWO_ROWS: [[Option<u32>; 6]; 2] =
    [[Some(2), Some(1), Some(0), Some(3), None, Some(1)], [Some(1), Some(2), Some(3), Some(0), None, Some(4)]];

/// What a table holds for each of six cells.
fn six_of(table: &Distances) -> [Option<u32>; 6] {
    [0, 1, 2, 3, 4, 5].map(|cell| table.get(Cell(cell)))
}

#[test]
fn each_agent_has_the_distances_to_its_goal() {
    let tables = goal_tables(Global, &problem_of(TWO_ROWS.0, &TWO_ROWS.1)).expect("memory");
    assert_eq!(tables.iter().map(six_of).collect::<Vec<_>>(), IN_TWO_ROWS);
}

#[test]
fn a_table_is_made_for_the_agent_that_is_asked_for_and_kept() {
    let problem = problem_of(TWO_ROWS.0, &TWO_ROWS.1);
    let mut tables = LazyTables::of(Global, &problem).expect("memory");
    for agent in [1, 1, 0, 1] {
        tables.make(Global, &problem, agent).expect("memory");
        assert_eq!(six_of(tables.get(agent)), IN_TWO_ROWS[agent as usize], "{agent}");
    }
    let (made, requests) = refusing(Refused::All, 0, || tables.make(Global, &problem, 1));
    assert_eq!((made, requests), (Ok(()), 0));
}

/// The distances from the starts of agents to their goals.
fn from_starts(rows: &str, ends: &[(u32, u32)]) -> Vec<Option<u32>> {
    start_distances(Global, &problem_of(rows, ends)).expect("memory").iter().copied().collect()
}

// Three cells in a row, one below the first, and one that walls part from these.
#[test]
fn each_start_has_its_distance() {
    let ends = [(4, 2), (2, 4), (1, 1), (0, 10), (10, 0)];
    assert_eq!(from_starts("...@ .@@@ @@.@", &ends), [Some(3), Some(3), Some(0), None, None]);
}

// The search for the distance of a start has to turn away from it.
#[test]
fn the_distances_of_starts_go_round_a_wall() {
    assert_eq!(from_starts(SPIRAL, &[(0, 12), (12, 0), (10, 0)]), [Some(16), Some(16), Some(14)]);
}

const MAZE: &str = ".....@ @@@.@. ...@.. @@@.@. ..@...";

/// The numbers of the maze's free cells.
fn free_cells() -> Vec<u32> {
    let maze = grid_of(MAZE);
    (0..30).filter(|&cell| maze.is_free(Cell(cell))).collect()
}

#[test]
fn the_distances_of_starts_are_those_of_the_table() {
    for goal in free_cells() {
        let ends: Vec<(u32, u32)> = free_cells().iter().map(|&start| (start, goal)).collect();
        let table = distances_to(MAZE, goal);
        let wanted: Vec<Option<u32>> = ends.iter().map(|&(start, _)| table.get(Cell(start))).collect();
        assert_eq!(from_starts(MAZE, &ends), wanted, "to {goal}");
    }
}

/// The distance of a start and the shortest path from it, which are found without a table, are those of the table.
fn assert_agrees_with_table(grid: &Grid, Agent { start, goal }: Agent, distance: Option<u32>, case: &str) {
    let table = Distances::of(Global, grid, goal).expect("memory");
    assert_eq!(distance, table.get(start), "{case}");
    let path = shortest_path(Global, grid, start, goal).expect("memory");
    let wanted = distance.map(|_| table.descend(Global, start).expect("memory"));
    assert_eq!(path.as_ref().map(numbers), wanted.as_ref().map(numbers), "{case}");
}

#[test]
fn distances_and_paths_of_drawn_problems_are_those_of_the_tables() {
    for (seed, blocked) in (0..100).flat_map(|seed| [10, 30, 45].map(|blocked| (seed, blocked))) {
        let shape = Shape { width: 9, height: 8, blocked, agents: 10 };
        let problem = drawn(shape, seed).expect("free cells");
        let distances = start_distances(Global, &problem).expect("memory");
        for (agent, distance) in problem.agents().iter().zip(&distances) {
            let case = format!("{agent:?} of seed {seed}, {blocked} of a hundred blocked");
            assert_agrees_with_table(problem.grid(), *agent, *distance, &case);
        }
    }
}

#[test]
fn a_refused_request_for_memory_is_told() {
    let (grid, problem) = (grid_of(SPIRAL), problem_of(SPIRAL, &[(0, 12), (12, 0), (10, 0), (4, 24)]));
    let (start, goal) = (Cell(0), Cell(12));
    let table = distances_to(SPIRAL, 12);
    let is_told = |_: &OutOfMemory| true;
    assert_refusals_told(|| Distances::of(Global, &grid, goal).map(Printed), is_told);
    assert_refusals_told(|| table.descend(Global, start).map(Printed), is_told);
    assert_refusals_told(|| shortest_path(Global, &grid, start, goal).map(Printed), is_told);
    assert_refusals_told(|| goal_tables(Global, &problem).map(Printed), is_told);
    assert_refusals_told(|| start_distances(Global, &problem), is_told);
    let lazy = || {
        let mut tables = LazyTables::of(Global, &problem)?;
        tables.make(Global, &problem, 1)?;
        tables.make(Global, &problem, 3)?;
        Ok(Printed(tables))
    };
    assert_refusals_told(lazy, is_told);
}
