//! The first conflict of a plan, and of a plan in which one path is replaced.
use crate::crates::mapf_conflicts::{
    BasePaths, CellMarks, Conflict, MOST_ROWS, PatchedPaths, Replacement, first_conflict,
    first_conflict_after_replanning, first_conflict_in,
};
use crate::crates::mapf_model::{Cell, OutOfMemory, Path, Plan, Tick};
use crate::made::{list, path_of, plan_of};
use crate::memory::assert_refusals_told;
use crate::rattle_std;
use crate::rattle_std::alloc::Global;
use crate::refusing::{Refused, refusing};

fn vertex(i: u32, j: u32, cell: u32, tick: Tick) -> Option<Conflict> {
    Some(Conflict::Vertex { i, j, cell: Cell(cell), tick })
}

fn swap(i: u32, j: u32, from: u32, to: u32, tick: Tick) -> Option<Conflict> {
    Some(Conflict::Swap { i, j, from: Cell(from), to: Cell(to), tick })
}

/// The first conflict of a plan is this one, whatever cells have marks, and whatever the marks hold from earlier. The
/// search takes no memory.
#[track_caller]
fn assert_first(plan: &Plan, wanted: Option<Conflict>) {
    assert_eq!(refusing(Refused::All, 0, || first_conflict(plan)), (wanted, 0));
    let paths: Vec<&Path> = plan.paths().iter().collect();
    for cells in [0, 3, 256] {
        let mut marks = CellMarks::new(Global, cells).expect("memory");
        for _ in 0..2 {
            let found = refusing(Refused::All, 0, || first_conflict_in(&mut marks, &paths));
            assert_eq!(found, (wanted, 0), "with marks of {cells} cells");
        }
    }
}

#[test]
fn a_vertex_conflict_comes_before_a_swap_then_the_least_agents_come() {
    assert_first(&plan_of(&[&[0, 1], &[1, 0], &[2], &[2], &[2]]), vertex(2, 3, 2, 0));
    assert_first(&plan_of(&[&[4], &[3], &[3], &[4]]), vertex(0, 3, 4, 0));
    assert_first(&plan_of(&[&[0, 1], &[4, 5], &[5, 4], &[1, 0]]), swap(0, 3, 0, 1, 0));
}

#[test]
fn the_conflict_of_the_least_tick_comes_first() {
    assert_first(&plan_of(&[&[6, 7, 8], &[8, 8, 8], &[3, 0, 1], &[4, 1, 0]]), swap(2, 3, 0, 1, 1));
}

#[test]
fn an_agent_at_rest_is_met() {
    assert_first(&plan_of(&[&[2], &[0, 1, 2]]), vertex(0, 1, 2, 2));
}

#[test]
fn agents_may_follow_each_other_and_rotate() {
    assert_first(&plan_of(&[&[0, 1, 2], &[1, 2, 3]]), None);
    assert_first(&plan_of(&[&[0, 1], &[1, 3], &[3, 2], &[2, 0]]), None);
}

// Each agent is in the cell of its number, but for the last one or none.
#[test]
fn each_of_200_agents_is_looked_at() {
    for (last, wanted) in [(198, vertex(198, 199, 198, 0)), (199, None)] {
        let paths = (0..200).map(|agent: u32| path_of(&[agent.min(last)]));
        assert_first(&Plan::of(list(paths)).expect("a plan"), wanted);
    }
}

/// The first conflict once an agent takes another path. Before the tick `free` the other agents have none.
fn first_with(base: &BasePaths, marks: &mut CellMarks, agent: u32, path: &Path, free: Tick) -> Option<Conflict> {
    let replacements = [Replacement { agent, path }];
    first_conflict_after_replanning(marks, &PatchedPaths::of(base, &replacements), agent, free)
}

/// Marks of so many cells.
fn marks_of(cells: usize) -> CellMarks {
    CellMarks::new(Global, cells).expect("memory")
}

/// The path of an agent that goes from one cell to another at the tick, and stays there.
fn path_to(from: u32, to: u32, tick: Tick) -> Path {
    let mut cells = vec![from; tick as usize];
    cells.push(to);
    path_of(&cells)
}

// Two agents would have stayed in their cells, but the second one goes to the other's cell.
#[test]
fn a_conflict_of_a_replaced_path_is_found_at_any_tick() {
    let paths = [path_to(4, 4, MOST_ROWS), path_to(5, 5, MOST_ROWS)];
    let base = BasePaths::of(Global, list(paths)).expect("memory");
    for tick in [0, 1, MOST_ROWS - 1, MOST_ROWS, MOST_ROWS + 1] {
        let found = first_with(&base, &mut marks_of(6), 1, &path_to(5, 4, tick), 0);
        assert_eq!(found, vertex(0, 1, 4, tick));
    }
}

/// The first conflict once an agent takes another path. The other agents are known to be apart before the tick of the
/// first conflict of the old paths, as at a node whose parent was split on that conflict.
fn found_at_child(old: &[&[u32]], agent: u32, other: &[u32]) -> Option<Conflict> {
    let base = BasePaths::of(Global, list(old.iter().map(|numbers| path_of(numbers)))).expect("memory");
    let mut marks = marks_of(16);
    let first = first_conflict_after_replanning(&mut marks, &PatchedPaths::of(&base, &[]), 0, 0);
    let free = first.expect("a conflict of the old paths").tick();
    first_with(&base, &mut marks, agent, &path_of(other), free)
}

/// Agents 0 and 1 meet in cell 2 at tick 2, and agents 0 and 2 in cell 3 at tick 3.
const MEET_ONE_BY_ONE: &[&[u32]] = &[&[0, 1, 2, 3], &[10, 6, 2], &[15, 11, 7, 3]];

/// All three agents meet in cell 2 at tick 2.
const MEET_AT_ONCE: &[&[u32]] = &[&[0, 1, 2], &[10, 6, 2], &[7, 3, 2]];

#[test]
fn the_new_path_may_conflict_before_the_tick_of_the_parents_conflict() {
    assert_eq!(found_at_child(MEET_ONE_BY_ONE, 1, &[10, 11, 2]), vertex(1, 2, 11, 1));
    assert_eq!(found_at_child(MEET_ONE_BY_ONE, 1, &[6, 2, 1]), swap(0, 1, 1, 2, 1));
}

#[test]
fn the_other_agents_may_conflict_from_the_tick_of_the_parents_conflict_on() {
    let later = found_at_child(MEET_ONE_BY_ONE, 1, &[10, 9, 8]);
    assert_eq!(later, vertex(0, 2, 3, 3));
    let at_the_same_tick = found_at_child(MEET_AT_ONCE, 1, &[10, 9, 8]);
    assert_eq!(at_the_same_tick, vertex(0, 2, 2, 2));
    let of_three_agents = found_at_child(MEET_ONE_BY_ONE, 1, &[10, 9, 8, 3]);
    assert_eq!(of_three_agents, vertex(0, 1, 3, 3));
    assert_eq!(found_at_child(MEET_ONE_BY_ONE, 0, &[0, 4, 8]), None);
}

/// The path of these cells, unless memory is refused.
fn path_in_memory(numbers: &[u32]) -> Result<Path, OutOfMemory> {
    let mut cells = rattle_std::Vec::new(Global);
    for number in numbers {
        cells.push(Cell(*number))?;
    }
    Ok(Path::of(cells).expect("a path"))
}

#[test]
fn a_refused_request_for_memory_is_told() {
    assert_refusals_told(|| CellMarks::new(Global, 256).map(|_| ()), |OutOfMemory| true);
    let other = path_of(&[10, 11, 2]);
    let first_of_child = || {
        let mut paths = rattle_std::Vec::new(Global);
        for numbers in MEET_ONE_BY_ONE {
            paths.push(path_in_memory(numbers)?)?;
        }
        let base = BasePaths::of(Global, paths)?;
        let mut marks = CellMarks::new(Global, 16)?;
        Ok(first_with(&base, &mut marks, 1, &other, 2))
    };
    assert_refusals_told(first_of_child, |_: &OutOfMemory| true);
}
