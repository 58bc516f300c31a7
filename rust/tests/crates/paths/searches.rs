//! The search of one agent: worked cases with the labels of known certificates.
use super::{Printed, no_cell, no_move, numbers};
use crate::crates::mapf_constraints::{BarTable, ListBars, TickBars};
use crate::crates::mapf_distance::Distances;
use crate::crates::mapf_model::{Agent, Bar, Cell, Entry, Grid, Label, OutOfMemory, Path, Problem};
use crate::crates::mapf_spacetime::{
    Found, Labels, SearchTask, StateLabels, Workspace, label_at, search, search_expecting,
};
use crate::made::{grid, problem_of, problem_on};
use crate::memory::assert_refusals_told;
use crate::rattle_std::alloc::Global;
use crate::refusing::{Refused, refusing};

/// A grid's rows, where an agent goes on it under which constraints, and what the search finds: the path, or that the
/// agent is dead, and the labels as cell@tick=label.
struct Case<'a>(&'a str, (u32, u32), &'a [Bar], &'a str);

/// A cell with one free cell below it stands between two others.
const BAY: &str = "... @.@";

const SQUARE: &str = "... ... ...";

const WAITING: &[Case] = &[
    Case("...", (0, 2), &[no_cell(1, 1)], "path 0 0 1 2; 0@0=3"),
    Case("..", (0, 1), &[no_move(0, 1, 0)], "path 0 0 1; 0@0=2"),
    Case("..", (0, 1), &[no_cell(1, 5)], "path 0 0 0 0 0 0 1; 0@0=6 0@1=5 1@1=5 0@2=4 1@2=4 0@3=3 1@3=3 0@4=2 1@4=2"),
];

const DEAD: &[Case] = &[
    Case(".", (0, 0), &[no_cell(0, 3)], "dead; 0@0=never 0@1=never 0@2=never"),
    Case("..", (0, 1), &[no_cell(0, 0)], "dead; 0@0=never"),
    Case(".@.", (0, 2), &[], "dead;"),
];

const AROUND: &[Case] = &[
    Case(SQUARE, (0, 8), &[], "path 0 1 2 5 8;"),
    Case(SQUARE, (8, 0), &[], "path 8 5 2 1 0;"),
    Case(".. ..", (0, 3), &[no_cell(3, 2)], "path 0 0 1 3; 0@0=3 1@1=2 2@1=2"),
    Case(SQUARE, (0, 8), &[no_cell(2, 2)], "path 0 1 4 5 8;"),
    Case(BAY, (0, 2), &[no_cell(0, 1), no_cell(0, 2), no_cell(1, 2), no_cell(2, 2)], "path 0 1 4 1 2; 0@0=4 1@1=3"),
];

const AT_ITS_GOAL: &[Case] = &[
    Case(BAY, (1, 1), &[no_cell(1, 3)], "path 1 0 0 0 1; 1@0=4 0@1=3 1@1=3 2@1=3 4@1=3 0@2=2 1@2=2 2@2=2 4@2=2"),
    Case(BAY, (1, 1), &[no_cell(1, 2)], "path 1 0 0 1; 1@0=3 0@1=2 1@1=2 2@1=2 4@1=2"),
    Case(BAY, (1, 1), &[no_cell(1, 1), no_move(1, 0, 0), no_move(2, 1, 1)], "path 1 4 1; 1@0=2"),
];

const PASSING: &[Case] = &[
    Case(BAY, (0, 2), &[no_cell(1, 1), no_cell(1, 2), no_cell(1, 3)], "path 0 0 0 0 1 2; 0@0=5 0@1=4 0@2=3"),
    Case(BAY, (0, 2), &[no_cell(1, 1), no_cell(1, 2)], "path 0 0 0 1 2; 0@0=4 0@1=3"),
    Case(BAY, (0, 2), &[no_move(0, 1, 0)], "path 0 0 1 2; 0@0=3"),
    Case(BAY, (0, 2), &[no_move(1, 2, 1)], "path 0 0 1 2; 0@0=3 1@1=2"),
];

const CROSSING: &[Case] = &[
    Case(SQUARE, (3, 5), &[no_cell(4, 1)], "path 3 3 4 5; 3@0=3"),
    Case(SQUARE, (1, 7), &[no_cell(4, 1)], "path 1 1 4 7; 1@0=3"),
];

/// All of these cases, whose grids are of different sizes.
fn all_cases() -> impl Iterator<Item = &'static Case<'static>> {
    [WAITING, DEAD, AROUND, AT_ITS_GOAL, PASSING, CROSSING].into_iter().flatten()
}

/// A problem of one agent, with the distances to its goal and its constraints in either table.
pub struct Task {
    problem: Problem,
    pub distances: Distances,
    pub list: ListBars,
    pub index: TickBars,
}

impl Task {
    pub fn of(problem: Problem, bars: &[Bar]) -> Task {
        let distances = Distances::of(Global, problem.grid(), problem.agents()[0].goal).expect("memory");
        Task { problem, distances, list: table_of(bars), index: table_of(bars) }
    }

    fn of_case(&Case(rows, ends, bars, _): &Case) -> Task {
        Task::of(problem_of(rows, &[ends]), bars)
    }

    pub fn grid(&self) -> &Grid {
        self.problem.grid()
    }

    pub fn agent(&self) -> Agent {
        self.problem.agents()[0]
    }

    /// Searches under the constraints of one of the tables.
    pub fn search<B: BarTable>(&self, bars: &B) -> Result<Found, OutOfMemory> {
        search(Global, self.grid(), &self.distances, bars, self.agent())
    }

    /// Searches in the memory of earlier searches, with a cost that is expected.
    pub fn search_in(&self, workspace: &mut Workspace, expected: u32) -> Result<Found<StateLabels>, OutOfMemory> {
        let task = SearchTask::of(self.grid(), &self.distances, &self.index, self.agent());
        search_expecting(Global, workspace, &task, expected)
    }
}

fn table_of<B: BarTable>(bars: &[Bar]) -> B {
    let mut table = B::empty(Global);
    for &bar in bars {
        table.add(bar).expect("memory");
    }
    table
}

/// What is found, as a case has it.
pub fn text_of(path: Option<&Path>, entries: &[Entry]) -> String {
    let head = path.map_or("dead".to_owned(), |path| {
        numbers(path).iter().fold("path".to_owned(), |text, number| format!("{text} {number}"))
    });
    entries.iter().fold(head + ";", |text, Entry { cell, tick, label }| {
        let label = match label {
            Label::Ticks(ticks) => ticks.to_string(),
            Label::Never => "never".to_owned(),
        };
        format!("{text} {}@{tick}={label}", cell.0)
    })
}

pub fn text_of_found(found: Result<Found, OutOfMemory>) -> String {
    match found.expect("memory") {
        Found::Arrives { path, labels } => text_of(Some(&path), labels.entries()),
        Found::Dead { labels } => text_of(None, labels.entries()),
    }
}

/// The same of a search that keeps its states.
pub fn text_of_states(found: Result<Found<StateLabels>, OutOfMemory>) -> String {
    let (path, labels) = match found.expect("memory") {
        Found::Arrives { path, labels } => (Some(path), labels),
        Found::Dead { labels } => (None, labels),
    };
    text_of(path.as_ref(), &labels.into_entries(Global).expect("memory"))
}

/// The search finds what the cases say, with either table.
#[track_caller]
fn assert_found(cases: &[Case]) {
    for case in cases {
        let &Case(rows, _, bars, wanted) = case;
        let task = Task::of_case(case);
        for found in [task.search(&task.list), task.search(&task.index)] {
            assert_eq!(text_of_found(found), wanted, "{rows} {bars:?}");
        }
    }
}

#[test]
fn an_agent_waits_for_a_cell_for_a_move_and_for_a_goal_that_is_barred_later() {
    assert_found(WAITING);
}

#[test]
fn an_agent_is_dead_where_its_only_cell_or_its_start_is_barred_or_no_steps_lead() {
    assert_found(DEAD);
}

#[test]
fn an_agent_takes_the_least_of_the_cheapest_paths_and_steps_aside_in_a_corridor() {
    assert_found(AROUND);
}

#[test]
fn an_agent_leaves_its_goal_and_returns() {
    assert_found(AT_ITS_GOAL);
}

#[test]
fn labels_are_those_of_known_certificates() {
    assert_found(PASSING);
    assert_found(CROSSING);
}

/// The path that is found, with its labels.
fn arrival(task: &Task) -> (Path, Labels) {
    match task.search(&task.index).expect("memory") {
        Found::Arrives { path, labels } => (path, labels),
        Found::Dead { .. } => panic!("dead"),
    }
}

#[test]
fn a_late_bar_elsewhere_costs_nothing() {
    let task = Task::of(problem_on(grid(64, 64, |_, _| true), &[(0, 63)]), &[no_cell(4032, 900_000)]);
    let (path, labels) = arrival(&task);
    assert!(labels.is_empty());
    assert_eq!(numbers(&path), (0..64).collect::<Vec<_>>());
}

#[test]
fn a_label_is_the_entry_else_the_distance() {
    let task = Task::of(problem_of("...@.", &[(0, 2)]), &[no_cell(1, 1)]);
    let (_, labels) = arrival(&task);
    let label = |cell, tick| label_at(&labels, &task.distances, Cell(cell), tick);
    assert_eq!(label(0, 0), Label::Ticks(3));
    assert_eq!(label(0, 1), Label::Ticks(2));
    assert_eq!(label(4, 0), Label::Never);
}

#[test]
fn a_workspace_serves_one_search_after_the_other() {
    let mut workspace = Workspace::new(Global);
    for round in 0..300 {
        for case in all_cases() {
            let found = text_of_states(Task::of_case(case).search_in(&mut workspace, 0));
            assert_eq!(found, case.3, "{} in round {round}", case.0);
        }
    }
}

#[test]
fn the_expected_cost_changes_no_answer() {
    let mut workspace = Workspace::new(Global);
    for case in all_cases() {
        for expected in (0..=8).chain([20, 100]) {
            let found = text_of_states(Task::of_case(case).search_in(&mut workspace, expected));
            assert_eq!(found, case.3, "{} {expected}", case.0);
        }
    }
}

/// The tasks of the cases whose answers take memory, for a path or for labels, with the answers.
fn tasks_with_answers() -> impl Iterator<Item = (Task, &'static str)> {
    all_cases().filter(|case| case.3 != "dead;").map(|case| (Task::of_case(case), case.3))
}

#[test]
fn a_search_tells_that_it_was_refused_memory() {
    for (task, _) in tasks_with_answers() {
        assert_refusals_told(|| task.search(&task.list).map(Printed), |OutOfMemory| true);
        assert_refusals_told(|| task.search(&task.index).map(Printed), |OutOfMemory| true);
        let expecting = || task.search_in(&mut Workspace::new(Global), 20).map(Printed);
        assert_refusals_told(expecting, |OutOfMemory| true);
    }
}

#[test]
fn a_workspace_serves_after_a_search_that_was_refused_memory() {
    for (task, wanted) in tasks_with_answers() {
        for granted in 0.. {
            let mut workspace = Workspace::new(Global);
            let (_, count) = refusing(Refused::One, granted, || task.search_in(&mut workspace, 0));
            let found = text_of_states(task.search_in(&mut workspace, 0));
            assert_eq!(found, wanted, "behind {granted} requests");
            if count == 0 {
                break;
            }
        }
    }
}
