//! The search of one agent on drawn grids and under drawn constraints, beside a search by brute force.
use super::searches::{Task, text_of, text_of_found, text_of_states};
use super::{no_cell, no_move};
use crate::crates::mapf_constraints::BarTable;
use crate::crates::mapf_model::{Bar, Cell, Entry, Grid, Label};
use crate::crates::mapf_spacetime::Workspace;
use crate::made::{Drawn, Shape, drawn, path_of};
use crate::rattle_std::alloc::Global;
use std::collections::BTreeSet;

/// What the search has to find: all states of a task are reached, tick by tick, until the agent arrives.
struct Reached<'a> {
    task: &'a Task,
    /// For each tick the cells in which the agent can be.
    cells: Vec<BTreeSet<Cell>>,
    /// The first tick at which the agent is at its goal and may stay. None if there is no such tick.
    cost: Option<u32>,
}

impl<'a> Reached<'a> {
    /// Behind the last constraint a shortest path arrives, which visits each cell once. So the agent has arrived by
    /// the last tick here, or it never does.
    fn of(task: &'a Task) -> Reached<'a> {
        let start = task.agent().start;
        let mut reached = Reached { task, cells: vec![BTreeSet::from([start])], cost: None };
        if task.index.bars_cell(start, 0) {
            return reached;
        }
        for tick in 0..task.index.horizon() + task.grid().width() * task.grid().height() {
            let here = &reached.cells[tick as usize];
            if here.contains(&task.agent().goal) && reached.may_stay(tick) {
                reached.cost = Some(tick);
                break;
            }
            let next = here.iter().flat_map(|&cell| reached.steps(cell, tick)).collect();
            reached.cells.push(next);
        }
        reached
    }

    /// Whether no constraint forbids the goal from this tick on.
    fn may_stay(&self, tick: u32) -> bool {
        self.task.index.last_on(self.task.agent().goal).is_none_or(|last| last < tick)
    }

    /// Where the agent may be one tick later.
    fn steps(&self, from: Cell, tick: u32) -> Vec<Cell> {
        let bars = &self.task.index;
        let is_allowed = |to: &Cell| !bars.bars_cell(*to, tick + 1) && !bars.bars_move(from, *to, tick);
        self.task.grid().steps(Global, from).as_slice().iter().copied().filter(is_allowed).collect()
    }

    /// The least of the paths of this cost, by the cells from which the goal is reached at that tick.
    fn least_path(&self, cost: u32) -> Vec<u32> {
        let mut leading = vec![BTreeSet::from([self.task.agent().goal])];
        for tick in (0..cost).rev() {
            let leads = |cell: &&Cell| self.steps(**cell, tick).iter().any(|to| leading[0].contains(to));
            let cells = self.cells[tick as usize].iter().filter(leads).copied().collect();
            leading.insert(0, cells);
        }
        let mut path = vec![self.task.agent().start];
        for (tick, leading) in (0..cost).zip(&leading[1..]) {
            let steps = self.steps(path[tick as usize], tick);
            path.extend(steps.iter().find(|to| leading.contains(to)));
        }
        path.iter().map(|cell| cell.0).collect()
    }

    /// The labels of the states that are reached with an f-value below the cost, or of all from which steps lead to the
    /// goal.
    fn entries(&self) -> Vec<Entry> {
        let states = (0..).zip(&self.cells).flat_map(|(tick, cells)| cells.iter().map(move |&cell| (tick, cell)));
        let entry = |(tick, cell)| {
            let value = tick + self.task.distances.get(cell)?;
            let label = match self.cost {
                Some(cost) if value < cost => Label::Ticks(cost - tick),
                Some(_) => return None,
                None => Label::Never,
            };
            Some(Entry { cell, tick, label })
        };
        states.filter_map(entry).collect()
    }

    fn text(&self) -> String {
        let path = self.cost.map(|cost| path_of(&self.least_path(cost)));
        text_of(path.as_ref(), &self.entries())
    }
}

/// Draws a constraint at a tick below a bound. Half of them forbid cells.
fn drawn_bar(numbers: &mut Drawn, grid: &Grid, ticks: u32) -> Bar {
    let cell = numbers.below(grid.width() * grid.height());
    let tick = numbers.below(ticks);
    let below = cell + grid.width();
    match numbers.below(8) {
        0..4 => no_cell(cell, tick),
        4 => no_move(cell, cell + 1, tick),
        5 => no_move(cell + 1, cell, tick),
        6 => no_move(cell, below, tick),
        _ => no_move(below, cell, tick),
    }
}

/// Draws the task of an agent on a small grid, or on a larger one for two seeds of ten. For an even seed its goal is
/// forbidden at some tick, and for an odd one it never is. None if the grid has no free cell.
fn drawn_task(seed: u64) -> Option<Task> {
    let mut numbers = Drawn::of(seed);
    let most = if seed % 10 < 2 { 24 } else { 8 };
    let (width, height) = (1 + numbers.below(most), 1 + numbers.below(most));
    let problem = drawn(Shape { width, height, blocked: 25, agents: 1 }, seed)?;
    let goal = problem.agents()[0].goal;
    let (count, ticks) = (numbers.below(4 * width * height), 1 + numbers.below(20));
    let mut bars: Vec<Bar> = (0..count).map(|_| drawn_bar(&mut numbers, problem.grid(), ticks)).collect();
    bars.retain(|bar| !matches!(bar, Bar::Cell { cell, .. } if *cell == goal));
    if seed.is_multiple_of(2) {
        bars.push(no_cell(goal.0, numbers.below(ticks)));
    }
    Some(Task::of(problem, &bars))
}

#[test]
fn each_search_finds_what_brute_force_finds() {
    let mut workspace = Workspace::new(Global);
    for (seed, task) in (0..2_000).filter_map(|seed| Some((seed, drawn_task(seed)?))) {
        let wanted = Reached::of(&task).text();
        for found in [task.search(&task.list), task.search(&task.index)] {
            assert_eq!(text_of_found(found), wanted, "seed {seed}");
        }
        for expected in [0, seed as u32 % 30] {
            let found = text_of_states(task.search_in(&mut workspace, expected));
            assert_eq!(found, wanted, "seed {seed}, {expected} expected");
        }
    }
}
