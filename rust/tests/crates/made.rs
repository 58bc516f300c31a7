//! Grids, problems, paths and plans, each made of a few words, or drawn by a seed.
use crate::crates::mapf_model::{Agent, Cell, Grid, Path, Plan, Problem};
use crate::rattle_std::Vec;
use crate::rattle_std::alloc::Global;
use std::ops::Range;

/// A list of the crates.
pub fn list<T>(items: impl IntoIterator<Item = T>) -> Vec<T> {
    let mut list = Vec::new(Global);
    for item in items {
        list.push(item).expect("memory");
    }
    list
}

/// The grid of these rows, in which a dot is a free cell.
pub fn grid_of(rows: &str) -> Grid {
    let rows: std::vec::Vec<&str> = rows.split_whitespace().collect();
    let width = rows.first().map_or(0, |row| row.len());
    grid(width, rows.len(), |x, y| rows[y].as_bytes()[x] == b'.')
}

/// The grid of this size, with the cells that are free.
pub fn grid(width: usize, height: usize, is_free: impl Fn(usize, usize) -> bool) -> Grid {
    let free = list((0..height).flat_map(|y| (0..width).map(move |x| (x, y))).map(|(x, y)| is_free(x, y)));
    Grid::of(width as u32, height as u32, free).expect("a grid")
}

/// The problem on a grid of agents that each go from one cell to another.
pub fn problem_on(grid: Grid, ends: &[(u32, u32)]) -> Problem {
    let agents = ends.iter().map(|&(start, goal)| Agent { start: Cell(start), goal: Cell(goal) });
    Problem::of(grid, list(agents)).expect("a problem")
}

/// The problem on the grid of these rows of agents that each go from one cell to another.
pub fn problem_of(rows: &str, ends: &[(u32, u32)]) -> Problem {
    problem_on(grid_of(rows), ends)
}

/// The path through the cells of these numbers.
pub fn path_of(numbers: &[u32]) -> Path {
    Path::of(list(numbers.iter().map(|&number| Cell(number)))).expect("a path")
}

/// The plan of these paths, each a list of cell numbers.
pub fn plan_of(paths: &[&[u32]]) -> Plan {
    Plan::of(list(paths.iter().map(|numbers| path_of(numbers)))).expect("a plan")
}

/// Two agents change ends in a corridor of so many cells, with one more cell beside its middle. One of them waits there
/// until the other has passed: of the two in and out it pays two ticks, and one more if the corridor has a middle cell.
pub fn corridor(length: u32) -> Problem {
    let grid = grid(length as usize, 2, |x, y| y == 0 || x == length as usize / 2);
    problem_on(grid, &[(0, length - 1), (length - 1, 0)])
}

/// An agent whose goal is in a corridor, beside its start, and so many agents that pass this goal, one behind the
/// other. It can rest at its goal only behind them all, so each of them and it have the same cost: one more than they
/// are.
pub fn passing(count: u32) -> Problem {
    let goal = count + 1;
    let width = goal * 2;
    let grid = grid(width as usize, 2, |x, y| y == 0 || x == goal as usize);
    let passers = (0..count).map(|place| (place, goal + 1 + place));
    let ends: std::vec::Vec<(u32, u32)> = [(width + goal, goal)].into_iter().chain(passers).collect();
    problem_on(grid, &ends)
}

/// Two agents that meet in the middle of a corridor which winds through 2,047 rows of 2,048 cells, at tick 1,049,087.
/// No constraint can name that tick.
pub fn late_meeting() -> Problem {
    // Every second row is open, and each row between two of them has a gap at one end.
    let is_free = |x: usize, y: usize| y.is_multiple_of(2) || x == if y % 4 == 1 { 2047 } else { 0 };
    let last = 2046 * 2048;
    problem_on(grid(2048, 2047, is_free), &[(0, last), (last, 0)])
}

/// Numbers that are drawn by a seed: Knuth's constants for a linear congruential generator.
pub struct Drawn(u64);

impl Drawn {
    /// The generator of a seed.
    pub fn of(seed: u64) -> Drawn {
        let mut drawn = Drawn(seed.wrapping_mul(977).wrapping_add(31));
        drawn.below(2);
        drawn
    }

    /// The next number below a bound.
    pub fn below(&mut self, bound: u32) -> u32 {
        self.0 = self.0.wrapping_mul(6_364_136_223_846_793_005).wrapping_add(1_442_695_040_888_963_407);
        ((self.0 >> 33) % u64::from(bound)) as u32
    }
}

/// The sizes of a problem that is drawn.
#[derive(Clone, Copy, Debug)]
pub struct Shape {
    pub width: u32,
    pub height: u32,
    /// So many of a hundred cells are blocked.
    pub blocked: u32,
    pub agents: u32,
}

/// Draws a problem. None if there are fewer free cells than the agents need.
pub fn drawn(shape: Shape, seed: u64) -> Option<Problem> {
    let mut numbers = Drawn::of(seed);
    let free: std::vec::Vec<bool> =
        (0..shape.width * shape.height).map(|_| numbers.below(100) >= shape.blocked).collect();
    let cells: std::vec::Vec<u32> = (0..).zip(&free).filter(|(_, is_free)| **is_free).map(|(cell, _)| cell).collect();
    let starts = places(cells.clone(), shape.agents, &mut numbers)?;
    let goals = places(cells, shape.agents, &mut numbers)?;
    let grid = Grid::of(shape.width, shape.height, list(free))?;
    let agents = starts.into_iter().zip(goals).map(|(start, goal)| Agent { start: Cell(start), goal: Cell(goal) });
    Problem::of(grid, list(agents))
}

/// The problems that these seeds draw.
pub fn each_drawn(shape: Shape, seeds: Range<u64>) -> impl Iterator<Item = Problem> {
    seeds.filter_map(move |seed| drawn(shape, seed))
}

/// Draws so many of the cells, mostly different ones: one of twenty may be drawn again. None if there are too few.
fn places(mut left: std::vec::Vec<u32>, count: u32, numbers: &mut Drawn) -> Option<std::vec::Vec<u32>> {
    (0..count)
        .map(|_| {
            let place = (!left.is_empty()).then(|| numbers.below(left.len() as u32) as usize)?;
            Some(if numbers.below(20) > 0 { left.remove(place) } else { left[place] })
        })
        .collect()
}
