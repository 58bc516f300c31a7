//! An agent on a small grid under constraints, all drawn.
use crate::crates::mapf_distance::Distances;
use crate::crates::mapf_layers::{ConstraintSet, LayerTask, Workspace};
use crate::crates::mapf_lemmas::PathConstraint;
use crate::crates::mapf_model::{Agent, Cell, Grid, Neighbourhoods};
use crate::made::{Drawn, grid};
use crate::rattle_std::alloc::Global;

/// An agent with its constraints.
pub struct Case {
    pub seed: u64,
    pub grid: Grid,
    pub distances: Distances,
    pub neighbourhoods: Neighbourhoods,
    pub agent: Agent,
    pub constraints: Vec<PathConstraint>,
    /// The same constraints.
    pub set: ConstraintSet,
}

/// Draws cases, each with numbers that are drawn after it.
pub fn cases() -> impl Iterator<Item = (Case, Drawn)> {
    (0..1000).filter_map(|seed| {
        let mut numbers = Drawn::of(seed);
        let case = Case::draw(seed, &mut numbers)?;
        Some((case, numbers))
    })
}

/// The set of these constraints.
pub fn set_of(constraints: impl IntoIterator<Item = PathConstraint>) -> ConstraintSet {
    let mut set = ConstraintSet::new(Global);
    for constraint in constraints {
        set.add(constraint).expect("memory");
    }
    set.tidy();
    set
}

impl Case {
    /// Draws a case on a grid of up to four times four cells, of which about a fifth is blocked. None if no cell is
    /// free.
    fn draw(seed: u64, numbers: &mut Drawn) -> Option<Case> {
        let (width, height) = (2 + numbers.below(3), 1 + numbers.below(4));
        let free: Vec<bool> = (0..width * height).map(|_| numbers.below(5) > 0).collect();
        let open: Vec<Cell> = (0..width * height).map(Cell).filter(|cell| free[cell.0 as usize]).collect();
        if open.is_empty() {
            return None;
        }
        let grid = grid(width as usize, height as usize, |x, y| free[y * width as usize + x]);
        let agent = Agent { start: one_of(&open, numbers), goal: one_of(&open, numbers) };
        let ticks = 1 + numbers.below(9);
        let constraints: Vec<PathConstraint> =
            (0..numbers.below(11)).filter_map(|_| draw_constraint(&grid, &open, agent.goal, ticks, numbers)).collect();
        Some(Case {
            seed,
            distances: Distances::of(Global, &grid, agent.goal).expect("memory"),
            neighbourhoods: Neighbourhoods::of(&grid),
            grid,
            agent,
            set: set_of(constraints.iter().copied()),
            constraints,
        })
    }

    /// The agent as its layers are asked for.
    pub fn task(&self) -> LayerTask<'_> {
        LayerTask {
            neighbourhoods: &self.neighbourhoods,
            distances: &self.distances,
            agent: self.agent,
            constraints: &self.set,
        }
    }

    /// The memory in which its layers are found.
    pub fn workspace(&self) -> Workspace {
        Workspace::of(Global, self.cells().count()).expect("memory")
    }

    /// The cells of the grid, blocked ones among them.
    pub fn cells(&self) -> impl Iterator<Item = Cell> + use<> {
        (0..self.grid.width() * self.grid.height()).map(Cell)
    }
}

/// Draws one of the cells.
fn one_of(cells: &[Cell], numbers: &mut Drawn) -> Cell {
    cells[numbers.below(cells.len() as u32) as usize]
}

/// Draws a constraint at a tick below the bound, or near it. None at times.
fn draw_constraint(grid: &Grid, open: &[Cell], goal: Cell, ticks: u32, numbers: &mut Drawn) -> Option<PathConstraint> {
    let tick = numbers.below(ticks);
    let (cell, to) = (one_of(open, numbers), one_of(open, numbers));
    match numbers.below(22) {
        0..7 => Some(PathConstraint::NotAt { cell, tick }),
        7..9 => Some(PathConstraint::NotAt { cell: goal, tick }),
        9..15 if grid.are_adjacent(cell, to) => Some(PathConstraint::NotMove { from: cell, to, tick }),
        15..19 if cell != goal || numbers.below(4) == 0 => Some(PathConstraint::Clear { cell, tick }),
        19 => Some(PathConstraint::Most { ticks: tick + numbers.below(6) }),
        20.. => Some(PathConstraint::Least { ticks: tick }),
        _ => None,
    }
}
