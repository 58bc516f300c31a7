//! What the agent of a case can do, found by trying every step at every tick.
use super::case::Case;
use crate::crates::mapf_lemmas::{PathConstraint, PricedEntry};
use crate::crates::mapf_model::{Cell, Tick};
use std::collections::BTreeSet;

/// The cost that is left where the agent can't be, or can't arrive from.
pub const NEVER: u32 = u32::MAX;

/// By tick and cell the least cost that is left.
pub struct Rests(Vec<Vec<u32>>);

impl Rests {
    /// The least cost that is left from a cell at a tick.
    pub fn at(&self, cell: Cell, tick: Tick) -> u32 {
        self.0[tick as usize][cell.0 as usize]
    }
}

impl Case {
    /// A tick by which each path that is no longer than it must be has ended: no constraint changes after tick 9.
    pub fn end(&self) -> Tick {
        14 + self.grid.width() * self.grid.height()
    }

    /// The cost that the constraints allow at most.
    pub fn most(&self) -> u32 {
        let ticks = self.constraints.iter().filter_map(|constraint| match *constraint {
            PathConstraint::Most { ticks } => Some(ticks),
            _ => None,
        });
        ticks.min().unwrap_or(u32::MAX)
    }

    /// The cost that the constraints ask for at least.
    fn least(&self) -> u32 {
        let ticks = self.constraints.iter().filter_map(|constraint| match *constraint {
            PathConstraint::Least { ticks } => Some(ticks),
            _ => None,
        });
        ticks.max().unwrap_or(0)
    }

    /// Whether no constraint on cells forbids the agent to be in the cell at the tick.
    pub fn may_be(&self, cell: Cell, tick: Tick) -> bool {
        self.constraints.iter().all(|constraint| match *constraint {
            PathConstraint::NotAt { cell: other, tick: at } => (other, at) != (cell, tick),
            PathConstraint::Clear { cell: other, tick: from } => other != cell || tick < from,
            _ => true,
        })
    }

    /// Whether the agent may go from one cell to the other at the tick.
    pub fn may_step(&self, from: Cell, to: Cell, tick: Tick) -> bool {
        self.grid.is_step(from, to)
            && self.may_be(to, tick + 1)
            && !self.constraints.contains(&PathConstraint::NotMove { from, to, tick })
    }

    /// Whether the agent may stay at its goal from the tick on.
    fn may_rest(&self, tick: Tick) -> bool {
        tick >= self.least() && (tick..=self.end()).all(|later| self.may_be(self.agent.goal, later))
    }

    /// Whether the agent is barred from the cell at the tick, or can't get to its goal from there in time.
    fn is_barred(&self, cell: Cell, tick: Tick) -> bool {
        let is_in_time = self.distances.get(cell).is_some_and(|distance| tick + distance <= self.most());
        !is_in_time || !self.may_be(cell, tick)
    }

    /// The cells to which the agent may go from this one at the tick, and from which it may be in time.
    fn steps(&self, from: Cell, tick: Tick) -> impl Iterator<Item = Cell> {
        self.cells().filter(move |&to| self.may_step(from, to, tick) && !self.is_barred(to, tick + 1))
    }

    /// By tick the cells in which the agent can be.
    pub fn reached(&self) -> Vec<BTreeSet<Cell>> {
        let start = self.agent.start;
        let first = BTreeSet::from_iter((!self.is_barred(start, 0)).then_some(start));
        let mut rows = vec![first];
        for tick in 0..self.end() {
            let row = rows[tick as usize].iter().flat_map(|&from| self.steps(from, tick)).collect();
            rows.push(row);
        }
        rows
    }

    /// The least costs that are left.
    pub fn rests(&self) -> Rests {
        let end = self.end() as usize;
        let mut rests = Rests(vec![vec![NEVER; self.cells().count()]; end + 1]);
        for tick in (0..self.end()).rev() {
            rests.0[tick as usize] = self.cells().map(|cell| self.rest_from(&rests, cell, tick)).collect();
        }
        rests
    }

    /// The least cost that is left from a cell at a tick, by those of the next one.
    fn rest_from(&self, rests: &Rests, cell: Cell, tick: Tick) -> u32 {
        if self.is_barred(cell, tick) {
            return NEVER;
        }
        if cell == self.agent.goal && self.may_rest(tick) {
            return 0;
        }
        let later = self.steps(cell, tick).map(|to| rests.at(to, tick + 1));
        later.min().unwrap_or(NEVER).saturating_add(1)
    }

    /// The label of a state under these entries, in ticks. The greatest number if it is infinite.
    pub fn label(&self, entries: &[PricedEntry], cell: Cell, tick: Tick) -> u64 {
        if let Some(entry) = entries.iter().find(|entry| (entry.cell, entry.tick) == (cell, tick)) {
            return entry.label.units().unwrap_or(u64::MAX);
        }
        let asked = self.least().saturating_sub(tick);
        self.distances.get(cell).map_or(u64::MAX, |distance| distance.max(asked).into())
    }

    /// Whether the entry is sound among these.
    pub fn is_sound(&self, entries: &[PricedEntry], entry: &PricedEntry) -> bool {
        let PricedEntry { cell, tick, label } = *entry;
        let label = label.units().unwrap_or(u64::MAX);
        if label <= self.label(&[], cell, tick) {
            return false;
        }
        if self.is_barred(cell, tick) {
            return true;
        }
        let may_end = cell == self.agent.goal && self.may_rest(tick);
        !may_end && self.steps(cell, tick).all(|to| label <= self.label(entries, to, tick + 1).saturating_add(1))
    }
}
