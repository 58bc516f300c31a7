//! Agents that follow a plan with delays.
use crate::check::judged;
use crate::crates::mapf_model;
use crate::crates::mapf_player::{self, Dispatch};
use crate::error::Error;
use crate::plan::{Cell, Plan};
use crate::problem::Problem;
use crate::rattle_std::alloc::Global;
use crate::text::collected;

/// What an agent is told that asks to go on.
#[derive(Clone, Copy, Debug, PartialEq, Eq, Hash)]
pub enum Reply {
    /// It goes on into this cell, the next other one of its path, and has left the one before.
    Go(Cell),
    /// It stays where it is, and may ask again later: another agent visits its next cell earlier in the plan, and hasn't
    /// left it yet.
    Hold {
        /// The other agent, the least one if there are several.
        by: u32,
    },
    /// It is at the end of its path, and stays there.
    Done,
}

/// A visit of a cell by an agent: it is there from a tick of the plan on, until its next visit. Waits are left out.
#[derive(Clone, Copy, Debug, PartialEq, Eq, Hash)]
pub struct Visit {
    /// The cell.
    pub cell: Cell,
    /// The tick of the plan at which the agent enters it.
    pub tick: u32,
}

/// Lets agents follow a valid plan, each at its own pace: no two are ever in one cell, in whatever order and however
/// often they ask.
///
/// ```
/// use mapf::{Dispatcher, Plan, Problem, Reply};
///
/// // In the plan agent 1 goes through the cell in the middle first.
/// let problem = Problem::from_rows(&["...", "...", "..."], &[(0, 1), (1, 0)], &[(2, 1), (1, 2)])?;
/// let paths = [vec![(0, 1), (0, 1), (1, 1), (2, 1)], vec![(1, 0), (1, 1), (1, 2)]];
/// let mut dispatcher = Dispatcher::new(&problem, &Plan::new(&problem, &paths)?)?;
/// assert_eq!(dispatcher.ask(0)?, Reply::Hold { by: 1 });
/// assert_eq!(dispatcher.ask(1)?, Reply::Go((1, 1)));
/// assert_eq!(dispatcher.ask(1)?, Reply::Go((1, 2)));
/// assert_eq!(dispatcher.ask(0)?, Reply::Go((1, 1)));
/// # Ok::<(), mapf::Error>(())
/// ```
///
/// Moves take no time here: the cell that an agent leaves is free from its reply [`Reply::Go`] on. If moves take time,
/// let no agent ask until the move is finished. Agents that the plan moves in a full cycle, each into the cell that the
/// next one leaves, hold each other for ever, and [`Dispatcher::in_cycles`] names them.
#[derive(Debug)]
pub struct Dispatcher {
    dispatch: Dispatch,
    /// The number of the visit in which each agent is.
    numbers: Vec<u32>,
    width: u32,
}

impl Dispatcher {
    /// Begins a plan of this problem: each agent is in its first visit.
    ///
    /// # Errors
    ///
    /// [`Error::InvalidPlan`] if the plan is of another problem, and [`Error::Memory`]. Later calls take no memory.
    pub fn new(problem: &Problem, plan: &Plan) -> Result<Dispatcher, Error> {
        let (planned, _) = judged(problem, plan.paths())?;
        let dispatch = Dispatch::new(Global, &planned.plan).map_err(|_| Error::Memory)?;
        Ok(Dispatcher { dispatch, numbers: collected(plan.paths(), |_| Ok(0))?, width: problem.width() })
    }

    /// How many agents there are.
    pub fn agents(&self) -> u32 {
        self.dispatch.agents()
    }

    /// Answers an agent that asks to go on.
    ///
    /// # Errors
    ///
    /// [`Error::NoAgent`], which changes nothing.
    pub fn ask(&mut self, agent: u32) -> Result<Reply, Error> {
        let agents = self.agents();
        let Some(number) = self.numbers.get_mut(agent as usize) else {
            return Err(Error::NoAgent { agent, agents });
        };
        Ok(match self.dispatch.ask(agent) {
            mapf_player::Reply::Go(cell) => {
                *number += 1;
                Reply::Go(self.xy(cell))
            }
            mapf_player::Reply::Hold { other } => Reply::Hold { by: other },
            mapf_player::Reply::Done => Reply::Done,
        })
    }

    /// The cell in which an agent is.
    ///
    /// # Errors
    ///
    /// [`Error::NoAgent`].
    pub fn cell(&self, agent: u32) -> Result<Cell, Error> {
        let number = self.numbers.get(agent as usize).copied().unwrap_or_default();
        let visit = self.visits(agent)?.nth(number as usize);
        visit.map(|visit| visit.cell).ok_or(self.no_agent(agent))
    }

    /// The other agent by which an agent is held if it asks now. None if it isn't held.
    ///
    /// # Errors
    ///
    /// [`Error::NoAgent`].
    pub fn holder(&self, agent: u32) -> Result<Option<u32>, Error> {
        if agent >= self.agents() {
            return Err(self.no_agent(agent));
        }
        Ok(self.dispatch.holder(agent))
    }

    /// All visits of an agent, in their order.
    ///
    /// # Errors
    ///
    /// [`Error::NoAgent`].
    pub fn visits(&self, agent: u32) -> Result<impl ExactSizeIterator<Item = Visit>, Error> {
        let visits = self.dispatch.visits(agent).ok_or(self.no_agent(agent))?;
        Ok(visits.iter().map(|visit| Visit { cell: self.xy(visit.cell), tick: visit.entry }))
    }

    /// The agents that hold each other in a cycle, from the least on. They wait for ever, and so does whoever waits for
    /// them.
    pub fn in_cycles(&self) -> impl Iterator<Item = u32> {
        (0..self.agents()).filter(|&agent| self.is_in_cycle(agent))
    }

    /// Whether all agents are at the ends of their paths.
    pub fn is_done(&self) -> bool {
        let places = (0..).zip(&self.numbers);
        let mut lengths = places.map(|(agent, &number)| (self.dispatch.visits(agent).map_or(0, <[_]>::len), number));
        lengths.all(|(length, number)| number as usize + 1 >= length)
    }

    /// Whether the way from each agent to its holder leads from this agent back to it.
    fn is_in_cycle(&self, agent: u32) -> bool {
        let mut last = agent;
        for _ in 0..self.agents() {
            match self.dispatch.holder(last) {
                None => return false,
                Some(next) if next == agent => return true,
                Some(next) => last = next,
            }
        }
        false
    }

    fn no_agent(&self, agent: u32) -> Error {
        Error::NoAgent { agent, agents: self.agents() }
    }

    fn xy(&self, mapf_model::Cell(number): mapf_model::Cell) -> Cell {
        (number % self.width, number / self.width)
    }
}
