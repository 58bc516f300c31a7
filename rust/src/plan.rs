//! Plans, as the cells of each agent.
use crate::check::judged;
use crate::crates::mapf_model::{Grid, Path};
use crate::error::Error;
use crate::problem::Problem;
use crate::text::{Text, collected};

/// A cell of the grid: its column x and its row y, both counted from 0 at the top left.
pub type Cell = (u32, u32);

/// A valid plan for a problem: for each agent the cells in which it is, one for each tick from 0 to its last arrival at
/// its goal. It stays there.
#[derive(Clone, Debug, PartialEq, Eq)]
pub struct Plan {
    paths: Vec<Vec<Cell>>,
}

impl Plan {
    /// Takes paths as the plan of a problem: one for each agent, with its cell at each tick from 0 on. A cell that
    /// repeats at the end of a path is left out there, since the agent has arrived.
    ///
    /// ```
    /// use mapf::{Error, InvalidPlan, Plan, Problem};
    ///
    /// let problem = Problem::from_rows(&["...", "..."], &[(0, 0), (2, 0)], &[(2, 0), (0, 0)])?;
    /// let first = vec![(0, 0), (1, 0), (2, 0)];
    /// let plan = Plan::new(&problem, &[first.clone(), vec![(2, 0), (2, 1), (1, 1), (0, 1), (0, 0)]])?;
    /// assert_eq!(plan.cost(), 6);
    ///
    /// let error = Plan::new(&problem, &[first, vec![(2, 0), (1, 0), (0, 0)]]).unwrap_err();
    /// assert_eq!(error, Error::InvalidPlan(InvalidPlan::VertexConflict { agents: [0, 1], tick: 1 }));
    /// # Ok::<(), mapf::Error>(())
    /// ```
    ///
    /// # Errors
    ///
    /// [`Error::InvalidPlan`] tells what is wrong first.
    pub fn new<P: AsRef<[Cell]>>(problem: &Problem, paths: &[P]) -> Result<Plan, Error> {
        let (planned, _) = judged(problem, paths)?;
        Plan::of(planned.problem.grid(), planned.plan.paths())
    }

    /// Reads the plan of a plan text for a problem. Section 2 of docs/FORMATS.md specifies this text.
    ///
    /// # Errors
    ///
    /// [`Error::PlanText`] and [`Error::TooLong`] tell what is wrong with the text, and [`Error::InvalidPlan`] what is
    /// wrong first with the plan.
    pub fn from_text(problem: &Problem, text: impl AsRef<[u8]>) -> Result<Plan, Error> {
        let planned = problem.planned(text.as_ref())?;
        Plan::of(planned.problem.grid(), planned.plan.paths())
    }

    fn of(grid: &Grid, paths: &[Path]) -> Result<Plan, Error> {
        Ok(Plan { paths: collected(paths, |path| collected(path.cells(), |&cell| Ok(grid.xy(cell))))? })
    }

    /// The path of each agent.
    pub fn paths(&self) -> &[Vec<Cell>] {
        &self.paths
    }

    /// The cell of an agent at a tick. None if there is no such agent.
    pub fn cell(&self, agent: u32, tick: u32) -> Option<Cell> {
        let path = self.paths.get(agent as usize)?;
        path.get(tick as usize).or(path.last()).copied()
    }

    /// The sum of costs: the sum, over the agents, of the tick of the last arrival.
    pub fn cost(&self) -> u64 {
        self.paths.iter().map(|path| u64::from(cost_of(path))).sum()
    }

    /// The makespan: the tick at which the last agent arrives.
    pub fn makespan(&self) -> u32 {
        self.paths.iter().map(|path| cost_of(path)).max().unwrap_or(0)
    }

    /// The plan text, which [`check`](crate::check()), the program and other checkers read.
    ///
    /// # Errors
    ///
    /// [`Error::Memory`] alone.
    pub fn to_text(&self) -> Result<Vec<u8>, Error> {
        let mut text = Text::new();
        text.push(format_args!("mapf-plan 2\nagents {}\ncost {}\n", self.paths.len(), self.cost()))?;
        for (agent, path) in self.paths.iter().enumerate() {
            text.push(format_args!("path {agent} {}", cost_of(path)))?;
            for (x, y) in path {
                text.push(format_args!(" {x},{y}"))?;
            }
            text.push_bytes(b"\n")?;
        }
        text.push_bytes(b"end\n")?;
        Ok(text.into_bytes())
    }
}

/// The cost of a path: the tick of its last cell.
fn cost_of(path: &[Cell]) -> u32 {
    path.len().saturating_sub(1) as u32
}
