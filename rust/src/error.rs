//! Why a call has no answer.
use crate::code::Code;
use crate::crates::mapf_app::{CheckFault, Fault, Input, MapFault, PlanFault, PlayFault, ScenFault};
use crate::crates::mapf_model::limits::GREATEST_SIDE;
use std::fmt;

/// Why a call has no answer. Its text is a sentence, with the program's code for the error in brackets if there is one:
///
/// ```
/// let error = mapf::Problem::from_rows(&["..", ".@"], &[(0, 0)], &[(1, 1)]).unwrap_err();
/// assert_eq!(error, mapf::Error::NotFree { agent: 0 });
/// assert_eq!(error.to_string(), "agent 0 starts or ends outside of the grid or in a blocked cell (F2 S5 0)");
/// ```
///
/// Agents, rows, columns and ticks are counted from 0.
#[derive(Clone, Copy, Debug, PartialEq, Eq)]
#[non_exhaustive]
pub enum Error {
    /// There aren't 1 to 200 agents.
    AgentCount {
        /// How many agents there are.
        agents: usize,
    },
    /// The numbers of starts and of goals differ.
    StartsAndGoals {
        /// How many starts there are.
        starts: usize,
        /// How many goals there are.
        goals: usize,
    },
    /// A grid doesn't have 1 to 2,048 columns and 1 to 2,048 rows.
    GridSize {
        /// The number of cells of the first row. 0 if there is none.
        width: usize,
        /// The number of rows.
        height: usize,
    },
    /// A row of a grid has another number of cells than the first one.
    RowLength {
        /// The first such row.
        row: u32,
        /// How many cells it has.
        length: usize,
        /// How many cells the first row has.
        width: usize,
    },
    /// A byte of a row of text isn't one of the seven characters for free and blocked cells.
    Terrain {
        /// The column of the byte.
        column: u32,
        /// Its row.
        row: u32,
    },
    /// The start or the goal of an agent is outside of the grid, or blocked.
    NotFree {
        /// The first such agent.
        agent: u32,
    },
    /// More than 100,000 splits are asked for.
    Splits {
        /// How many are asked for.
        splits: u32,
    },
    /// More than 1,000,000 improvements are asked for.
    Improvements {
        /// How many are asked for.
        improvements: u32,
    },
    /// There is no agent of this number.
    NoAgent {
        /// The number.
        agent: u32,
        /// How many agents there are.
        agents: u32,
    },
    /// The text of a map has an error (F1).
    Map(Code),
    /// The text of a scenario has an error (F2).
    Scenario(Code),
    /// A plan text has an error, holds no plan, or is for another number of agents (F3).
    PlanText(Code),
    /// A text is too long (F4): a certificate may have 1,099,511,627,776 bytes, and any other text 67,108,864.
    TooLong(Code),
    /// A plan isn't valid (F3).
    InvalidPlan(InvalidPlan),
    /// A plan text and a certificate aren't accepted (C1 to C10).
    Refused(Code),
    /// Memory ran out (F6).
    Memory,
}

/// What is wrong first with a plan that isn't valid: what concerns one agent comes before conflicts of two, the lesser
/// agent before the greater, and the earlier tick before the later. Its text says so in words.
#[derive(Clone, Copy, Debug, PartialEq, Eq)]
#[non_exhaustive]
pub enum InvalidPlan {
    /// The numbers of paths and of agents differ.
    PathCount {
        /// How many paths there are.
        paths: usize,
        /// How many agents there are.
        agents: u32,
    },
    /// A path has no cell.
    EmptyPath {
        /// The agent of the path.
        agent: u32,
    },
    /// A path has more than 10,000,000 cells.
    LongPath {
        /// The agent of the path.
        agent: u32,
    },
    /// A path doesn't begin at its agent's start.
    Start {
        /// The agent of the path.
        agent: u32,
    },
    /// From a tick to the next an agent neither waits nor moves to an adjacent free cell of the grid.
    Step {
        /// The agent.
        agent: u32,
        /// The tick.
        tick: u32,
    },
    /// A path doesn't end at its agent's goal.
    Goal {
        /// The agent of the path.
        agent: u32,
    },
    /// Two agents are in one cell.
    VertexConflict {
        /// The agents, the lesser first.
        agents: [u32; 2],
        /// The tick at which they are there.
        tick: u32,
    },
    /// Two agents exchange their cells.
    SwappingConflict {
        /// The agents, the lesser first.
        agents: [u32; 2],
        /// The tick after which they do so.
        tick: u32,
    },
}

impl Error {
    /// The code by which the program tells this error. None if it tells none, as where there aren't 1 to 200 agents.
    pub fn code(&self) -> Option<Code> {
        let fault = match *self {
            Error::AgentCount { .. } | Error::StartsAndGoals { .. } | Error::NoAgent { .. } => return None,
            Error::Splits { .. } | Error::Improvements { .. } => return None,
            Error::GridSize { height, .. } => Fault::F1(MapFault::M4 { line: if is_side(height) { 3 } else { 2 } }),
            Error::RowLength { row, .. } => Fault::F1(MapFault::M6 { row }),
            Error::Terrain { column, row } => Fault::F1(MapFault::M7 { x: column, y: row }),
            Error::NotFree { agent } => Fault::F2(ScenFault::S5 { row: agent }),
            Error::InvalidPlan(why) => Fault::F3(PlayFault::Invalid(why.fault()?)),
            Error::Map(code) | Error::Scenario(code) | Error::PlanText(code) => return Some(code),
            Error::TooLong(code) | Error::Refused(code) => return Some(code),
            Error::Memory => Fault::F6,
        };
        Some(Code(fault))
    }

    fn write_words(&self, f: &mut fmt::Formatter<'_>) -> fmt::Result {
        match *self {
            Error::AgentCount { agents } => write!(f, "there are {agents} agents, and there may be 1 to 200"),
            Error::StartsAndGoals { starts, goals } => {
                write!(f, "there are {starts} starts and {goals} goals, and each agent has one of each")
            }
            Error::GridSize { width, height } => {
                write!(f, "the grid has {width} columns and {height} rows, and there may be 1 to 2,048 of each")
            }
            Error::RowLength { row, length, width } => {
                write!(f, "row {row} of the grid has {length} cells, and row 0 has {width}")
            }
            Error::Terrain { column, row } => write!(f, "the character in column {column} of row {row} is no terrain"),
            Error::NotFree { agent } => {
                write!(f, "agent {agent} starts or ends outside of the grid or in a blocked cell")
            }
            Error::Splits { splits } => write!(f, "{splits} splits are asked for, and there may be 0 to 100,000"),
            Error::Improvements { improvements } => {
                write!(f, "{improvements} improvements are asked for, and there may be 0 to 1,000,000")
            }
            Error::NoAgent { agent, agents } => {
                write!(f, "there is no agent {agent}: there are {agents}, counted from 0")
            }
            Error::Map(code) => write_about(f, "the map can't be used", code),
            Error::Scenario(code) => write_about(f, "the scenario can't be used", code),
            Error::PlanText(code) => write_about(f, "the plan text can't be used", code),
            Error::TooLong(code) => write_about(f, "a text is too long", code),
            Error::InvalidPlan(why) => write!(f, "the plan isn't valid: {why}"),
            Error::Refused(code) => write_about(f, "the texts don't show what the plan text says", code),
            Error::Memory => f.write_str("there isn't enough memory"),
        }
    }
}

fn write_about(f: &mut fmt::Formatter<'_>, subject: &str, code: Code) -> fmt::Result {
    write!(f, "{subject}: ")?;
    code.write_reason(f)
}

impl fmt::Display for Error {
    fn fmt(&self, f: &mut fmt::Formatter<'_>) -> fmt::Result {
        self.write_words(f)?;
        match self.code() {
            Some(code) => write!(f, " ({code})"),
            None => Ok(()),
        }
    }
}

impl std::error::Error for Error {}

impl InvalidPlan {
    /// The same as an error of the program. None if its texts can't have it.
    fn fault(self) -> Option<PlanFault> {
        match self {
            InvalidPlan::PathCount { .. } | InvalidPlan::EmptyPath { .. } | InvalidPlan::LongPath { .. } => None,
            InvalidPlan::Start { agent } => Some(PlanFault::V1 { agent }),
            InvalidPlan::Step { agent, tick } => Some(PlanFault::V2 { agent, tick }),
            InvalidPlan::Goal { agent } => Some(PlanFault::V3 { agent }),
            InvalidPlan::VertexConflict { agents: [i, j], tick } => Some(PlanFault::V4 { i, j, tick }),
            InvalidPlan::SwappingConflict { agents: [i, j], tick } => Some(PlanFault::V5 { i, j, tick }),
        }
    }
}

impl fmt::Display for InvalidPlan {
    fn fmt(&self, f: &mut fmt::Formatter<'_>) -> fmt::Result {
        match *self {
            InvalidPlan::PathCount { paths, agents } => write!(f, "there are {agents} agents and {paths} paths"),
            InvalidPlan::EmptyPath { agent } => write!(f, "the path of agent {agent} has no cell"),
            InvalidPlan::LongPath { agent } => write!(f, "the path of agent {agent} has more than 10,000,000 cells"),
            why => match why.fault() {
                Some(fault) => Code(Fault::F3(PlayFault::Invalid(fault))).write_reason(f),
                None => Ok(()),
            },
        }
    }
}

impl From<PlanFault> for InvalidPlan {
    fn from(fault: PlanFault) -> InvalidPlan {
        match fault {
            PlanFault::V1 { agent } => InvalidPlan::Start { agent },
            PlanFault::V2 { agent, tick } => InvalidPlan::Step { agent, tick },
            PlanFault::V3 { agent } => InvalidPlan::Goal { agent },
            PlanFault::V4 { i, j, tick } => InvalidPlan::VertexConflict { agents: [i, j], tick },
            PlanFault::V5 { i, j, tick } => InvalidPlan::SwappingConflict { agents: [i, j], tick },
        }
    }
}

impl From<PlanFault> for Error {
    fn from(fault: PlanFault) -> Error {
        Error::InvalidPlan(fault.into())
    }
}

impl From<Fault> for Error {
    fn from(fault: Fault) -> Error {
        match fault {
            Fault::F1(MapFault::Memory) | Fault::F2(ScenFault::Memory) => Error::Memory,
            Fault::Refused(CheckFault::Memory) => Error::Memory,
            // What a call writes to is memory.
            Fault::F5(_) | Fault::F6 => Error::Memory,
            Fault::F1(_) => Error::Map(Code(fault)),
            Fault::F2(_) => Error::Scenario(Code(fault)),
            Fault::F3(PlayFault::Invalid(why)) => why.into(),
            Fault::F3(_) => Error::PlanText(Code(fault)),
            Fault::F4(_) => Error::TooLong(Code(fault)),
            Fault::Refused(_) => Error::Refused(Code(fault)),
        }
    }
}

impl From<MapFault> for Error {
    fn from(fault: MapFault) -> Error {
        Fault::F1(fault).into()
    }
}

impl From<ScenFault> for Error {
    fn from(fault: ScenFault) -> Error {
        Fault::F2(fault).into()
    }
}

impl From<Input> for Error {
    fn from(input: Input) -> Error {
        Fault::F4(input).into()
    }
}

/// Whether a grid may have so many columns, or rows.
pub(crate) fn is_side(length: usize) -> bool {
    (1..=GREATEST_SIDE as usize).contains(&length)
}
