//! The calls that judge what others made.
use crate::answer::Verdict;
use crate::crates::mapf_app::{Planned, run_check};
use crate::crates::mapf_checker::check_plan;
use crate::crates::mapf_model::limits::MOST_PATH_CELLS;
use crate::crates::mapf_model::{self, BytesSource, Grid, Path};
use crate::error::{Error, InvalidPlan};
use crate::plan::{Cell, Plan};
use crate::problem::Problem;
use crate::rattle_std;
use crate::rattle_std::alloc::{AllocError, Global};

/// Checks a plan text and a certificate for a problem, whoever wrote them. The verdict is true.
///
/// # Errors
///
/// [`Error::Refused`] tells why the two texts aren't accepted, and [`Error::TooLong`] that one is too long.
pub fn check(problem: &Problem, plan_text: impl AsRef<[u8]>, certificate: impl AsRef<[u8]>) -> Result<Verdict, Error> {
    let (mut map, mut scenario) = problem.sources();
    let mut plan = BytesSource::of(plan_text.as_ref());
    let mut certificate = BytesSource::of(certificate.as_ref());
    let agents = problem.agents();
    let verdict = run_check(Global, &mut map, &mut scenario, agents, &mut plan, &mut certificate)?;
    Ok(verdict.into())
}

/// Checks a plan, given by its paths, with a certificate. The paths are those of [`Plan::new`].
///
/// # Errors
///
/// [`Error::InvalidPlan`] tells what is wrong first with the plan, and [`Error::Refused`] why the certificate doesn't
/// show how good the plan is.
pub fn check_paths<P: AsRef<[Cell]>>(
    problem: &Problem,
    paths: &[P],
    certificate: impl AsRef<[u8]>,
) -> Result<Verdict, Error> {
    check(problem, Plan::new(problem, paths)?.to_text()?, certificate)
}

/// Judges the plan of a plan text alone, and returns its sum of costs, in ticks.
///
/// # Errors
///
/// Those of [`Plan::from_text`].
pub fn validate(problem: &Problem, plan_text: impl AsRef<[u8]>) -> Result<u64, Error> {
    let planned = problem.planned(plan_text.as_ref())?;
    Ok(check_plan(&planned.problem, &planned.plan)?)
}

/// Judges a plan that is given by its paths, and returns its sum of costs, in ticks. The paths are those of
/// [`Plan::new`], and so are the errors.
pub fn validate_paths<P: AsRef<[Cell]>>(problem: &Problem, paths: &[P]) -> Result<u64, Error> {
    let (_, cost) = judged(problem, paths)?;
    Ok(cost)
}

/// The problem with the valid plan of these paths for it, and the plan's sum of costs.
pub(crate) fn judged<P: AsRef<[Cell]>>(problem: &Problem, paths: &[P]) -> Result<(Planned, u64), Error> {
    let agents = problem.agents();
    let other_count = Error::InvalidPlan(InvalidPlan::PathCount { paths: paths.len(), agents });
    if paths.len() != agents as usize {
        return Err(other_count);
    }
    let problem = problem.read()?;
    let mut list = rattle_std::Vec::with_capacity(Global, paths.len())?;
    for (agent, path) in (0..).zip(paths) {
        list.push_reserved(path_of(problem.grid(), agent, path.as_ref())?);
    }
    let plan = mapf_model::Plan::of(list).ok_or(other_count)?;
    let cost = check_plan(&problem, &plan)?;
    Ok((Planned { problem, plan }, cost))
}

/// The number of no cell, for what is outside of the grid: from there no step leads anywhere, nor from anywhere to it.
const OUTSIDE: mapf_model::Cell = mapf_model::Cell(u32::MAX);

/// The path of these cells, without those that repeat at its end.
fn path_of(grid: &Grid, agent: u32, cells: &[Cell]) -> Result<Path, Error> {
    let Some(last) = cells.last() else {
        return Err(Error::InvalidPlan(InvalidPlan::EmptyPath { agent }));
    };
    let cost = cells.iter().rposition(|cell| cell != last).map_or(0, |tick| tick + 1);
    let too_long = Error::InvalidPlan(InvalidPlan::LongPath { agent });
    if cost >= MOST_PATH_CELLS {
        return Err(too_long);
    }
    let mut path = rattle_std::Vec::with_capacity(Global, cost + 1)?;
    for &(x, y) in &cells[..=cost] {
        path.push_reserved(grid.cell(x, y).unwrap_or(OUTSIDE));
    }
    Path::of(path).ok_or(too_long)
}

impl From<AllocError> for Error {
    fn from(_refused: AllocError) -> Error {
        Error::Memory
    }
}
