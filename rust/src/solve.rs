//! The calls that solve a problem.
use crate::answer::{Answer, Outcome};
use crate::code::Code;
use crate::crates::mapf_app::{Asked, Fault, Kind, run_solve_by};
use crate::crates::mapf_model::Watcher;
use crate::error::Error;
use crate::options::Options;
use crate::plan::Plan;
use crate::problem::Problem;
use crate::rattle_std::alloc::Global;
use crate::text::Text;

/// How far a search is. There may be more of this in later versions.
#[derive(Clone, Copy, Debug, PartialEq, Eq)]
#[non_exhaustive]
pub struct Progress {
    /// How many splits were made.
    pub splits: u32,
    /// No valid plan has a sum of costs below this, in ticks. This bound has no certificate; that of an
    /// answer has.
    pub bound: u64,
    /// The sum of costs of the plan with which the search began, in ticks, if there is one.
    pub cost: Option<u64>,
    /// How many nodes of the tree are open.
    pub open: usize,
}

/// Solves a problem: finds a plan of the least sum of costs, or where the splits don't suffice a bound on it, mostly with
/// a plan. The same problem and options give the same answer.
///
/// # Errors
///
/// [`Error::Splits`] and [`Error::Improvements`] say that an option is out of its range, and [`Error::Memory`] that
/// memory ran out.
pub fn solve(problem: &Problem, options: &Options) -> Result<Answer, Error> {
    solve_watched(problem, options, |_| {})
}

/// Solves a problem as [`solve`] does, and tells after every 256 splits how far the search is.
///
/// ```
/// # let problem = mapf::Problem::from_rows(&["..."], &[(0, 0)], &[(2, 0)])?;
/// # let options = mapf::Options::default();
/// let answer = mapf::solve_watched(&problem, &options, |progress| {
///     eprintln!("{} splits, at least {}", progress.splits, progress.bound);
/// })?;
/// # assert_eq!(answer.outcome.cost(), Some(2));
/// # Ok::<(), mapf::Error>(())
/// ```
///
/// # Errors
///
/// Those of [`solve`].
pub fn solve_watched(problem: &Problem, options: &Options, watch: impl FnMut(Progress)) -> Result<Answer, Error> {
    let mut watcher = Watching { watch, cost: None };
    let asked = Asked {
        search: options.search.into(),
        k: problem.agents(),
        limit: options.splits,
        improvements: options.improvements_for(problem.agents())?,
        watcher: &mut watcher,
    };
    let (mut map, mut scenario) = problem.sources();
    let (mut plan, mut certificate) = (Text::new(), Text::new());
    let answered = run_solve_by(Global, &mut map, &mut scenario, asked, &mut plan, &mut certificate)?;
    let plan_text = plan.into_bytes();
    let outcome = match answered.kind {
        Kind::Found(cost) => Outcome::Optimal { cost, plan: Plan::from_text(problem, &plan_text)? },
        Kind::Within { bound, cost } => Outcome::Within { bound, cost, plan: Plan::from_text(problem, &plan_text)? },
        Kind::Limit { bound, .. } => Outcome::Bound { bound },
        Kind::Impossible => Outcome::Impossible,
    };
    Ok(Answer {
        outcome,
        plan_text,
        certificate: certificate.into_bytes(),
        refused: answered.refused.map(|refusal| Code(Fault::Refused(refusal))),
    })
}

/// Hands what a search tells to a closure.
struct Watching<F> {
    watch: F,
    cost: Option<u64>,
}

impl<F: FnMut(Progress)> Watcher for Watching<F> {
    fn note(&mut self, splits: u32, bound: u64, open: usize) {
        let cost = self.cost;
        (self.watch)(Progress { splits, bound, cost, open });
    }

    fn note_plan(&mut self, cost: u64) {
        self.cost = Some(cost);
    }
}
