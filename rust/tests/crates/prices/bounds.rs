//! A bound by prices with its certificate, and what the checker says of them.
use crate::crates::mapf_certificate::PlanAnswer;
use crate::crates::mapf_checker::{Verdict, check, check_plan};
use crate::crates::mapf_groups::{Priced, bound_by_prices};
use crate::crates::mapf_model::{Claim, Plan, Problem};
use crate::groups::answers::{cert_text, plan_text};
use crate::rattle_std::Vec;
use crate::rattle_std::alloc::Global;

/// A valid plan that is known: its text, and its sum of costs.
pub struct Known {
    text: Vec<u8>,
    pub cost: u64,
}

impl Known {
    /// What is known by a plan, which has to be valid.
    #[track_caller]
    pub fn of(problem: &Problem, plan: Plan) -> Known {
        let cost = check_plan(problem, &plan).expect("a valid plan");
        let text = plan_text(problem, PlanAnswer::Found(plan)).expect("memory");
        Known { text, cost }
    }

    /// The bound isn't above the cost of the plan, which is optimal if it is the bound. The checker accepts the
    /// certificate that shows the bound.
    #[track_caller]
    pub fn assert_shown(&self, problem: &Problem, found: &Priced) {
        let (bound, cost) = (found.bound, self.cost);
        assert!(bound <= cost, "{bound} > {cost}, {problem:?}");
        let (claim, verdict) = if bound == cost {
            (Claim::Cost(cost), Verdict::Optimal(cost))
        } else {
            (Claim::Bound(bound), Verdict::Within { bound, cost })
        };
        let cert = cert_text(problem, claim, &found.parts).expect("memory");
        assert_eq!(check(Global, problem, &self.text, &cert), Ok(verdict), "{problem:?}");
    }

    /// The certificate of a bound doesn't show a higher one.
    #[track_caller]
    fn assert_not_higher(&self, problem: &Problem, found: &Priced) {
        let cert = cert_text(problem, Claim::Bound(found.bound + 1), &found.parts).expect("memory");
        let verdict = check(Global, problem, &self.text, &cert);
        assert!(verdict.is_err(), "{verdict:?}, {problem:?}");
    }
}

/// The bound by prices, where this bound and the cost of a plan are known. None if no prices are tried.
pub fn priced(problem: &Problem, bound: u64, cost: u64) -> Option<Priced> {
    bound_by_prices(Global, problem, bound, cost).expect("memory")
}

/// The bound by prices, where a plan is known. The certificate shows it, and shows none that is higher. None if no
/// prices are tried.
#[track_caller]
pub fn judged_bound(problem: &Problem, plan: Plan) -> Option<u64> {
    let known = Known::of(problem, plan);
    let found = priced(problem, 0, known.cost)?;
    known.assert_shown(problem, &found);
    known.assert_not_higher(problem, &found);
    Some(found.bound)
}
