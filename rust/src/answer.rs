//! What a search finds, and what two texts show.
use crate::code::Code;
use crate::crates::mapf_app;
use crate::plan::Plan;

/// What a search found. Costs and bounds are in ticks.
#[derive(Clone, Debug, PartialEq, Eq)]
pub enum Outcome {
    /// A plan, and no valid plan has a smaller sum of costs.
    Optimal {
        /// The plan's sum of costs.
        cost: u64,
        /// The plan.
        plan: Plan,
    },
    /// A plan, and no valid plan has a sum of costs below the bound: the search reached a limit. Plain search never
    /// answers this.
    Within {
        /// The bound, which is below the cost.
        bound: u64,
        /// The plan's sum of costs.
        cost: u64,
        /// The plan.
        plan: Plan,
    },
    /// No plan was found before the search reached a limit, and no valid plan has a sum of costs below the bound.
    Bound {
        /// The bound.
        bound: u64,
    },
    /// No plan is valid.
    Impossible,
}

impl Outcome {
    /// The plan, if there is one.
    pub fn plan(&self) -> Option<&Plan> {
        match self {
            Outcome::Optimal { plan, .. } | Outcome::Within { plan, .. } => Some(plan),
            Outcome::Bound { .. } | Outcome::Impossible => None,
        }
    }

    /// The plan's sum of costs, if there is one.
    pub fn cost(&self) -> Option<u64> {
        match *self {
            Outcome::Optimal { cost, .. } | Outcome::Within { cost, .. } => Some(cost),
            Outcome::Bound { .. } | Outcome::Impossible => None,
        }
    }

    /// The bound below which no valid plan has its sum of costs: the cost of a plan that is optimal. None if no plan is
    /// valid.
    pub fn bound(&self) -> Option<u64> {
        match *self {
            Outcome::Optimal { cost: bound, .. } | Outcome::Within { bound, .. } | Outcome::Bound { bound } => {
                Some(bound)
            }
            Outcome::Impossible => None,
        }
    }
}

/// What a search found, and the two texts that show it to anyone. There may be more in later versions.
#[derive(Clone, Debug, PartialEq, Eq)]
#[non_exhaustive]
pub struct Answer {
    /// What the search found.
    pub outcome: Outcome,
    /// The plan text, in ASCII: section 2 of docs/FORMATS.md specifies it.
    pub plan_text: Vec<u8>,
    /// The certificate, in ASCII: sections 3 and 9 of docs/FORMATS.md specify it.
    pub certificate: Vec<u8>,
    /// Why the check refused what [`Search::Cbsh`](crate::Search::Cbsh) found. This is then the answer of
    /// [`Search::Cbs`](crate::Search::Cbs), with the same limit. It is a defect of the search: please report it.
    pub refused: Option<Code>,
}

/// What a plan text and a certificate show of a problem. Costs and bounds are in ticks.
#[derive(Clone, Copy, Debug, PartialEq, Eq, Hash)]
pub enum Verdict {
    /// The plan is valid, and no valid plan has a smaller sum of costs.
    Optimal {
        /// The plan's sum of costs.
        cost: u64,
    },
    /// The plan is valid, and no valid plan has a sum of costs below the bound.
    Within {
        /// The bound, which is below the cost.
        bound: u64,
        /// The plan's sum of costs.
        cost: u64,
    },
    /// The plan text holds no plan, and no valid plan has a sum of costs below the bound.
    Bound {
        /// The bound.
        bound: u64,
    },
    /// No plan is valid.
    Impossible,
}

impl From<mapf_app::Verdict> for Verdict {
    fn from(verdict: mapf_app::Verdict) -> Verdict {
        match verdict {
            mapf_app::Verdict::Optimal(cost) => Verdict::Optimal { cost },
            mapf_app::Verdict::Within { bound, cost } => Verdict::Within { bound, cost },
            mapf_app::Verdict::Bound(bound) => Verdict::Bound { bound },
            mapf_app::Verdict::Impossible => Verdict::Impossible,
        }
    }
}
