//! The texts of an answer of the second search, and what the checker says of them.
use crate::crates::mapf_certificate::{PlanAnswer, PlanText, Version, write_plan};
use crate::crates::mapf_checker::{Verdict, check};
use crate::crates::mapf_groups::{Outcome, search};
use crate::crates::mapf_lemma_texts::{Part, WriteFault, write_lemma_cert};
use crate::crates::mapf_model::{Claim, OutOfMemory, Problem};
use crate::rattle_std::Vec;
use crate::rattle_std::alloc::Global;

/// What an answer claims, its plan text, and its certificate.
#[derive(Debug, PartialEq)]
pub struct Texts {
    pub claim: Claim,
    pub plan: Vec<u8>,
    pub cert: Vec<u8>,
}

impl Texts {
    /// The sum of costs of the plan, or the bound of that of each plan. None if no plan is valid.
    pub fn sum(&self) -> Option<u64> {
        match self.claim {
            Claim::Cost(sum) | Claim::Bound(sum) => Some(sum),
            Claim::Impossible => None,
        }
    }
}

/// The plan text that gives this answer.
pub fn plan_text(problem: &Problem, answer: PlanAnswer) -> Result<Vec<u8>, OutOfMemory> {
    let agents = problem.agents().len() as u32;
    write_plan(Global, &PlanText { version: Version::Two, agents, answer }, problem.grid())
}

/// The certificate of these parts.
pub fn cert_text(problem: &Problem, claim: Claim, parts: &[Part]) -> Result<Vec<u8>, WriteFault> {
    let agents = problem.agents().len() as u32;
    write_lemma_cert(Global, problem.grid(), agents, claim, parts)
}

/// The texts of what was found.
pub fn texts_of(problem: &Problem, outcome: Outcome) -> Result<Texts, WriteFault> {
    let (claim, answer, parts) = match outcome {
        Outcome::Found { plan, parts } => {
            let cost = plan.sum(problem).expect("each path ends at its agent's goal");
            (Claim::Cost(cost), PlanAnswer::Found(plan), parts)
        }
        Outcome::Impossible { parts } => (Claim::Impossible, PlanAnswer::Impossible, parts),
        Outcome::Limit { cause, bound, parts } => (Claim::Bound(bound), PlanAnswer::Bounded { cause, bound }, parts),
    };
    let plan = plan_text(problem, answer).map_err(|OutOfMemory| WriteFault::Memory)?;
    let cert = cert_text(problem, claim, &parts)?;
    Ok(Texts { claim, plan, cert })
}

/// The texts of what was found, which the checker accepts.
#[track_caller]
pub fn accepted(problem: &Problem, outcome: Outcome) -> Texts {
    let texts = texts_of(problem, outcome).expect("memory");
    let wanted = match texts.claim {
        Claim::Cost(cost) => Verdict::Optimal(cost),
        Claim::Bound(bound) => Verdict::Bound(bound),
        Claim::Impossible => Verdict::Impossible,
    };
    assert_eq!(check(Global, problem, &texts.plan, &texts.cert), Ok(wanted), "{problem:?}");
    texts
}

/// The texts of what a search with so many splits finds, which the checker accepts.
#[track_caller]
pub fn searched(problem: &Problem, limit: u32) -> Texts {
    accepted(problem, search(Global, problem, limit).expect("memory"))
}
