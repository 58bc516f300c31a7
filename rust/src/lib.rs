//! Optimal multi-agent path finding (MAPF) on grids, with certificates that anyone can check.
//!
//! ```
//! use mapf::{Options, Outcome, Problem, Verdict};
//!
//! // Two agents whose shortest paths meet in the middle. An agent may stand where `free[y][x]` is true.
//! let free = [[true; 3]; 3];
//! let problem = Problem::new(&free, &[(0, 1), (1, 0)], &[(2, 1), (1, 2)])?;
//! let answer = mapf::solve(&problem, &Options::default())?;
//! if let Outcome::Optimal { cost, plan } = &answer.outcome {
//!     println!("The cheapest plan costs {cost}:");
//!     for path in plan.paths() {
//!         println!("{path:?}");
//!     }
//! }
//! assert_eq!(answer.outcome.cost(), Some(5));
//!
//! // Whoever doesn't trust the search checks what it wrote.
//! assert_eq!(mapf::check(&problem, &answer.plan_text, &answer.certificate)?, Verdict::Optimal { cost: 5 });
//! # Ok::<(), mapf::Error>(())
//! ```
//!
//! # The problem
//!
//! This is classical MAPF (Stern et al. 2019) on four-connected grids. At each tick an agent waits or moves to an
//! adjacent free cell, and in the end each stays at its goal. A plan is valid if no two agents are ever in one cell, and
//! no two exchange their cells. The cost of an agent is the tick of its last arrival at its goal, and the cost of a plan
//! is the sum of the agents' costs.
//!
//! A cell is `(x, y)`: its column and its row, both counted from 0 at the top left. There are 1 to 200 agents, counted
//! from 0, on a grid of at most 2,048 columns and rows.
//!
//! # What is here
//!
//! - [`solve`] finds a plan of the least sum of costs, or a bound on it, with a certificate; [`Options`] limit the search.
//! - [`check`](check()) checks a plan with a certificate, whoever made them, and [`validate`] judges a plan alone.
//!   [`check_paths`] and [`validate_paths`] take a plan as arrays of cells.
//! - [`Dispatcher`] lets agents follow a plan with delays.
//!
//! Whatever is passed, an [`Error`] says in words what is wrong with it. If memory runs out, the error is
//! [`Error::Memory`].
//!
//! # What is proved
//!
//! The build script translates the code that solves and checks from sources in Rattle, which is Rust with contracts. Of
//! these sources it is proved that every answer is true. The translation, what stands for Rattle's standard library, the
//! calls on this page, Rust's compiler and its standard library aren't part of that proof: docs/PROOFS.md says what it
//! rests on. Who trusts none of this lets another checker check the plan text and the certificate of an answer.
//!
//! # Features
//!
//! - `cli` (default): the program `mapf`.
//! - `c`: the calls of `include/mapf.h`, for programs in C and C++.
#![cfg_attr(not(feature = "c"), forbid(unsafe_code))]
#![cfg_attr(feature = "c", deny(unsafe_code))]
#![warn(missing_debug_implementations, missing_docs)]

mod answer;
#[cfg(feature = "c")]
mod c;
mod check;
mod code;
mod dispatcher;
mod error;
mod options;
mod plan;
mod problem;
mod solve;
mod text;

// What the build script makes of `crates/*/src`.
#[allow(clippy::all, missing_debug_implementations, missing_docs, unused)]
#[warn(clippy::incompatible_msrv)]
mod crates {
    include!(concat!(env!("OUT_DIR"), "/crates.rs"));
}

#[path = "../std/mod.rs"]
mod rattle_std;

pub use answer::{Answer, Outcome, Verdict};
pub use check::{check, check_paths, validate, validate_paths};
pub use code::Code;
pub use dispatcher::{Dispatcher, Reply, Visit};
pub use error::{Error, InvalidPlan};
pub use options::{Options, Search};
pub use plan::{Cell, Plan};
pub use problem::Problem;
pub use solve::{Progress, solve, solve_watched};

/// The programs, for `rust/src/main.rs` and `rust/examples` alone.
#[cfg(feature = "cli")]
#[doc(hidden)]
pub mod program {
    pub use crate::crates::mapf::main_with;
    pub use crate::crates::mapf_bench::main_with as bench;
    pub use crate::crates::mapf_fuzz::main_with as fuzz;
    pub use crate::rattle_std::HostRuntime;
}
