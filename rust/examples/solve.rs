//! Solves the problem of the first agents of a MovingAI scenario, checks the answer, and writes the plan:
//!
//!     cargo run --release --example solve -- examples/random-32-32.map examples/random-32-32.scen 24 plan.txt
use mapf::{Options, Outcome, Problem, check, solve_watched};
use std::error::Error;
use std::process::ExitCode;
use std::{env, fs};

fn main() -> ExitCode {
    match run() {
        Ok(()) => ExitCode::SUCCESS,
        Err(error) => {
            eprintln!("{error}");
            ExitCode::FAILURE
        }
    }
}

fn run() -> Result<(), Box<dyn Error>> {
    let words: Vec<String> = env::args().skip(1).collect();
    let [map, scenario, agents, plan] = words.as_slice() else {
        return Err("give a map, a scenario, the number of agents, and a file for the plan".into());
    };
    let problem = Problem::from_movingai(fs::read(map)?, fs::read(scenario)?, agents.parse()?)?;
    let options = Options::default().splits(1_000);
    let answer = solve_watched(&problem, &options, |progress| {
        eprintln!("{} splits, at least {}", progress.splits, progress.bound);
    })?;
    match &answer.outcome {
        Outcome::Optimal { cost, .. } => println!("the cheapest plan costs {cost}"),
        Outcome::Within { bound, cost, .. } => println!("a plan costs {cost}, and none costs less than {bound}"),
        Outcome::Bound { bound } => println!("no plan was found, and none costs less than {bound}"),
        Outcome::Impossible => println!("no plan is valid"),
    }
    println!("checked: {:?}", check(&problem, &answer.plan_text, &answer.certificate)?);
    fs::write(plan, &answer.plan_text)?;
    Ok(())
}
