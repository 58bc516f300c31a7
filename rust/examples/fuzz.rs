//! Hands damaged texts to each reader: `cargo run --release --example fuzz -- TEXTS SEED`.
use mapf::program::{HostRuntime, fuzz};
use std::process::ExitCode;

fn main() -> ExitCode {
    match fuzz(HostRuntime::of_process()) {
        Ok(()) => ExitCode::SUCCESS,
        Err(error) => {
            eprintln!("{error:?}");
            ExitCode::FAILURE
        }
    }
}
