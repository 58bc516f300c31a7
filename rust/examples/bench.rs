//! The benchmark of docs/PERF.md.
use mapf::program::{HostRuntime, bench};
use std::process::ExitCode;

fn main() -> ExitCode {
    match bench(HostRuntime::of_process()) {
        Ok(()) => ExitCode::SUCCESS,
        Err(error) => {
            eprintln!("{error:?}");
            ExitCode::FAILURE
        }
    }
}
