//! Which jobs the words of the command line ask for.
use crate::crates::mapf_words::{Job, Search, job_of};
use crate::made::list;
use crate::rattle_std::String;
use crate::rattle_std::alloc::Global;

/// A text of the crates.
fn owned(text: &str) -> String {
    String::from_str(Global, text).expect("memory")
}

/// These words ask for this job.
#[track_caller]
fn assert_job(words: &str, job: Job) {
    assert_eq!(job_of(Global, list(words.split(' ').map(owned))), Ok(job), "{words}");
}

#[test]
fn each_command_gives_a_job() {
    let [map, scen, plan, cert] = ["m", "s", "p", "c"].map(owned);
    assert_job("mapf solve m s 200 100000 p c", Job::Solve { map, scen, k: 200, limit: 100_000, plan, cert });
    let [map, scen, plan, cert] = ["m", "s", "p", "c"].map(owned);
    assert_job("mapf check m s 1 p c", Job::Check { map, scen, k: 1, plan, cert });
    let [map, scen, plan] = ["m", "s", "p"].map(owned);
    assert_job("mapf play m s 2 p", Job::Play { map, scen, k: 2, plan });
    let [map, scen, plan, events] = ["m", "s", "p", "e"].map(owned);
    assert_job("mapf dispatch m s 2 p e", Job::Dispatch { map, scen, k: 2, plan, events });
    assert_job("mapf explain F6", Job::Explain { line: owned("F6") });
}

#[test]
fn no_command_gives_the_demo() {
    assert_job("mapf", Job::Demo);
    assert_eq!(job_of(Global, list([])), Ok(Job::Demo));
}

// Without a number there are 50 improvements for each agent.
#[test]
fn the_second_search_makes_improvements() {
    for (words, improvements) in [
        ("mapf solve --search cbsh m s 7 0 p c", 350),
        ("mapf solve --search cbsh --improve 0 m s 7 0 p c", 0),
        ("mapf solve m s 7 0 p c --improve=1000000 --search=cbsh", 1_000_000),
    ] {
        let [map, scen, plan, cert] = ["m", "s", "p", "c"].map(owned);
        let search = Search::Cbsh;
        assert_job(words, Job::SolveBy { search, map, scen, k: 7, limit: 0, improvements, plan, cert });
    }
}

// Plain search makes no improvements.
#[test]
fn a_search_may_be_asked_for_an_object() {
    for (words, search, improvements) in [
        ("mapf solve --json m s 7 0 p c", Search::Cbs, 0),
        ("mapf solve m s 7 0 p c --search cbs --json", Search::Cbs, 0),
        ("mapf solve m s 7 --search cbsh 0 p c --json", Search::Cbsh, 350),
        ("mapf solve --json --search cbsh --improve 9 m s 7 0 p c", Search::Cbsh, 9),
    ] {
        let [map, scen, plan, cert] = ["m", "s", "p", "c"].map(owned);
        assert_job(words, Job::SolveInJson { search, map, scen, k: 7, limit: 0, improvements, plan, cert });
    }
}

#[test]
fn a_check_may_be_asked_for_an_object() {
    for words in ["mapf check --json m s 1 p c", "mapf check m s --json 1 p c"] {
        let [map, scen, plan, cert] = ["m", "s", "p", "c"].map(owned);
        assert_job(words, Job::CheckInJson { map, scen, k: 1, plan, cert });
    }
}
