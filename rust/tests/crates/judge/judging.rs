//! Checks of a plan text and a certificate, of changed texts, and of certificates that come from a source.
use crate::crates::mapf_checker::{CheckFault, FromFault, Verdict, check, check_from};
use crate::crates::mapf_model::devices::{FuseSource, Pace};
use crate::crates::mapf_model::{BytesSource, Problem, Source};
use crate::problems::{CROSSING, CROSSING_PLAN, Given, plan_in_other_version, with_lines};
use crate::rattle_std::alloc::Global;
use std::ops::RangeInclusive;

/// What the check says of a plan text and a certificate.
pub fn judged(problem: &Problem, plan: &str, cert: &str) -> Result<Verdict, CheckFault> {
    check(Global, problem, plan.as_bytes(), cert.as_bytes())
}

/// The crossing's plan text in version 1.
pub fn crossing_plan() -> String {
    plan_in_other_version(CROSSING_PLAN).expect("version 1")
}

/// Which lines of a text are replaced by which, and what is said then.
pub type Change = (RangeInclusive<usize>, &'static str, Result<Verdict, CheckFault>);

/// Beside the crossing's plan the check says this of each changed certificate.
#[track_caller]
pub fn assert_judged(cert: &str, changes: &[Change]) {
    for (replaced, lines, answer) in changes {
        let changed = with_lines(cert, replaced.clone(), lines);
        assert_eq!(judged(&CROSSING.problem(), &crossing_plan(), &changed), *answer, "{changed}");
    }
}

/// The version and the answer of a plan text for two agents, what the certificate claims, and what is said of both.
pub type Claimed = (u32, &'static str, &'static str, Result<Verdict, CheckFault>);

/// The check says this if the certificate makes these claims.
#[track_caller]
pub fn assert_claimed(given: &Given, cert: &str, cases: &[Claimed]) {
    for (version, says, claims, answer) in cases {
        let plan = format!("mapf-plan {version}\nagents 2\n{says}\nend\n");
        let claiming = with_lines(cert, 3..=3, &format!("claim {claims}\n"));
        assert_eq!(judged(&given.problem(), &plan, &claiming), *answer, "{says}, {claims}");
    }
}

/// What the check of the crossing's plan says where the certificate comes from a source and has at most so many bytes.
pub fn judged_from<S: Source>(source: &mut S, limit: u64) -> Result<Verdict, FromFault> {
    check_from(Global, &CROSSING.problem(), crossing_plan().as_bytes(), source, limit)
}

/// The same where the source gives the bytes of this text and never fails.
pub fn judged_within(cert: &str, limit: u64) -> Result<Verdict, FromFault> {
    judged_from(&mut BytesSource::of(cert.as_bytes()), limit)
}

/// The bytes of the certificate come in so many calls, of which the last tells that they have ended.
#[track_caller]
pub fn assert_calls(cert: &str, pace: Pace, calls: u64) {
    let judged = |granted| {
        let mut source = FuseSource::of(cert.as_bytes(), pace, Some(granted));
        (judged_from(&mut source, cert.len() as u64), source.failed())
    };
    for granted in 0..calls {
        assert_eq!(judged(granted), (Err(FromFault::Device), true), "{granted} calls");
    }
    assert_eq!(judged(calls), (Ok(Verdict::Optimal(5)), false));
}

/// A change of a certificate, the line with which its refusal is known, and the refusal.
pub type Refused = (RangeInclusive<usize>, &'static str, usize, CheckFault);

/// Beside the crossing's plan each refusal is known with its line, and nothing more is read: the source fails right
/// behind that line, or before its LF, or it has given all at once.
#[track_caller]
pub fn assert_refusals(cert: &str, refusals: &[Refused]) {
    for (replaced, lines, known, refusal) in refusals {
        let changed = with_lines(cert, replaced.clone(), lines);
        let needed: usize = changed.split_inclusive('\n').take(*known).map(str::len).sum();
        let refused = Err(FromFault::Refused(*refusal));
        for (pace, calls, answer) in [
            (Pace::ByteByByte, needed, refused),
            (Pace::ByteByByte, needed - 1, Err(FromFault::Device)),
            (Pace::AllAtOnce, 1, refused),
        ] {
            let mut source = FuseSource::of(changed.as_bytes(), pace, Some(calls as u64));
            assert_eq!(judged_from(&mut source, 999), answer, "{changed} {pace:?} {calls}");
        }
    }
}
