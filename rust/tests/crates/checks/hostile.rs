//! Texts that are cut short or changed in a byte.
use crate::crates::mapf_app::{CertFault, CheckFault, PlanTextFault};
use crate::crates::mapf_checker::check;
use crate::problems::*;
use crate::rattle_std::alloc::Global;

/// Certificates of both versions and of a bound, each with its problem and the plan text beside it.
const TEXTS: [(Given, &str, &str); 3] = [
    (CROSSING, CROSSING_PLAN, CROSSING_ONE),
    (NICHE, NICHE_PLAN, NICHE_CERT),
    (EXCHANGE, EXCHANGE_STOPPED_PLAN, EXCHANGE_STOPPED_CERT),
];

#[test]
fn a_certificate_that_is_cut_short_misses_its_next_line() {
    for (given, plan, cert) in TEXTS {
        let problem = given.problem();
        for length in 0..cert.len() {
            let cut = &cert.as_bytes()[..length];
            let refusal = CheckFault::C2(CertFault::K2(line_cut(cut)));
            assert_eq!(check(Global, &problem, plan.as_bytes(), cut), Err(refusal), "{length} bytes of {cert}");
        }
    }
}

#[test]
fn a_plan_text_that_is_cut_short_misses_its_next_line() {
    for (given, plan, cert) in TEXTS {
        let problem = given.problem();
        for length in 0..plan.len() {
            let cut = &plan.as_bytes()[..length];
            let refusal = CheckFault::C1(PlanTextFault::P2(line_cut(cut)));
            assert_eq!(check(Global, &problem, cut, cert.as_bytes()), Err(refusal), "{length} bytes of {plan}");
        }
    }
}

/// The changes of a single byte with which a certificate that is accepted stays so: the byte's place, and what it
/// becomes.
fn accepted_changes(given: &Given, plan: &str, cert: &str) -> Vec<(usize, u8)> {
    let problem = given.problem();
    let is_accepted = |cert: &[u8]| check(Global, &problem, plan.as_bytes(), cert).is_ok();
    assert!(is_accepted(cert.as_bytes()), "{cert}");
    let changes = cert.bytes().enumerate().flat_map(|(place, old)| {
        let others = (0..=u8::MAX).filter(move |&byte| byte != old);
        others.map(move |byte| (place, byte))
    });
    let is_harmless = |&(place, byte): &(usize, u8)| {
        let mut changed = cert.as_bytes().to_vec();
        changed[place] = byte;
        is_accepted(&changed)
    };
    changes.filter(is_harmless).collect()
}

#[test]
fn a_small_certificate_is_refused_with_any_change_of_a_byte() {
    assert_eq!(accepted_changes(&CROSSING, CROSSING_PLAN, CROSSING_ONE), []);
    assert_eq!(accepted_changes(&CROSSING, CROSSING_STOPPED_PLAN, CROSSING_STOPPED_CERT), []);
}

/// A lower label of the start that is enough, or another entry in place of one that isn't needed.
const HARMLESS: [(usize, u8); 12] = [
    (131, b'3'),
    (170, b'4'),
    (214, b'0'),
    (214, b'2'),
    (216, b'1'),
    (220, b'1'),
    (220, b'2'),
    (220, b'3'),
    (336, b'1'),
    (336, b'2'),
    (422, b'1'),
    (492, b'1'),
];

#[test]
fn a_large_certificate_is_accepted_with_a_few_changes_of_a_byte() {
    assert_eq!(accepted_changes(&NICHE, NICHE_PLAN, NICHE_CERT), HARMLESS);
}
