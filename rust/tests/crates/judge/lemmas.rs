//! Certificates of version 3.
use super::judging::{
    Change, Claimed, Refused, assert_calls, assert_claimed, assert_judged, assert_refusals, judged_within,
};
use crate::crates::mapf_certificate::CertFault;
use crate::crates::mapf_checker::{CheckFault, FromFault, Verdict};
use crate::crates::mapf_model::devices::Pace;
use crate::problems::EXCHANGE;

/// Of the crossing: both agents together cost 5 at least.
const PAIR_CERT: &str = "mapf-cert 3\nagents 2\nclaim cost 5\nprices 0\nlemmas 1\n\
two 0 1 0 0 0 1 -\nat 0,1 1,0 0 5\nleaf 0 1 -\ngroup 1 1\nuse 0 1\nend\n";

/// The same by a price of the cell in the middle at tick 1.
const PRICE_CERT: &str = "mapf-cert 3\nagents 2\nclaim cost 5\nprices 1\nlist 1 1\nprice 1,1 1 1\nlemmas 2\n\
one 0 0 1 0\nat 0,1 0 3\none 1 0 1 0\nat 1,0 0 3\nleaf 2 0 0\nuse 0\nuse 1\nend\n";

/// The agents of the exchange can't pass each other.
const PASSING_CERT: &str = "mapf-cert 3\nagents 2\nclaim impossible\nprices 0\n\
lemmas 1\nnever 0 1 1\ncells 0,0 1,0\nleaf 0 1 -\ngroup 1 1\nuse 0 1\nend\n";

// The first line says of which version a certificate is.
#[test]
fn titles_are_judged() {
    let changes: [Change; 4] = [
        (1..=1, "mapf-cert 2\n", Err(CheckFault::C2(CertFault::K1(4)))),
        (1..=1, "mapf-cert 03\n", Err(CheckFault::C2(CertFault::K1(1)))),
        (1..=1, "mapf-cert 3 \n", Err(CheckFault::C2(CertFault::K1(1)))),
        (1..=11, "mapf-cert 3", Err(CheckFault::C2(CertFault::K2(1)))),
    ];
    assert_judged(PAIR_CERT, &changes);
}

// Beside a plan of cost 5.
#[test]
fn claims_are_judged() {
    let changes: [Change; 4] = [
        (3..=3, "claim bound 5\n", Ok(Verdict::Optimal(5))),
        (3..=3, "claim bound 4\n", Ok(Verdict::Within { bound: 4, cost: 5 })),
        (3..=3, "claim bound 6\n", Err(CheckFault::C4)),
        (2..=3, "agents 3\nclaim bound 6\n", Err(CheckFault::C3)),
    ];
    assert_judged(PAIR_CERT, &changes);
    assert_judged(PRICE_CERT, &changes);
}

#[test]
fn the_limit_of_bytes_is_kept() {
    assert_eq!(judged_within(PAIR_CERT, 118), Ok(Verdict::Optimal(5)));
    assert_eq!(judged_within(PAIR_CERT, 117), Err(FromFault::TooLong));
    // The first line is too long already.
    assert_eq!(judged_within(PAIR_CERT, 11), Err(FromFault::TooLong));
}

#[test]
fn each_pull_may_fail() {
    assert_calls(PAIR_CERT, Pace::ByteByByte, 119);
    assert_calls(PAIR_CERT, Pace::AllAtOnce, 2);
}

// A part is read whole before it is judged.
#[test]
fn nothing_is_pulled_after_a_refusal() {
    let refusals: [Refused; 11] = [
        (2..=2, "agents 3\n", 3, CheckFault::C3),
        (3..=3, "claim impossible\n", 3, CheckFault::C4),
        (6..=6, "two 0 0 0 0 0 1 -\n", 7, CheckFault::C10(6)),
        (6..=6, "two 0 1 0 0 0 1 0\n", 6, CheckFault::C2(CertFault::K3(6))),
        (7..=7, "at 0,1 1,0 0 6\n", 7, CheckFault::C7(7)),
        (7..=7, "at 0,1 1,0 0 4\n", 10, CheckFault::C8(8)),
        (8..=8, "leaf 1 1 -\nuse 0\n", 11, CheckFault::C10(9)),
        (8..=8, "vertex 0 0 1,1 1\n", 8, CheckFault::C6(8)),
        (8..=8, "clash 0 1\n", 8, CheckFault::C9(8)),
        (10..=10, "use 1 1\n", 10, CheckFault::C10(10)),
        (11..=11, "end\nx", 12, CheckFault::C2(CertFault::K4(12))),
    ];
    assert_refusals(PAIR_CERT, &refusals);
}

#[test]
fn trees_are_judged() {
    let changes: [Change; 9] = [
        (8..=8, "cost 0 2\nleaf 0 1 -\ngroup 1 1\nuse 0 1\nleaf 0 1 -\n", Ok(Verdict::Optimal(5))),
        (8..=8, "cost 0 2\nleaf 0 0 -\nleaf 0 1 -\n", Err(CheckFault::C8(9))),
        (8..=8, "costs 0 2 1 4 0\nleaf 0 0 -\nleaf 0 1 -\n", Err(CheckFault::C10(8))),
        (8..=8, "costs 0 2 0 3 0\nleaf 0 0 -\nleaf 0 1 -\n", Err(CheckFault::C6(8))),
        // If agent 0 costs 2 at most, agent 1 costs 3 at least.
        (
            5..=8,
            "lemmas 2\ntwo 0 1 0 0 0 1 -\nat 0,1 1,0 0 5\none 1 1 0 -\nleast 1 3\n\
            costs 0 2 1 3 0\nleaf 1 0 -\nuse 1\nleaf 0 1 -\n",
            Ok(Verdict::Optimal(5)),
        ),
        (
            5..=8,
            "lemmas 2\ntwo 0 1 0 0 0 1 -\nat 0,1 1,0 0 5\none 1 1 0 -\nleast 1 4\n\
            costs 0 2 1 3 0\nleaf 1 0 -\nuse 1\nleaf 0 1 -\n",
            Err(CheckFault::C10(12)),
        ),
        // A lemma by cases uses the one before it.
        (
            5..=10,
            "lemmas 2\ntwo 0 1 0 0 0 1 -\nat 0,1 1,0 0 5\ncases 2 0 5\nagent 0\nagent 1\n\
            leaf 0 1 -\ngroup 1 1\nuse 0 1\nleaf 0 1 -\ngroup 1 1\nuse 1 1\n",
            Ok(Verdict::Optimal(5)),
        ),
        (
            5..=10,
            "lemmas 2\ntwo 0 1 0 0 0 1 -\nat 0,1 1,0 0 5\ncases 2 0 6\nagent 0\nagent 1\n\
            leaf 0 1 -\ngroup 1 1\nuse 0 1\nleaf 0 1 -\ngroup 1 1\nuse 1 1\n",
            Err(CheckFault::C8(11)),
        ),
        (
            5..=10,
            "lemmas 2\ncases 2 0 5\nagent 0\nagent 1\nleaf 0 1 -\ngroup 1 1\nuse 1 1\n\
            two 0 1 0 0 0 1 -\nat 0,1 1,0 0 5\nleaf 0 1 -\ngroup 1 1\nuse 0 1\n",
            Err(CheckFault::C10(11)),
        ),
    ];
    assert_judged(PAIR_CERT, &changes);
}

#[test]
fn prices_are_judged() {
    let changes: [Change; 8] = [
        (6..=6, "price 1,1 1 2\n", Err(CheckFault::C8(12))),
        (5..=6, "list 1 2\nprice 0,1 1 1\nprice 1,1 1 1\n", Err(CheckFault::C8(13))),
        (6..=6, "price 0,1 2,1 1 1\n", Err(CheckFault::C10(6))),
        (6..=6, "price 1,1 0,1 1 1\n", Err(CheckFault::C2(CertFault::K1(6)))),
        (8..=8, "one 0 0 1 -\n", Err(CheckFault::C7(9))),
        (9..=9, "at 0,1 0 4\n", Err(CheckFault::C7(9))),
        (12..=12, "leaf 2 0 -\n", Err(CheckFault::C10(13))),
        (13..=14, "use 1\nuse 0\n", Err(CheckFault::C2(CertFault::K1(14)))),
    ];
    assert_judged(PRICE_CERT, &changes);
}

// No plan is valid, so each bound holds.
#[test]
fn joint_cells_are_judged() {
    let cases: [Claimed; 4] = [
        (2, "limit 3 bound 4", "bound 4", Ok(Verdict::Bound(4))),
        (2, "limit ticks bound 5", "bound 5", Ok(Verdict::Bound(5))),
        (2, "limit 3 bound 4", "bound 3", Err(CheckFault::C4)),
        (2, "impossible", "bound 4", Err(CheckFault::C4)),
    ];
    assert_claimed(&EXCHANGE, PASSING_CERT, &cases);
}
