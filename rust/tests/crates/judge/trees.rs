//! Trees of constraints in certificates of versions 1 and 2.
use super::judging::{Change, Refused, assert_calls, assert_claimed, assert_judged, assert_refusals, judged_within};
use crate::crates::mapf_certificate::CertFault;
use crate::crates::mapf_checker::{CheckFault, FromFault, Verdict};
use crate::crates::mapf_model::devices::Pace;
use crate::problems::{CROSSING_CERT, CROSSING_ONE, EXCHANGE, EXCHANGE_STOPPED_CERT};

#[test]
fn the_limit_of_bytes_is_kept() {
    assert_eq!(judged_within(CROSSING_ONE, 111), Ok(Verdict::Optimal(5)));
    assert_eq!(judged_within(CROSSING_ONE, 110), Err(FromFault::TooLong));
    let longer = format!("{CROSSING_ONE}x");
    assert_eq!(judged_within(&longer, 111), Err(FromFault::TooLong));
    let refused = CheckFault::C2(CertFault::K4(12));
    assert_eq!(judged_within(&longer, 112), Err(FromFault::Refused(refused)));
}

#[test]
fn each_pull_may_fail() {
    assert_calls(CROSSING_ONE, Pace::ByteByByte, 112);
    assert_calls(CROSSING_ONE, Pace::AllAtOnce, 2);
}

#[test]
fn nothing_is_pulled_after_a_refusal() {
    let refusals: [Refused; 14] = [
        (2..=2, "agents 3\n", 3, CheckFault::C3),
        (3..=3, "claim cost 4\n", 3, CheckFault::C4),
        (3..=3, "claim impossible\n", 3, CheckFault::C4),
        (1..=3, "mapf-cert 2\nagents 2\nclaim bound 5\n", 3, CheckFault::C4),
        (4..=4, "vertex 0 1 1,1 01\n", 4, CheckFault::C2(CertFault::K1(4))),
        (4..=4, "vertex 0 1 1,1 1000000\n", 4, CheckFault::C2(CertFault::K3(4))),
        (4..=4, "vertex 0 0 1,1 1\n", 4, CheckFault::C6(4)),
        (7..=7, "at 0,1 0 4\n", 7, CheckFault::C7(7)),
        (10..=10, "at 1,0 0 4\n", 10, CheckFault::C7(10)),
        (5..=7, "leaf 0\n", 5, CheckFault::C8(5)),
        (8..=10, "leaf 0\n", 8, CheckFault::C8(8)),
        (4..=10, "clash 0 1\n", 4, CheckFault::C9(4)),
        (8..=10, "clash 0 1\n", 8, CheckFault::C9(8)),
        (11..=11, "end\nx", 12, CheckFault::C2(CertFault::K4(12))),
    ];
    assert_refusals(CROSSING_ONE, &refusals);
}

#[test]
fn a_split_is_judged_before_its_blocks_and_what_stands_below() {
    let changes: [Change; 2] = [
        (4..=7, "vertex 0 0 1,1 1 1\nagent 0 1\nat 0,1 0 3\nclash 0 1\n", Err(CheckFault::C6(4))),
        // But an error of the lines of its blocks comes before it.
        (4..=7, "vertex 0 0 1,1 1 1\nagent 0 1\nat 0,1 0 03\nclash 0 1\n", Err(CheckFault::C2(CertFault::K1(6)))),
    ];
    assert_judged(CROSSING_CERT, &changes);
}

#[test]
fn blocks_hold_as_far_as_their_part_of_the_tree() {
    let changes: [Change; 4] = [
        // Neither of two blocks on one split does where the part of the tree below is over.
        (
            4..=10,
            "vertex 0 1 1,1 1 0\nvertex 0 1 1,1 1 0\nleaf 1\nagent 0 1\nat 0,1 0 3\nvertex 0 1 0,0 5 2\n\
            agent 0 1\nat 0,1 0 3\nagent 1 1\nat 1,0 0 3\nleaf 0\nleaf 0\nleaf 0\n",
            Err(CheckFault::C8(16)),
        ),
        // A nearer block of the agent replaces all its entries, that of the start too.
        (
            4..=7,
            "vertex 0 1 1,1 1 0\nvertex 0 1 0,0 5 1\nagent 0 1\nat 0,1 0 3\nleaf 1\nagent 0 1\n\
            at 1,1 1 2\nleaf 0\n",
            Err(CheckFault::C8(8)),
        ),
        (
            4..=7,
            "vertex 0 1 1,1 1 0\nvertex 0 1 0,0 5 1\nagent 0 1\nat 0,1 0 3\nvertex 0 1 0,0 6 1\n\
            agent 0 1\nat 1,1 1 2\nleaf 0\nleaf 0\nleaf 0\n",
            Err(CheckFault::C8(11)),
        ),
        // Behind the part of the tree below it, the older one holds again.
        (
            4..=7,
            "vertex 0 1 1,1 1 0\nvertex 0 1 0,0 5 1\nagent 0 1\nat 0,1 0 3\nvertex 0 1 0,0 6 1\n\
            agent 0 1\nat 1,1 1 2\nleaf 1\nagent 0 1\nat 0,1 0 3\nleaf 1\nagent 0 1\nat 0,1 0 3\nleaf 0\n",
            Ok(Verdict::Optimal(5)),
        ),
    ];
    assert_judged(CROSSING_CERT, &changes);
}

// Beside what a search for two agents that have to change places knows after three splits.
#[test]
fn the_claim_has_to_be_that_of_the_limit() {
    let cases = ["bound 5", "cost 4", "impossible"].map(|claims| (2, "limit 3 bound 4", claims, Err(CheckFault::C4)));
    assert_claimed(&EXCHANGE, EXCHANGE_STOPPED_CERT, &cases);
}
