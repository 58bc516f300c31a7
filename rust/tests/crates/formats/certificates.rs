//! Certificates of versions 1 and 2: what is read, written and converted, and the first error.
use crate::crates::mapf_certificate::CertFault::{self, K1, K2, K3, K4};
use crate::crates::mapf_certificate::{Version, convert_cert, read_cert, write_cert};
use crate::crates::mapf_model::{Claim, Grid};
use crate::made::grid;
use crate::problems::{
    CROSSING_CERT, CROSSING_ONE, EXCHANGE_STOPPED_CERT, NICHE_CERT, NICHE_CONVERTED, NICHE_ONE, line_cut, with_lines,
};
use crate::rattle_std::alloc::Global;
use std::ops::RangeInclusive;

/// A grid of this size without blocked cells.
fn free_grid(width: usize, height: usize) -> Grid {
    grid(width, height, |_, _| true)
}

/// The error of bytes that are to spell a certificate on the grid of the crossing.
fn fault_of(bytes: &[u8]) -> Option<CertFault> {
    read_cert(Global, bytes, &free_grid(3, 3)).err()
}

#[test]
fn certificates_are_read_and_written() {
    for (text, width, height, version, claim, items) in [
        (CROSSING_ONE, 3, 3, Version::One, Claim::Cost(5), 3),
        (NICHE_ONE, 3, 2, Version::One, Claim::Cost(4), 11),
        (CROSSING_CERT, 3, 3, Version::Two, Claim::Cost(5), 3),
        (NICHE_CERT, 3, 2, Version::Two, Claim::Cost(4), 11),
        (NICHE_CONVERTED, 3, 2, Version::Two, Claim::Cost(4), 11),
        (EXCHANGE_STOPPED_CERT, 2, 1, Version::Two, Claim::Bound(4), 7),
    ] {
        let grid = free_grid(width, height);
        let cert = read_cert(Global, text.as_bytes(), &grid).expect(text);
        assert_eq!((cert.version, cert.agents, cert.claim, cert.tree.len()), (version, 2, claim, items), "{text}");
        let written = write_cert(Global, &cert, &grid).expect("memory");
        assert_eq!(str::from_utf8(&written), Ok(text));
    }
}

// Nothing of version 2 is converted, be it whole or not.
#[test]
fn no_front_of_version_2_is_converted() {
    for text in [CROSSING_CERT, NICHE_CONVERTED] {
        for length in "mapf-cert 2\n".len()..=text.len() {
            let answer = convert_cert(Global, &text.as_bytes()[..length], &free_grid(3, 3));
            assert_eq!(answer.err(), Some(K1(1)), "{length} bytes of {text}");
        }
    }
}

#[test]
fn a_front_of_version_1_is_not_converted() {
    assert_eq!(convert_cert(Global, &CROSSING_ONE.as_bytes()[..50], &free_grid(3, 3)).err(), Some(K2(4)));
}

#[test]
fn each_front_ends_early() {
    for text in [CROSSING_ONE, CROSSING_CERT, NICHE_CERT, EXCHANGE_STOPPED_CERT] {
        for length in 0..text.len() {
            let front = &text.as_bytes()[..length];
            assert_eq!(fault_of(front), Some(K2(line_cut(front))), "{length} bytes of {text}");
        }
    }
}

#[test]
fn a_line_of_64_bytes_may_go_on_and_one_of_65_is_wrong() {
    assert_eq!(fault_of(&[b'x'; 64]), Some(K2(1)));
    assert_eq!(fault_of(&[b'x'; 65]), Some(K1(1)));
}

/// Which lines of a text are replaced, by which lines, and the error that comes then.
type Change<'a> = (RangeInclusive<usize>, &'a str, Option<CertFault>);

#[track_caller]
fn assert_faults(text: &str, changes: &[Change]) {
    for (replaced, lines, fault) in changes {
        let changed = with_lines(text, replaced.clone(), lines);
        assert_eq!(fault_of(changed.as_bytes()), *fault, "{lines:?} for {replaced:?}");
    }
}

#[test]
fn wrong_lines_of_version_1_are_refused() {
    assert_faults(
        CROSSING_ONE,
        &[
            (1..=1, "mapf-cert 3\n", Some(K1(1))),
            (1..=3, "mapf-cert 2\nagents 2\nclaim bound 4\n", Some(K1(4))),
            (3..=3, "claim bound 4\n", Some(K1(3))),
            (3..=3, "claim bound 1999999801\n", Some(K1(3))),
            (3..=3, "claim cost 1999999801\n", Some(K3(3))),
            (4..=4, "vertex 0 1 1,1 1 0\n", Some(K1(4))),
            (4..=4, "vertex 0 2 1,1 1\n", Some(K3(4))),
            (4..=4, "vertex 0 9999999999999999999999 x\n", Some(K1(4))),
            (4..=4, "swap 0 1 0,0 1,0 0 0\n", Some(K1(4))),
            (4..=4, "swap 0 1 0,0 1,0 0\nagent 0 1\nat 0,1 0 3\n", Some(K1(5))),
            (4..=4, "swap 0 1 0,0 2,2 1\n", None),
            (4..=4, "swap 0 1 0,0 2,3 1\n", Some(K3(4))),
            (4..=4, "", Some(K1(7))),
            (4..=10, "clash 0 1\n", None),
            (4..=10, "leaf 0\nleaf 0\n", Some(K1(5))),
            (5..=5, "end\n", Some(K1(5))),
            (7..=7, "at 0,1 0 inf\n", None),
            (7..=7, "at 0,1 0 3\r\n", Some(K1(7))),
            (7..=7, "leaf 99\n", Some(K3(7))),
            (7..=7, "leaf 1\n", Some(K1(7))),
            (7..=7, "agents 999\n", Some(K1(7))),
            (9..=10, "agent 1 2\nat 1,2 0 1\nat 1,0 0 3\n", Some(K1(11))),
            (11..=11, "end\n\n", Some(K4(12))),
        ],
    );
}

#[test]
fn wrong_bounds_are_refused() {
    assert_faults(
        CROSSING_CERT,
        &[
            (1..=1, "mapf-cert 1\n", Some(K1(4))),
            (1..=3, "mapf-cert 1\nagents 2\nclaim bound 4\n", Some(K1(3))),
            (3..=3, "claim bound 4\n", None),
            (3..=3, "claim bound 0\n", None),
            (3..=3, "claim bound 1999999800\n", None),
            (3..=3, "claim bound 1999999801\n", Some(K3(3))),
            (3..=3, "claim bound 04\n", Some(K1(3))),
            (3..=3, "claim bound 4 \n", Some(K1(3))),
            (3..=3, "claim bound\n", Some(K1(3))),
            (3..=3, "claim bound inf\n", Some(K1(3))),
        ],
    );
}

#[test]
fn wrong_splits_of_version_2_are_refused() {
    assert_faults(
        CROSSING_CERT,
        &[
            (4..=4, "vertex 0 1 1,1 1 \n", Some(K1(4))),
            (4..=4, "vertex 0 1 1,1 1 00\n", Some(K1(4))),
            (4..=4, "vertex 0 1 1,1 1 0 0\n", Some(K1(4))),
            (4..=4, "vertex 0 1 1,1 999999 0\n", None),
            (4..=4, "vertex 0 1 1,1 1000000 0\n", Some(K3(4))),
            (4..=4, "vertex 0 1 1,1 1000000 x\n", Some(K1(4))),
            (4..=4, "swap 0 1 0,0 2,2 1 0\n", None),
            (4..=4, "swap 0 1 0,0 2,2 1\n", Some(K1(4))),
            (4..=4, "swap 0 1 0,0 2,2 1 3\n", Some(K3(4))),
            (4..=4, "swap 0 1 0,0 2,2 1 18446744073709551616\n", Some(K3(4))),
            (4..=10, "clash 0 1\n", None),
        ],
    );
}

#[test]
fn wrong_numbers_of_blocks_on_a_split_are_refused() {
    assert_faults(
        CROSSING_CERT,
        &[
            (4..=4, "vertex 0 1 1,1 1 0\nagent 0 1\nat 0,1 0 3\n", Some(K1(5))),
            (4..=4, "vertex 0 1 1,1 1 1\n", Some(K1(5))),
            (4..=4, "vertex 0 1 1,1 1 1\nagent 0 1\nat 0,1 0 3\n", None),
            (4..=4, "vertex 0 1 1,1 1 1\nagent 2 1\nat 0,1 0 3\n", Some(K3(5))),
            (4..=4, "vertex 0 1 1,1 1 2\nagent 0 1\nat 0,1 0 3\n", Some(K1(7))),
            // All blocks that may stand there, one for each agent.
            (4..=4, "vertex 0 1 1,1 1 2\nagent 0 1\nat 0,1 0 3\nagent 1 1\nat 1,0 0 3\n", None),
        ],
    );
}
