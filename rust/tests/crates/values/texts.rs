//! What is read of plan texts and certificates, what is written of such values, and what becomes of certificates of
//! version 1 in version 2.
use crate::crates::mapf_certificate::{
    Cert, CertFault, CertLines, PlanAnswer, PlanText, Version, convert_cert, read_cert, read_plan, write_cert,
    write_plan,
};
use crate::crates::mapf_model::devices::{FuseSource, Pace};
use crate::crates::mapf_model::{Block, BytesSource, Cause, Cell, Claim, Entry, Grid, Item, Label, Source};
use crate::made::{grid_of, list};
use crate::problems::*;
use crate::rattle_std::alloc::Global;

/// The tree of the crossing's certificates, each item with the line in which it begins.
fn crossing_items() -> [(u64, Item); 3] {
    let leaf = |agent, cell| {
        let entry = Entry { cell: Cell(cell), tick: 0, label: Label::Ticks(3) };
        Item::Leaf(list([Block { agent, entries: list([entry]) }]))
    };
    let split = Item::Vertex { i: 0, j: 1, cell: Cell(4), tick: 1, blocks: list([]) };
    [(4, split), (5, leaf(0, 3)), (8, leaf(1, 1))]
}

/// The crossing's certificates.
const CROSSING_CERTS: [(Version, &str); 2] = [(Version::One, CROSSING_ONE), (Version::Two, CROSSING_CERT)];

#[test]
fn a_certificate_is_read_whole() {
    let tree = crossing_items().map(|(_, item)| item);
    for (version, text) in CROSSING_CERTS {
        let cert = read_cert(Global, text.as_bytes(), CROSSING.problem().grid()).expect("a certificate");
        assert_eq!((cert.version, cert.agents, cert.claim), (version, 2, Claim::Cost(5)));
        assert_eq!(format!("{:?}", cert.tree), format!("{tree:?}"), "{version:?}");
    }
}

/// A source gives the crossing's certificate of this version.
#[track_caller]
fn assert_items_of<S: Source>(source: &mut S, version: Version) {
    let mut lines = CertLines::open(Global, 3, 3, 113).expect("memory");
    assert_eq!(lines.header(source), Ok((2, Claim::Cost(5))), "{version:?}");
    assert_eq!(lines.version(), version);
    for (line, item) in crossing_items() {
        let read = lines.next_item(source).expect("an item");
        assert_eq!(format!("{read:?}"), format!("{:?}", Some(item)), "{version:?}");
        assert_eq!(lines.line(), line, "{version:?}");
    }
    assert!(matches!(lines.next_item(source), Ok(None)), "{version:?}");
}

#[test]
fn a_certificate_is_read_item_by_item() {
    for (version, text) in CROSSING_CERTS {
        assert_items_of(&mut FuseSource::of(text.as_bytes(), Pace::ByteByByte, None), version);
        assert_items_of(&mut FuseSource::of(text.as_bytes(), Pace::AllAtOnce, None), version);
    }
}

#[test]
fn the_claim_of_a_bound_is_read() {
    let bytes = EXCHANGE_STOPPED_CERT.as_bytes();
    let cert = read_cert(Global, bytes, EXCHANGE.problem().grid()).expect("a certificate");
    assert_eq!((cert.version, cert.agents, cert.claim), (Version::Two, 2, Claim::Bound(4)));
    assert_eq!(cert.tree.len(), 7);
    let mut lines = CertLines::open(Global, 2, 1, 300).expect("memory");
    assert_eq!(lines.header(&mut BytesSource::of(bytes)), Ok((2, Claim::Bound(4))));
}

#[test]
fn a_plan_is_read() {
    let text = read_plan(Global, CROSSING_PLAN.as_bytes(), CROSSING.problem().grid()).expect("a plan text");
    assert_eq!((text.version, text.agents), (Version::Two, 2));
    let PlanAnswer::Found(plan) = text.answer else { panic!("no plan, but {:?}", text.answer) };
    let paths: Vec<&[Cell]> = plan.paths().iter().map(|path| path.cells()).collect();
    assert_eq!(paths, [[3, 3, 4, 5].map(Cell).as_slice(), &[1, 4, 7].map(Cell)]);
}

#[test]
fn a_limit_is_read_and_written() {
    let grid = grid_of(".");
    for (text, version, stop) in [
        ("mapf-plan 1\nagents 1\nlimit 0\nend\n", Version::One, (Cause::Splits(0), None)),
        ("mapf-plan 1\nagents 1\nlimit ticks\nend\n", Version::One, (Cause::Ticks, None)),
        (
            "mapf-plan 2\nagents 1\nlimit 100000 bound 1999999800\nend\n",
            Version::Two,
            (Cause::Splits(100_000), Some(1_999_999_800)),
        ),
        ("mapf-plan 2\nagents 1\nlimit ticks bound 0\nend\n", Version::Two, (Cause::Ticks, Some(0))),
    ] {
        let read = read_plan(Global, text.as_bytes(), &grid).expect("a plan text");
        assert_eq!((read.version, read.agents), (version, 1), "{text}");
        let stopped = match &read.answer {
            PlanAnswer::Limit(cause) => (*cause, None),
            PlanAnswer::Bounded { cause, bound } => (*cause, Some(*bound)),
            other => panic!("no limit, but {other:?}"),
        };
        assert_eq!(stopped, stop, "{text}");
        assert_eq!(plan_text(&read, &grid), text);
    }
}

/// A plan text as it is written.
fn plan_text(text: &PlanText, grid: &Grid) -> String {
    String::from_utf8(write_plan(Global, text, grid).expect("memory").to_vec()).expect("a text")
}

#[test]
fn plan_texts_made_by_hand_are_written() {
    let bounded = PlanAnswer::Bounded { cause: Cause::Splits(3), bound: 4 };
    for (version, answer, text) in [
        (Version::One, PlanAnswer::Impossible, "mapf-plan 1\nagents 200\nimpossible\nend\n"),
        (Version::Two, PlanAnswer::Impossible, "mapf-plan 2\nagents 200\nimpossible\nend\n"),
        (Version::Two, bounded, "mapf-plan 2\nagents 200\nlimit 3 bound 4\nend\n"),
    ] {
        assert_eq!(plan_text(&PlanText { version, agents: 200, answer }, &grid_of(".")), text);
    }
}

// A clash of the first and the last of 200 agents.
#[test]
fn certificates_made_by_hand_are_written() {
    for (claim, text) in [
        (Claim::Impossible, "mapf-cert 2\nagents 200\nclaim impossible\nclash 0 199\nend\n"),
        (Claim::Bound(1_999_999_800), "mapf-cert 2\nagents 200\nclaim bound 1999999800\nclash 0 199\nend\n"),
    ] {
        let cert = Cert { version: Version::Two, agents: 200, claim, tree: list([Item::Clash { i: 0, j: 199 }]) };
        assert_eq!(&*write_cert(Global, &cert, &grid_of(".")).expect("memory"), text.as_bytes());
    }
}

/// What a certificate of version 1 is in version 2.
fn converted(given: &Given, text: &str) -> Result<String, CertFault> {
    let bytes = convert_cert(Global, text.as_bytes(), given.problem().grid())?;
    Ok(String::from_utf8(bytes.to_vec()).expect("a text"))
}

#[test]
fn version_one_alone_is_converted() {
    for (given, one, two) in [
        (AT_REST, AT_REST_ONE, AT_REST_CERT),
        (CORRIDOR, CORRIDOR_ONE, CORRIDOR_CERT),
        (CROSSING, CROSSING_ONE, CROSSING_CERT),
        (NICHE, NICHE_ONE, NICHE_CONVERTED),
        (SHARED_START, SHARED_START_ONE, SHARED_START_CERT),
        (SHARED_GOAL, SHARED_GOAL_ONE, SHARED_GOAL_CERT),
        (WALL, WALL_ONE, WALL_CERT),
        (ROTATION, ROTATION_ONE, ROTATION_CERT),
    ] {
        assert_eq!(converted(&given, one).as_deref(), Ok(two));
        assert_eq!(converted(&given, two), Err(CertFault::K1(1)), "{two}");
    }
    assert_eq!(converted(&NICHE, NICHE_CERT), Err(CertFault::K1(1)));
}
