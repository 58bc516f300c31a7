//! Certificates that come from a source item by item: in pieces, under a limit, and from sources that fail.
use crate::crates::mapf_certificate::CertFault::{K1, K4};
use crate::crates::mapf_certificate::CertLines;
use crate::crates::mapf_certificate::LinesFault::{self, Device, Text, TooLong};
use crate::crates::mapf_model::devices::{EndlessSource, FuseSource, Pace};
use crate::crates::mapf_model::{Claim, ReadSource, Source};
use crate::problems::{CROSSING_ONE, line_cut};
use crate::rattle_std::alloc::Global;
use std::io::{self, Read};

const PACES: [Pace; 2] = [Pace::ByteByByte, Pace::AllAtOnce];

/// The header of the crossing's certificates.
const HEADER: (u32, Claim) = (2, Claim::Cost(5));

/// How many items came, the line of the last, and the error that ended them.
type Came = (u64, u64, Option<LinesFault>);

/// A reader of certificates on a grid of three columns and three rows, of at most so many bytes.
fn reader(limit: u64) -> CertLines {
    CertLines::open(Global, 3, 3, limit).expect("memory")
}

/// What comes of a source under a limit. After the end the same comes again.
fn run(source: &mut impl Source, limit: u64) -> Came {
    let mut lines = reader(limit);
    if let Err(fault) = lines.header(source) {
        return (0, 0, Some(fault));
    }
    let mut count = 0;
    let end = loop {
        match lines.next_item(source) {
            Ok(Some(_)) => count += 1,
            Ok(None) => break None,
            Err(fault) => break Some(fault),
        }
    };
    assert_eq!(lines.next_item(source).err(), end, "after the end");
    (count, lines.line(), end)
}

/// What comes of bytes from a source that fails after so many calls, or never.
fn run_fuse(bytes: &[u8], pace: Pace, calls: Option<u64>, limit: u64) -> Came {
    run(&mut FuseSource::of(bytes, pace, calls), limit)
}

/// The bytes with one more before the byte of this number.
fn with_byte(bytes: &[u8], place: usize) -> Vec<u8> {
    [&bytes[..place], b"x", &bytes[place..]].concat()
}

#[test]
fn the_text_may_come_in_any_two_pieces() {
    let bytes = CROSSING_ONE.as_bytes();
    for first in 1..bytes.len() {
        let mut source = ReadSource::of(bytes[..first].chain(&bytes[first..]));
        assert_eq!(run(&mut source, 111), (3, 8, None), "{first}");
    }
}

#[test]
fn a_text_may_be_as_long_as_the_limit() {
    let bytes = CROSSING_ONE.as_bytes();
    let longer = with_byte(bytes, bytes.len());
    assert_eq!(bytes.len(), 111);
    for pace in PACES {
        assert_eq!(run_fuse(bytes, pace, None, 111), (3, 8, None), "{pace:?}");
        assert_eq!(run_fuse(bytes, pace, None, 110), (3, 8, Some(TooLong)), "{pace:?}");
        assert_eq!(run_fuse(&longer, pace, None, 111), (3, 8, Some(TooLong)), "{pace:?}");
        assert_eq!(run_fuse(&longer, pace, None, 112), (3, 8, Some(Text(K4(12)))), "{pace:?}");
    }
}

/// The header that a source gives, if it fails after so many bytes. An error of it is given again by all later calls.
fn header_of(bytes: &[u8], calls: u64) -> Result<(u32, Claim), LinesFault> {
    let mut source = FuseSource::of(bytes, Pace::ByteByByte, Some(calls));
    let mut lines = reader(111);
    let answer = lines.header(&mut source);
    if let Err(fault) = answer {
        assert_eq!(lines.header(&mut source), Err(fault), "{calls} calls");
        assert_eq!(lines.next_item(&mut source).err(), Some(fault), "{calls} calls");
    }
    answer
}

/// How many items of the crossing's certificate there are before this line, and the line of the last.
fn items_before(line: u64) -> (u64, u64) {
    match line {
        1..=4 => (0, 0),
        5..=7 => (1, 4),
        8..=10 => (2, 5),
        _ => (3, 8),
    }
}

// Each byte is a call, and each call fails once.
#[test]
fn each_call_of_the_source_may_fail() {
    let bytes = CROSSING_ONE.as_bytes();
    for calls in 0..bytes.len() {
        let line = line_cut(&bytes[..calls]);
        let header = if line < 4 { Err(Device) } else { Ok(HEADER) };
        assert_eq!(header_of(bytes, calls as u64), header, "{calls} calls");
        let (count, last) = items_before(line);
        let came = run_fuse(bytes, Pace::ByteByByte, Some(calls as u64), 111);
        assert_eq!(came, (count, last, Some(Device)), "{calls} calls");
    }
}

#[test]
fn the_end_of_the_bytes_is_a_call_of_its_own() {
    for (pace, calls, came) in [
        (Pace::ByteByByte, 111, (3, 8, Some(Device))),
        (Pace::ByteByByte, 112, (3, 8, None)),
        (Pace::AllAtOnce, 0, (0, 0, Some(Device))),
        (Pace::AllAtOnce, 1, (3, 8, Some(Device))),
        (Pace::AllAtOnce, 2, (3, 8, None)),
    ] {
        assert_eq!(run_fuse(CROSSING_ONE.as_bytes(), pace, Some(calls), 111), came, "{calls} calls, {pace:?}");
    }
}

// One byte more makes any line wrong. That is told before more is read, and not before the line ends.
#[test]
fn nothing_is_read_after_an_error() {
    let bytes = CROSSING_ONE.as_bytes();
    for end in (0..bytes.len()).filter(|&place| bytes[place] == b'\n') {
        let longer = with_byte(bytes, end);
        let wrong = Text(K1(line_cut(&bytes[..end])));
        let whole_line = end as u64 + 2;
        for (pace, calls, fault) in [
            (Pace::ByteByByte, whole_line, wrong),
            (Pace::ByteByByte, whole_line - 1, Device),
            (Pace::AllAtOnce, 1, wrong),
        ] {
            let mut source = FuseSource::of(&longer, pace, Some(calls));
            let (_, _, given) = run(&mut source, 999);
            assert_eq!((given, source.failed()), (Some(fault), fault == Device), "{calls} calls, {pace:?}");
        }
    }
}

#[test]
fn a_source_may_never_end() {
    assert_eq!(run(&mut EndlessSource::of(b'x'), u64::MAX), (0, 0, Some(Text(K1(1)))));
    // The header has 34 bytes and each split 17, so that 586 splits and no more have come after 10,000 bytes.
    let splits = "vertex 0 1 0,0 0\n".repeat(1_000);
    let tree = b"mapf-cert 1\nagents 2\nclaim cost 0\n".chain(splits.as_bytes()).chain(io::repeat(b'x'));
    assert_eq!(run(&mut ReadSource::of(tree), 10_000), (586, 589, Some(TooLong)));
}
