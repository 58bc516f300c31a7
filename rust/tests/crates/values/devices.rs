//! The devices that runs read from and write to. Those over readers and writers of the standard library fail at a call
//! that goes wrong: it isn't made again, and the device stays failed. A count of bytes is passed on as it is.
use crate::crates::mapf_model::devices::{FuseSource, Pace};
use crate::crates::mapf_model::{Failed, ReadEnd, ReadSource, Sink, Source, WriteSink, read_all, write_all};
use crate::problems::CROSSING_ONE;
use crate::rattle_std::alloc::Global;
use crate::running::sink_of;
use std::io::{self, ErrorKind, Read, Write};
use std::slice::Iter;

/// What a call does: it moves at most so many bytes, or goes wrong.
type Step = Result<usize, ErrorKind>;

/// A reader and a writer. It takes a step at each call, and moves nothing once all are taken.
struct Scripted<'a> {
    steps: Iter<'a, Step>,
    calls: usize,
    written: Vec<u8>,
}

impl<'a> Scripted<'a> {
    fn of(steps: &'a [Step]) -> Scripted<'a> {
        Scripted { steps: steps.iter(), calls: 0, written: Vec::new() }
    }

    /// How many of so many bytes this call moves.
    fn count(&mut self, bytes: usize) -> io::Result<usize> {
        self.calls += 1;
        let step = self.steps.next().copied().unwrap_or(Ok(0));
        Ok(step?.min(bytes))
    }

    /// So many calls were made, and these bytes were written.
    #[track_caller]
    fn assert_called(&self, calls: usize, written: &[u8]) {
        assert_eq!((self.calls, self.written.as_slice()), (calls, written));
    }
}

impl Read for Scripted<'_> {
    fn read(&mut self, buffer: &mut [u8]) -> io::Result<usize> {
        let count = self.count(buffer.len())?;
        buffer[..count].fill(b'x');
        Ok(count)
    }
}

impl Write for Scripted<'_> {
    fn write(&mut self, bytes: &[u8]) -> io::Result<usize> {
        let count = self.count(bytes.len())?;
        self.written.extend_from_slice(&bytes[..count]);
        Ok(count)
    }

    fn flush(&mut self) -> io::Result<()> {
        Ok(())
    }
}

const KINDS: [ErrorKind; 6] = [
    ErrorKind::Interrupted,
    ErrorKind::WouldBlock,
    ErrorKind::TimedOut,
    ErrorKind::BrokenPipe,
    ErrorKind::UnexpectedEof,
    ErrorKind::Other,
];

#[test]
fn a_read_that_goes_wrong_fails() {
    for kind in KINDS {
        // The second call would go well.
        let steps = [Err(kind), Ok(8)];
        let mut reader = Scripted::of(&steps);
        let mut source = ReadSource::of(&mut reader);
        let mut buffer = [b'.'; 8];
        assert!(!source.failed());
        assert_eq!(source.pull(&mut buffer), Err(Failed), "{kind}");
        assert!(source.failed() && source.failed(), "{kind}");
        assert_eq!(buffer, *b"........", "{kind}");
        reader.assert_called(1, b"");
    }
}

#[test]
fn a_write_that_goes_wrong_fails() {
    for wrong in KINDS.map(Err).into_iter().chain([Ok(0)]) {
        let steps = [wrong, Ok(8)];
        let mut writer = Scripted::of(&steps);
        let mut sink = WriteSink::of(&mut writer);
        assert!(!sink.failed());
        assert_eq!(sink.push(b"abc"), Err(Failed), "{wrong:?}");
        assert!(sink.failed() && sink.failed(), "{wrong:?}");
        writer.assert_called(1, b"");
    }
}

/// Steps of a device that moves fewer bytes than it is asked to, and then all, and then none.
const SHORT: [Step; 3] = [Ok(3), Ok(8), Ok(0)];

#[test]
fn short_reads_are_passed_on() {
    let mut reader = Scripted::of(&SHORT);
    let mut source = ReadSource::of(&mut reader);
    let mut buffer = [b'.'; 8];
    assert_eq!(source.pull(&mut buffer), Ok(3));
    assert_eq!(buffer, *b"xxx.....");
    assert_eq!(source.pull(&mut buffer), Ok(8));
    assert_eq!(source.pull(&mut buffer), Ok(0));
    assert!(!source.failed());
    reader.assert_called(3, b"");
}

#[test]
fn short_writes_are_passed_on() {
    let mut writer = Scripted::of(&SHORT);
    let mut sink = WriteSink::of(&mut writer);
    assert_eq!(sink.push(b"abcdefgh"), Ok(3));
    assert_eq!(sink.push(b"defgh"), Ok(5));
    assert!(!sink.failed());
    writer.assert_called(2, b"abcdefgh");
}

#[test]
fn all_is_read_or_the_source_fails() {
    let mut reader = Scripted::of(&[Ok(3), Ok(1), Ok(0), Ok(5)]);
    assert_eq!(all_of(&mut ReadSource::of(&mut reader), 4), Ok(b"xxxx".to_vec()));
    reader.assert_called(3, b"");
    let mut reader = Scripted::of(&[Ok(3), Err(ErrorKind::Interrupted), Ok(5)]);
    let mut source = ReadSource::of(&mut reader);
    assert_eq!(all_of(&mut source, 100), Err(ReadEnd::Device));
    assert!(source.failed());
    reader.assert_called(2, b"");
}

#[test]
fn all_is_written_or_the_sink_fails() {
    let mut writer = Scripted::of(&[Ok(3), Ok(1), Ok(9)]);
    assert_eq!(write_all(&mut WriteSink::of(&mut writer), b"abcdefgh"), Ok(()));
    writer.assert_called(3, b"abcdefgh");
    for wrong in [Err(ErrorKind::Interrupted), Ok(0)] {
        let steps = [Ok(3), wrong, Ok(9)];
        let mut writer = Scripted::of(&steps);
        let mut sink = WriteSink::of(&mut writer);
        assert_eq!(write_all(&mut sink, b"abcdefgh"), Err(Failed), "{wrong:?}");
        assert!(sink.failed(), "{wrong:?}");
        writer.assert_called(2, b"abc");
    }
}

/// All that a source gives, where that is no more than so many bytes.
fn all_of<S: Source>(source: &mut S, limit: u64) -> Result<Vec<u8>, ReadEnd> {
    read_all(Global, source, limit).map(|bytes| bytes.to_vec())
}

#[test]
fn each_byte_is_read_within_the_limit() {
    let bytes = CROSSING_ONE.as_bytes();
    for pace in [Pace::AllAtOnce, Pace::ByteByByte] {
        let read = |calls, limit| all_of(&mut FuseSource::of(bytes, pace, calls), limit);
        assert_eq!(read(None, 111), Ok(bytes.to_vec()), "{pace:?}");
        assert_eq!(read(None, 110), Err(ReadEnd::TooLong), "{pace:?}");
        assert_eq!(read(Some(1), 111), Err(ReadEnd::Device), "{pace:?}");
    }
}

#[test]
fn more_is_read_than_a_buffer_holds() {
    let bytes: Vec<u8> = (0..=250).cycle().take(10_000).collect();
    assert_eq!(all_of(&mut FuseSource::of(&bytes, Pace::AllAtOnce, None), 10_000), Ok(bytes.clone()));
}

#[test]
fn a_sink_takes_as_much_as_there_is_room_for() {
    let mut sink = sink_of(3);
    assert_eq!(write_all(&mut sink, b"four"), Err(Failed));
    assert_eq!(sink.bytes(), b"fou");
}
