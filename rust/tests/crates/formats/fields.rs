//! The parts of a line: where it ends, its first word, and its numbers with their ranges.
use crate::crates::mapf_fields::LineFault::{self, Range, Shape};
use crate::crates::mapf_fields::{
    below, cut, field, from_one_to, last, line_length, pair, strip, up_to, whole, within,
};

#[test]
fn lines_are_cut() {
    for (text, parts) in [
        ("tick 0\nend\n", Some(("tick 0", "end\n"))),
        ("end\n", Some(("end", ""))),
        ("\nend\n", Some(("", "end\n"))),
        ("end", None),
        ("", None),
    ] {
        let bytes = parts.map(|(line, rest)| (line.as_bytes(), rest.as_bytes()));
        assert_eq!(cut(text.as_bytes()), bytes, "{text:?}");
        assert_eq!(line_length(text.as_bytes()), parts.map(|(line, _)| line.len()), "{text:?}");
    }
}

#[test]
fn first_words_are_stripped() {
    assert_eq!(strip(b"agents 2", b"agents"), Some(b" 2".as_slice()));
    for text in ["agent 2", "agent"] {
        assert_eq!(strip(text.as_bytes(), b"agents"), None, "{text}");
    }
}

#[test]
fn numbers_are_read() {
    for (word, number) in [
        ("0", Some(0)),
        ("7", Some(7)),
        ("12", Some(12)),
        ("120", Some(120)),
        ("18446744073709551615", Some(u64::MAX)),
        ("18446744073709551616", None),
        ("99999999999999999999999999", None),
    ] {
        let (marked, followed) = (format!(" {word}"), format!(" {word},3"));
        assert_eq!(whole(word.as_bytes()), Ok(number), "{word}");
        assert_eq!(last(b' ', marked.as_bytes()), Ok(number), "{word}");
        assert_eq!(field(b' ', marked.as_bytes()), Ok((number, b"".as_slice())), "{word}");
        assert_eq!(field(b' ', followed.as_bytes()), Ok((number, b",3".as_slice())), "{word}");
        assert_eq!(last(b' ', followed.as_bytes()), Err(Shape), "{word}");
    }
}

#[test]
fn other_words_are_no_numbers() {
    for word in ["", "00", "01", "012", "x"] {
        assert_eq!(field(b' ', format!(" {word}").as_bytes()), Err(Shape), "{word}");
    }
    for word in ["", "00", "01", "012", "x", "1x", " 1", "1 "] {
        assert_eq!(whole(word.as_bytes()), Err(Shape), "{word}");
        assert_eq!(last(b' ', format!(" {word}").as_bytes()), Err(Shape), "{word}");
    }
    for without_mark in ["", ",12", "12"] {
        assert_eq!(field(b' ', without_mark.as_bytes()), Err(Shape), "{without_mark}");
        assert_eq!(last(b' ', without_mark.as_bytes()), Err(Shape), "{without_mark}");
    }
}

#[test]
fn pairs_are_read() {
    assert_eq!(pair(b" 12,3 4"), Ok((Some(12), Some(3), b" 4".as_slice())));
    assert_eq!(pair(b" 18446744073709551616,3"), Ok((None, Some(3), b"".as_slice())));
    for text in [" 12 3", "12,3"] {
        assert_eq!(pair(text.as_bytes()), Err(Shape), "{text}");
    }
}

#[test]
fn ranges_are_kept() {
    for number in 0..=6 {
        let if_within = |is_within| if is_within { Ok(number as u32) } else { Err(Range) };
        assert_eq!(up_to(5, Some(number)), if_within(number <= 5), "{number}");
        assert_eq!(from_one_to(5, Some(number)), if_within((1..=5).contains(&number)), "{number}");
        assert_eq!(below(5, Some(number)), if_within(number < 5), "{number}");
        let from_3_to_5 = within(3, 5, Some(number)).map(|number| number as u32);
        assert_eq!(from_3_to_5, if_within((3..=5).contains(&number)), "{number}");
    }
}

#[test]
fn numbers_beyond_counting_are_out_of_each_range() {
    let out: Result<u32, LineFault> = Err(Range);
    assert_eq!((up_to(u32::MAX, None), from_one_to(u32::MAX, None), below(u32::MAX, None)), (out, out, out));
    assert_eq!(within(0, u64::MAX, None), Err(Range));
}
