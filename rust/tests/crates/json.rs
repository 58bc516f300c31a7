//! How answers, refusals and errors of `solve` and `check` are told as JSON: the object on standard output, what
//! standard error gets beside it, and the exit status.
use crate::crates::mapf_app::{
    Answered, CertFault, CheckFault, Fault, Input, Kind, MapFault, Output, PlanFault, PlanTextFault, ScenFault, Verdict,
};
use crate::crates::mapf_json::{tell_check_json, tell_solve_json};
use crate::crates::mapf_model::devices::{FuseSink, Pace};
use crate::crates::mapf_model::{BytesSink, Cause, Sink};
use crate::rattle_std::alloc::Global;

/// More bytes than any object or line has.
const ROOM: usize = 160;

/// What a run of `solve` or of `check` answers.
#[derive(Clone, Copy, Debug)]
enum Answer {
    Solve(Result<Answered, Fault>),
    Check(Result<Verdict, Fault>),
}

/// Tells an answer, and returns the status.
fn tell(answer: &Answer, out: &mut impl Sink, err: &mut impl Sink) -> u8 {
    match answer {
        Answer::Solve(answer) => tell_solve_json(answer, out, err),
        Answer::Check(answer) => tell_check_json(answer, out, err),
    }
}

/// An answer is told by this status, by this object and, beside it, by this line.
#[track_caller]
fn assert_told(answer: Answer, status: u8, object: &str, line: &str) {
    let mut out = BytesSink::with_room(Global, ROOM).expect("memory");
    let mut err = BytesSink::with_room(Global, ROOM).expect("memory");
    let told = tell(&answer, &mut out, &mut err);
    let line = if line.is_empty() { String::new() } else { format!("{line}\n") };
    assert_eq!(
        (told, out.bytes(), err.bytes()),
        (status, format!("{object}\n").as_bytes(), line.as_bytes()),
        "{answer:?}"
    );
}

/// What a search answers.
fn solved(kind: Kind) -> Answer {
    Answer::Solve(Ok(Answered { kind, refused: None }))
}

#[test]
fn answers_are_told() {
    for (kind, object, status) in [
        (Kind::Found(0), r#"{"verdict":"cost","cost":0}"#, 0),
        (Kind::Found(1_999_999_800), r#"{"verdict":"cost","cost":1999999800}"#, 0),
        (Kind::Impossible, r#"{"verdict":"impossible"}"#, 3),
        (
            Kind::Limit { cause: Cause::Splits(100_000), bound: 5 },
            r#"{"verdict":"limit","cause":"splits","splits":100000,"bound":5}"#,
            4,
        ),
        (Kind::Limit { cause: Cause::Ticks, bound: 0 }, r#"{"verdict":"limit","cause":"ticks","bound":0}"#, 4),
        (Kind::Within { bound: 7, cost: 9 }, r#"{"verdict":"within","bound":7,"cost":9}"#, 4),
    ] {
        assert_told(solved(kind), status, object, "");
    }
}

// An answer of plain search after one of the second search that was refused.
#[test]
fn what_was_refused_before_is_told() {
    let answer = Answer::Solve(Ok(Answered { kind: Kind::Found(5), refused: Some(CheckFault::C8(12)) }));
    let line = "mapf: the answer of cbsh was refused (C8 12); this is the answer of cbs";
    assert_told(answer, 0, r#"{"verdict":"cost","cost":5}"#, line);
}

#[test]
fn verdicts_are_told() {
    for (verdict, object) in [
        (Verdict::Optimal(391), r#"{"verdict":"optimal","cost":391}"#),
        (Verdict::Within { bound: 12_750, cost: 12_847 }, r#"{"verdict":"within","bound":12750,"cost":12847}"#),
        (Verdict::Bound(4), r#"{"verdict":"bound","bound":4}"#),
        (Verdict::Impossible, r#"{"verdict":"impossible"}"#),
    ] {
        assert_told(Answer::Check(Ok(verdict)), 0, object, "");
    }
}

/// Refusals, each with the members of its object after the verdict.
const REFUSALS: [(CheckFault, &str); 20] = [
    (CheckFault::C1(PlanTextFault::P1(3)), r#""refusal":"C1","error":"P1","file":"plan","line":3"#),
    (
        CheckFault::C1(PlanTextFault::P2(u64::MAX)),
        r#""refusal":"C1","error":"P2","file":"plan","line":18446744073709551615"#,
    ),
    (CheckFault::C1(PlanTextFault::P3(2)), r#""refusal":"C1","error":"P3","file":"plan","line":2"#),
    (CheckFault::C1(PlanTextFault::P4(9)), r#""refusal":"C1","error":"P4","file":"plan","line":9"#),
    (CheckFault::C2(CertFault::K1(1)), r#""refusal":"C2","error":"K1","file":"cert","line":1"#),
    (CheckFault::C2(CertFault::K2(2)), r#""refusal":"C2","error":"K2","file":"cert","line":2"#),
    (CheckFault::C2(CertFault::K3(3)), r#""refusal":"C2","error":"K3","file":"cert","line":3"#),
    (CheckFault::C2(CertFault::K4(4)), r#""refusal":"C2","error":"K4","file":"cert","line":4"#),
    (CheckFault::C3, r#""refusal":"C3""#),
    (CheckFault::C4, r#""refusal":"C4""#),
    (CheckFault::C5(PlanFault::V1 { agent: 0 }), r#""refusal":"C5","error":"V1","file":"plan","agent":0"#),
    (
        CheckFault::C5(PlanFault::V2 { agent: 1, tick: 5 }),
        r#""refusal":"C5","error":"V2","file":"plan","agent":1,"tick":5"#,
    ),
    (CheckFault::C5(PlanFault::V3 { agent: 2 }), r#""refusal":"C5","error":"V3","file":"plan","agent":2"#),
    (
        CheckFault::C5(PlanFault::V4 { i: 0, j: 1, tick: 3 }),
        r#""refusal":"C5","error":"V4","file":"plan","agent":0,"other":1,"tick":3"#,
    ),
    (
        CheckFault::C5(PlanFault::V5 { i: 3, j: 199, tick: 0 }),
        r#""refusal":"C5","error":"V5","file":"plan","agent":3,"other":199,"tick":0"#,
    ),
    (CheckFault::C6(6), r#""refusal":"C6","file":"cert","line":6"#),
    (CheckFault::C7(7), r#""refusal":"C7","file":"cert","line":7"#),
    (CheckFault::C8(8), r#""refusal":"C8","file":"cert","line":8"#),
    (CheckFault::C9(9), r#""refusal":"C9","file":"cert","line":9"#),
    (CheckFault::C10(10), r#""refusal":"C10","file":"cert","line":10"#),
];

#[test]
fn refusals_are_told() {
    for (refusal, members) in REFUSALS {
        let object = format!(r#"{{"verdict":"refused",{members}}}"#);
        assert_told(Answer::Check(Err(Fault::Refused(refusal))), 1, &object, "");
    }
}

/// Errors, each with the members of its object after the verdict and the fault, and with its line.
const FAULTS: [(Fault, &str, &str); 23] = [
    (Fault::F1(MapFault::M1), r#""F1","error":"M1","file":"map""#, "F1 M1"),
    (Fault::F1(MapFault::M2), r#""F1","error":"M2","file":"map""#, "F1 M2"),
    (Fault::F1(MapFault::M3), r#""F1","error":"M3","file":"map""#, "F1 M3"),
    (Fault::F1(MapFault::M4 { line: 3 }), r#""F1","error":"M4","file":"map","line":3"#, "F1 M4 3"),
    (Fault::F1(MapFault::M5), r#""F1","error":"M5","file":"map""#, "F1 M5"),
    (Fault::F1(MapFault::M6 { row: 0 }), r#""F1","error":"M6","file":"map","row":0"#, "F1 M6 0"),
    (Fault::F1(MapFault::M7 { x: 4, y: 1 }), r#""F1","error":"M7","file":"map","column":4,"row":1"#, "F1 M7 4 1"),
    (Fault::F1(MapFault::M8 { rows: 31 }), r#""F1","error":"M8","file":"map","rows":31"#, "F1 M8 31"),
    (Fault::F1(MapFault::M9 { line: 37 }), r#""F1","error":"M9","file":"map","line":37"#, "F1 M9 37"),
    (Fault::F2(ScenFault::S1), r#""F2","error":"S1","file":"scen""#, "F2 S1"),
    (Fault::F2(ScenFault::S2 { row: 2 }), r#""F2","error":"S2","file":"scen","row":2"#, "F2 S2 2"),
    (
        Fault::F2(ScenFault::S3 { row: 2, field: 5 }),
        r#""F2","error":"S3","file":"scen","row":2,"field":5"#,
        "F2 S3 2 5",
    ),
    (Fault::F2(ScenFault::S4 { row: 4 }), r#""F2","error":"S4","file":"scen","row":4"#, "F2 S4 4"),
    (Fault::F2(ScenFault::S5 { row: 5 }), r#""F2","error":"S5","file":"scen","row":5"#, "F2 S5 5"),
    (Fault::F2(ScenFault::S6 { row: 6 }), r#""F2","error":"S6","file":"scen","row":6"#, "F2 S6 6"),
    (Fault::F2(ScenFault::S7 { rows: 32 }), r#""F2","error":"S7","file":"scen","rows":32"#, "F2 S7 32"),
    (Fault::F4(Input::Map), r#""F4","file":"map""#, "F4 map"),
    (Fault::F4(Input::Scen), r#""F4","file":"scen""#, "F4 scen"),
    (Fault::F4(Input::Plan), r#""F4","file":"plan""#, "F4 plan"),
    (Fault::F4(Input::Cert), r#""F4","file":"cert""#, "F4 cert"),
    (Fault::F5(Output::Plan), r#""F5","file":"plan""#, "F5 plan"),
    (Fault::F5(Output::Cert), r#""F5","file":"cert""#, "F5 cert"),
    (Fault::F6, r#""F6""#, "F6"),
];

#[test]
fn errors_are_told() {
    for (fault, members, line) in FAULTS {
        let object = format!(r#"{{"verdict":"fault","fault":{members}}}"#);
        assert_told(Answer::Solve(Err(fault)), 2, &object, line);
        assert_told(Answer::Check(Err(fault)), 2, &object, line);
    }
}

// A sink that takes one byte at a time, and fails behind some of them: what it got is the front of the object, and the
// status is that of an error. One that takes all gets the whole object.
#[test]
fn a_sink_that_fails_is_told() {
    for (answer, object, status) in [
        (solved(Kind::Impossible), r#"{"verdict":"impossible"}"#, 3),
        (Answer::Check(Ok(Verdict::Bound(4))), r#"{"verdict":"bound","bound":4}"#, 0),
        (
            Answer::Check(Err(Fault::Refused(CheckFault::C6(6)))),
            r#"{"verdict":"refused","refusal":"C6","file":"cert","line":6}"#,
            1,
        ),
        (Answer::Check(Err(Fault::F6)), r#"{"verdict":"fault","fault":"F6"}"#, 2),
    ] {
        let object = format!("{object}\n");
        for room in 0..=object.len() {
            let mut out = FuseSink::with_room(Global, room, Pace::ByteByByte, None).expect("memory");
            let mut err = BytesSink::with_room(Global, ROOM).expect("memory");
            let wanted = if room < object.len() { 2 } else { status };
            assert_eq!(tell(&answer, &mut out, &mut err), wanted, "{answer:?}, {room} bytes");
            assert_eq!(out.bytes(), &object.as_bytes()[..room], "{answer:?}, {room} bytes");
        }
    }
}
