//! What a plan text and a certificate show, and each kind of refusal. The texts are those of tests/cases.
use super::{CROSSING_CERTIFICATE, CROSSING_PLAN, assert_told, crossing};
use mapf::{Error, Verdict, check, check_paths};

/// A plan text that says that a search reached its limit.
const LIMIT: &str = "mapf-plan 2\nagents 2\nlimit 3 bound 4\nend\n";

/// A plan that costs one tick more.
const DEARER: &str = "mapf-plan 2\nagents 2\ncost 6\npath 0 4 0,1 0,1 0,1 1,1 2,1\npath 1 2 1,0 1,1 1,2\nend\n";

/// A certificate of version 3, of these lines between its head and its end.
fn version_three(claim: &str, lines: &str) -> String {
    format!("mapf-cert 3\nagents 2\nclaim {claim}\nprices 0\nlemmas 1\n{lines}end\n")
}

const PAIR: &str = "two 0 1 0 0 0 1 -\nat 0,1 1,0 0 5\nleaf 0 1 -\ngroup 1 1\nuse 0 1\n";

#[test]
fn what_is_shown_is_accepted() {
    let bound = "mapf-cert 2\nagents 2\nclaim bound 4\nleaf 0\nend\n";
    let table = [
        (CROSSING_PLAN, CROSSING_CERTIFICATE.to_owned(), Verdict::Optimal { cost: 5 }),
        (CROSSING_PLAN, version_three("cost 5", PAIR), Verdict::Optimal { cost: 5 }),
        (CROSSING_PLAN, version_three("bound 5", PAIR), Verdict::Optimal { cost: 5 }),
        (DEARER, version_three("bound 5", PAIR), Verdict::Within { bound: 5, cost: 6 }),
        (LIMIT, bound.to_owned(), Verdict::Bound { bound: 4 }),
    ];
    for (plan, certificate, verdict) in table {
        assert_eq!(check(&crossing(), plan, certificate), Ok(verdict));
    }
    let paths = [vec![(0, 1), (0, 1), (1, 1), (2, 1), (2, 1)], vec![(1, 0), (1, 1), (1, 2)]];
    assert_eq!(check_paths(&crossing(), &paths, CROSSING_CERTIFICATE), Ok(Verdict::Optimal { cost: 5 }));
}

#[test]
fn what_isnt_shown_is_refused() {
    let plan = CROSSING_PLAN.to_owned();
    let certificate = CROSSING_CERTIFICATE.to_owned();
    let changed = |from: &str, to: &str| {
        assert!(CROSSING_CERTIFICATE.contains(from), "{from}");
        CROSSING_CERTIFICATE.replace(from, to)
    };
    let table = [
        (
            plan.replace("cost 5", "cost 6"),
            certificate.clone(),
            "the plan text has an error: line 3 has another shape than it must have, or doesn't fit",
            "C1 P1 3",
        ),
        (
            format!("{plan}x"),
            certificate.clone(),
            "the plan text has an error: something follows the line 'end'; it begins at line 7",
            "C1 P4 7",
        ),
        (
            plan.clone(),
            String::new(),
            "the certificate has an error: the text ends where line 1 should begin, or before its end",
            "C2 K2 1",
        ),
        (
            plan.clone(),
            changed("mapf-cert 2", "mapf-cert 4"),
            "the certificate has an error: line 1 has another shape than it must have, or is out of place",
            "C2 K1 1",
        ),
        (
            plan.clone(),
            changed("1,1 1 0", "1,1 1 9"),
            "the certificate has an error: a number in line 4 is out of range",
            "C2 K3 4",
        ),
        (
            plan.clone(),
            format!("{certificate}\n"),
            "the certificate has an error: something follows the line 'end'; it begins at line 12",
            "C2 K4 12",
        ),
        (
            plan.clone(),
            changed("agents 2", "agents 3"),
            "the number of agents of the plan text or of the certificate isn't that of the problem",
            "C3",
        ),
        (
            plan.clone(),
            changed("cost 5", "cost 4"),
            "the claim of the certificate doesn't fit the plan text, or that has a limit of version 1",
            "C4",
        ),
        (
            plan.replace("0,1 0,1 1,1 2,1", "0,1 1,1 1,1 2,1"),
            certificate.clone(),
            "the plan isn't valid: vertex conflict: agents 0 and 1 are in one cell at tick 1",
            "C5 V4 0 1 1",
        ),
        (
            plan.clone(),
            changed("vertex 0 1", "vertex 0 0"),
            "line 4 of the certificate is a split that isn't allowed",
            "C6 4",
        ),
        (
            plan.clone(),
            changed("at 0,1 0 3", "at 0,1 0 4"),
            "line 7 of the certificate is an entry or a cell that the rules don't allow",
            "C7 7",
        ),
        (
            DEARER.to_owned(),
            changed("cost 5", "cost 6"),
            "the leaf at line 5 of the certificate doesn't show what it has to",
            "C8 5",
        ),
        (
            plan.clone(),
            "mapf-cert 2\nagents 2\nclaim cost 5\nclash 0 1\nend\n".to_owned(),
            "the clash at line 4 of the certificate is none",
            "C9 4",
        ),
        (
            plan.clone(),
            version_three("cost 5", &PAIR.replace("two 0 1", "two 0 0")),
            "line 6 of the certificate isn't allowed where it stands",
            "C10 6",
        ),
    ];
    for (plan, certificate, reason, code) in table {
        let error = check(&crossing(), plan, certificate).expect_err(code);
        assert!(matches!(error, Error::Refused(_)), "{error:?}");
        let words = format!("the texts don't show what the plan text says: {reason}");
        assert_told(error, &words, Some(&format!("refused {code}")));
    }
}
