//! Document 01's worked examples and its sample listing come out as document 01 says.
use answers::families::worked;
use answers::judge::{judge, Answer};
use answers::packcheck::packcheck;
use luad::diagnostic::Verdict::{self, Incomplete, Invalid, ValidForParser};

/// Document 01's answer: verdict, and pc, code and value of each diagnostic, all in row 0.
type Expected = (&'static str, Verdict, &'static [[i32; 3]]);

const EXPECTED: [Expected; 16] = [
    ("P1", ValidForParser, &[]),
    ("P2", Invalid, &[[0, 5, -1]]),
    ("P3", Invalid, &[[0, 5, 1]]),
    ("P4", Invalid, &[[0, 4, 63]]),
    ("P5", Invalid, &[[0, 9, 2]]),
    ("P6", Invalid, &[[0, 2, 0]]),
    ("P7", Invalid, &[[0, 2, 0], [0, 11, 1]]),
    ("P8", Invalid, &[[0, 10, 0]]),
    ("P8", ValidForParser, &[]),
    ("P9", Invalid, &[[0, 11, 1], [0, 11, 1]]),
    ("P10", Invalid, &[[1, 12, 300]]),
    ("P11", Invalid, &[[0, 1, 1]]),
    ("P12", ValidForParser, &[[-1, 3, 251]]),
    ("P12", ValidForParser, &[]),
    ("P13", Incomplete, &[]),
    ("P13", Invalid, &[]),
];

fn answers() -> Vec<(&'static str, Answer)> {
    worked::examples().into_iter().map(|(name, image)| (name, judge(&image))).collect()
}

#[test]
fn verdicts_and_diagnostics() {
    let answers = answers();
    assert_eq!(answers.len(), EXPECTED.len());
    for ((name, answer), (expected_name, verdict, diagnostics)) in answers.into_iter().zip(EXPECTED) {
        let diagnostics: Vec<[i32; 4]> = diagnostics.iter().map(|[pc, code, value]| [0, *pc, *code, *value]).collect();
        assert_eq!((name, answer.verdict, answer.diagnostics), (expected_name, verdict, diagnostics));
    }
}

#[test]
fn bindings() {
    for (name, answer) in answers() {
        let expected: &[[i32; 3]] = match name {
            "P10" => &[[1, 44, 1]],
            "P11" => &[[0, 0, -1]],
            _ => &[],
        };
        assert_eq!(answer.bindings, expected, "{name}");
    }
}

#[test]
fn sample_listing() {
    let input = "warnings errors\n0 0\ndepth words constants upvalues stack\n0 2 1 0 2\nword\n00004001\n0080001e\n";
    let output = "row place code value\n0 0 L51-CONST-003 1\nverdict findings\nInvalid 1\n";
    assert_eq!(packcheck(input.as_bytes()), output);
}

#[test]
fn malformed_listing() {
    assert_eq!(packcheck(b""), "refused 9 1\n");
    assert_eq!(packcheck(b"warnings errors\n0 0\ndepth words constants upvalues stack\nword\n"), "refused 1 0\n");
    assert_eq!(packcheck(b"warnings errors\n0 0\nword\n"), "refused 9 3\n");
    assert_eq!(packcheck(b"warnings errors\n0 \xff\n"), "refused 9 2\n");
}
