//! Wrong outputs, each of which the check must find.

use super::after_sample;
use crate::samples::{SHEET_A, TEXTS_OF_J};

const OF_SHEET_A: &str = "a.sheet\n\
    shareout: (division (yards 2) (pieces 3) (grade 3))\n\
    (yard 1 (pile 1) (worth 5) (share 5) (cut (1) (2 3)))\n\
    (yard 2 (pile 2 3) (worth 4) (share 4) (cut (1) (2 3)))\n\
    (cutters 1)\n\
    (end)\n\
    in 169 bytes: (refused 10)\n\
    strict: (sheet (yards 2) (pieces 3))\n\
    (yard 1 (marks 5 3 4))\n\
    (yard 2 (marks 6 2 2))\n\
    (end)\n\
    in 80 bytes: (refused 10)\n\
    exact: (exact (1) (2 3))\n\
    in 17 bytes: (refused 10)\n\
    judge: (refused 11)\n";

/// What is wrong with this output for sheet a.
fn fault(output: &str) -> Option<String> {
    match after_sample("a.sheet", SHEET_A.as_bytes(), output.as_bytes()) {
        Ok(rest) => (!rest.is_empty()).then(|| "too long".to_owned()),
        Err(wrong) => Some(wrong),
    }
}

#[test]
fn a_right_output_passes() {
    assert_eq!(fault(OF_SHEET_A), None);
    for (text, refusal) in TEXTS_OF_J.into_iter().filter(|(_, refusal)| *refusal > 0) {
        let programs = ["shareout", "strict", "exact", "judge"];
        let lines = programs.map(|program| format!("{program}: (refused {refusal})\n"));
        let output = "j\n".to_owned() + &lines.concat();
        assert_eq!(after_sample("j", text.as_bytes(), output.as_bytes()), Ok(&b""[..]));
    }
}

#[test]
fn any_exact_division_passes_and_no_other() {
    let shown = |line| fault(&OF_SHEET_A.replace("(exact (1) (2 3))", line));
    assert_eq!(shown("(exact (2 3) (1))"), None);
    assert_eq!(
        shown("(exact (3) (1 2))").as_deref(),
        Some("yard 1 has 4 of its 5: (exact (3) (1 2))\\n")
    );
    assert!(shown("(exact none)").is_some());
    assert!(shown("(exact (1 2 3) ())").is_some());
}

#[test]
fn every_other_byte_is_found() {
    for place in 0..OF_SHEET_A.len() {
        let (before, behind) = OF_SHEET_A.split_at(place);
        assert!(fault(before).is_some(), "cut off at {place}");
        assert!(fault(&format!("{before}{}", &behind[1..])).is_some(), "without {place}");
        assert!(fault(&format!("{before} {behind}")).is_some(), "a space at {place}");
        assert!(fault(&format!("{before};{}", &behind[1..])).is_some(), "a semicolon at {place}");
    }
    assert!(fault(&format!("{OF_SHEET_A}\n")).is_some());
}

#[test]
fn every_line_is_missed() {
    let lines: Vec<&str> = OF_SHEET_A.split_inclusive('\n').collect();
    for number in 0..lines.len() {
        assert!(fault(&[&lines[..number], &lines[number + 1..]].concat().concat()).is_some());
    }
}
