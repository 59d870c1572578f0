//! Checks the expected output of the program `cut_samples` line by line: the marks of a row, and cuts of it,
//! each held against a walk over the growth layouts.

use std::fmt::Display;

use super::due::{looked, marks_of, refusal};
use super::{Given, Partition, Row, STOPPED};
use crate::allowance::Walk;
use crate::limits::{Mark, MOST_PIECES};

/// Gives the number of cuts; an error shows the first line that is not as due.
pub fn check(expected: &str) -> Result<usize, String> {
    let (mut row, mut cuts) = (None, 0);
    for line in expected.split_inclusive('\n') {
        let due = match line.strip_prefix("marks ") {
            Some(marks) => {
                row = row_of(marks);
                row.map(|row| format!("marks{}\n", spaced(&row)))
            }
            None => {
                cuts += 1;
                row.and_then(|row| given(row, line)).map(|given| printed(&given))
            }
        };
        if due.as_deref() != Some(line) {
            return Err(format!("due {due:?}\ncame {line:?}"));
        }
    }
    match cuts {
        0 => Err("no cut".to_owned()),
        _ => Ok(cuts),
    }
}

fn row_of(marks: &str) -> Option<Row> {
    let marks: Vec<Mark> =
        marks.split_whitespace().map(|mark| mark.parse().ok()).collect::<Option<_>>()?;
    marks.try_into().ok()
}

/// What the cut of a line is given.
fn given(row: Row, line: &str) -> Option<Given> {
    let (set, rest) = line.strip_prefix("set ")?.split_once(" into ")?;
    let (piles, rest) = rest.split_once(", allowed ")?;
    let (allowance, _) = rest.split_once(':')?;
    let (set, piles, allowance) = (set.parse().ok()?, piles.parse().ok()?, allowance.parse().ok()?);
    Some(Given { row, set, piles, allowance })
}

/// The line of a cut.
fn printed(given: &Given) -> String {
    let (answer, count, partition) = answered(given);
    let Given { set, piles, allowance, .. } = given;
    let layout = spaced(&partition);
    format!("set {set} into {piles}, allowed {allowance}: {answer}, looked at {count}, layout{layout}\n")
}

/// The answer in words, the count and the partition; a refusal has a count and places of 0.
fn answered(given: &Given) -> (String, u32, Partition) {
    if let Some(refusal) = refusal(given) {
        return (format!("refused {refusal}"), 0, [0; MOST_PIECES]);
    }
    let marks = marks_of(&given.row, given.set);
    let (number, places) = looked(&Walk::new(&marks, given.piles).answer(given.allowance));
    let kind = if number == STOPPED { "stopped" } else { "share" };
    (format!("{kind} {}", places.figure), places.count, places.partition)
}

/// Numbers, each behind a space.
fn spaced<N: Display>(numbers: &[N]) -> String {
    numbers.iter().map(|number| format!(" {number}")).collect()
}

#[cfg(test)]
mod tests {
    use super::check;

    const RIGHT: &str = "marks 1 2 3 4 5 6 7 0 0 0 0 0\n\
        set 127 into 3, allowed 10: stopped 6, looked at 10, layout 1 1 1 1 1 2 3 0 0 0 0 0\n\
        set 127 into 3, allowed 365: share 9, looked at 365, layout 1 1 2 3 3 1 2 0 0 0 0 0\n\
        set 127 into 7, allowed 1: refused 4, looked at 0, layout 0 0 0 0 0 0 0 0 0 0 0 0\n\
        marks 2 2 2 2 0 0 0 0 0 0 0 4294967295\n\
        set 15 into 2, allowed 9: share 4, looked at 8, layout 1 1 2 2 0 0 0 0 0 0 0 0\n\
        set 15 into 2, allowed 0: refused 14, looked at 0, layout 0 0 0 0 0 0 0 0 0 0 0 0\n";

    #[test]
    fn right_lines_pass() {
        assert_eq!(check(RIGHT), Ok(5));
    }

    #[test]
    fn the_lines_of_the_readme_are_right() {
        let readme = include_str!("../../../../README.md");
        let shown = readme.lines().filter(|line| line.starts_with("set 127 into 3, allowed "));
        let lines: Vec<String> = shown.map(|line| format!("{line}\n")).collect();
        assert_eq!(lines.len(), 5);
        assert_eq!(check(&format!("marks 1 2 3 4 5 6 7 0 0 0 0 0\n{}", lines.concat())), Ok(5));
    }

    #[test]
    fn wrong_lines_are_found() {
        let changes = [
            ("stopped 6", "stopped 7"),
            ("stopped 6", "share 6"),
            ("share 9", "stopped 9"),
            ("looked at 365", "looked at 364"),
            ("layout 1 1 2 3 3 1 2", "layout 1 1 2 3 3 2 1"),
            ("layout 1 1 2 2 0", "layout 1 1 2 2 1"),
            ("allowed 10:", "allowed 11:"),
            ("allowed 365:", "allowed 0365:"),
            ("refused 4", "refused 5"),
            ("refused 14", "refused 4"),
            ("set 15 into 2, allowed 9", "set 14 into 2, allowed 9"),
            ("marks 1 2", "marks 1  2"),
            ("marks 1 2 3", "marks 1 3 2"),
            ("marks 1 2 3", "marks 1 2"),
            ("marks 2 2 2 2 0", "marks 2 2 2 1 0"),
            ("4294967295", "4294967296"),
            ("marks 1 2 3 4 5 6 7 0 0 0 0 0\n", ""),
            ("\nmarks 2", "\n\nmarks 2"),
        ];
        for (old, new) in changes {
            let wrong = RIGHT.replacen(old, new, 1);
            assert_ne!(wrong, RIGHT);
            assert!(check(&wrong).is_err(), "{new}");
        }
    }
}
