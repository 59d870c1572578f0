//! Wrong cuts, each of which the comparison must find.

mod allowances;

use super::due::{due, found, marks_of};
use super::rows::{all_small, random, refused};
use super::{all_met, Answer, Entry, Given, Harness, Kinds, Part, Places};
use crate::growth::number;
use crate::limits::Mark;
use crate::share::definition::by_definition;
use crate::widths::{rows_met, sums_met, WIDE_SHARE};

/// Whether the entry passes these parts, and the kinds met.
fn run(entry: Entry, parts: &[Part]) -> (bool, Kinds) {
    let mut harness = Harness::new(entry);
    let passed = parts.iter().all(|part| part(&mut harness).is_ok());
    (passed, harness.kinds)
}

fn passes(entry: Entry) -> bool {
    run(entry, &[refused, all_small]).0
}

fn random_rows_pass(entry: Entry) -> bool {
    run(entry, &[random]).0
}

/// Stores what the answer has for the lent places.
fn stored(answer: Answer, places: &mut Places) -> u8 {
    *places = answer.1;
    answer.0
}

/// What a wrong library makes of the right answer.
type Change = fn(&mut Answer, &Given);

/// Answers as the library should, but for this change.
fn changed(change: Change) -> impl Fn(&Given, &mut Places) -> u8 {
    move |given, places| {
        let mut answer = due(given);
        change(&mut answer, given);
        stored(answer, places)
    }
}

/// Without the random rows no mark is above 65,535, and no share above 32 bits.
#[test]
fn right_answers_pass_and_random_rows_meet_wide_marks() {
    let right = changed(|_, _| ());
    let (passed, kinds) = run(&right, &[refused, all_small]);
    assert!(passed);
    assert_eq!(rows_met(&kinds), Err("never met: mark above 65,535, digits 5".to_owned()));
    assert!(sums_met(&kinds, WIDE_SHARE).is_err());
    let (passed, kinds) = run(&right, &[refused, all_small, random]);
    assert!(passed);
    assert_eq!(all_met(&kinds), Ok(()));
}

#[test]
fn wrong_answers_are_found() {
    let wrong: [Change; 8] = [
        |answer, _| answer.0 = if answer.0 == 5 { 4 } else { answer.0 },
        |answer, given| answer.0 = if given.piles == 258 { 0 } else { answer.0 },
        |answer, _| answer.1.figure += u64::from(answer.0 == 0 && answer.1.figure == 3),
        |answer, _| answer.1.figure = if answer.0 == 4 { 0 } else { answer.1.figure },
        |answer, _| answer.1.partition[11] = if answer.0 == 0 { 1 } else { 77 },
        |answer, _| answer.1.partition[1..3].reverse(),
        |answer, _| answer.1.count = if answer.0 == 5 { 0 } else { answer.1.count },
        |answer, given| answer.1.count += u32::from(answer.0 == 0 && given.set == 0),
    ];
    for (number, change) in wrong.into_iter().enumerate() {
        assert!(!passes(&changed(change)), "{number}");
    }
}

type Narrowed = (&'static str, fn(Mark) -> Mark);

/// What narrow marks would keep.
const NARROW_MARKS: [Narrowed; 4] = [
    ("cut off to 16 bits", |mark| mark & 0xffff),
    ("no greater than 65,535", |mark| mark.min(65_535)),
    ("cut off to 31 bits", |mark| mark & 0x7fff_ffff),
    ("the upper 24 bits", |mark| mark as f32 as Mark),
];

#[test]
fn narrow_marks_are_found() {
    for (name, kept) in NARROW_MARKS {
        let entry = |given: &Given, places: &mut Places| {
            stored(due(&Given { row: given.row.map(kept), ..*given }), places)
        };
        assert!(!random_rows_pass(&entry), "{name}");
    }
}

#[test]
fn a_narrow_share_is_found() {
    let narrow = changed(|answer, _| answer.1.figure &= u64::from(u32::MAX));
    assert!(!random_rows_pass(&narrow));
}

#[test]
fn narrow_sums_are_found() {
    let sums: [fn(u64, u64) -> u64; 2] = [
        |worth, mark| (worth + mark) & u64::from(u32::MAX),
        |worth, mark| (worth + mark).min(u64::from(u32::MAX)),
    ];
    for sum in sums {
        let entry = |given: &Given, places: &mut Places| {
            let marks = marks_of(&given.row, given.set);
            let answer = match marks.len() {
                items @ 0..=5 => {
                    found(&by_definition(&marks, given.piles, sum), number(items, given.piles))
                }
                _ => due(given),
            };
            stored(answer, places)
        };
        assert!(!random_rows_pass(&entry));
    }
}
