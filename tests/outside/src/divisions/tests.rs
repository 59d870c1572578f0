//! Wrong divisions, each of which the comparison must find.

mod allowances;
mod narrow;

use super::{check, check_counts, due, sheet_of, Answer, Entry, Given, Places, BEFORE};
use crate::division::divide;
use crate::grades::{self, tests_before_order_2};
use crate::growth::number;
use crate::met::Met;
use crate::reader::{read, Sheet};
use crate::samples::SHEETS;

fn samples() -> impl Iterator<Item = Sheet> {
    SHEETS.iter().map(|(name, text, _)| read(text.as_bytes()).expect(name))
}

fn passes(entry: Entry) -> bool {
    let mut met = Met::default();
    samples().all(|sheet| check(entry, &mut met, &sheet).is_ok()) && check_counts(entry).is_ok()
}

/// The sheet of what is given, if that is within the limits.
fn sheet_given(given: &Given) -> Sheet {
    sheet_of(&given.table, given.yards, given.pieces)
}

/// The solver's answer, as the library should give it.
fn right(given: &Given) -> Answer {
    match (given.yards, given.pieces) {
        (1..=6, 1..=12) if number(given.pieces, given.yards) > given.allowance => (14, BEFORE),
        (1..=6, 1..=12) => due(&divide(&sheet_given(given))),
        (1..=6, _) => (5, BEFORE),
        _ => (4, BEFORE),
    }
}

/// Answers as the library should, but for this change.
fn changed(change: fn(&mut Answer, &Given), width: u32) -> impl Fn(&Given, &mut Places) -> u8 {
    let cut_off = move |count: usize| (count as u128 % (1 << width)) as usize;
    move |given, places| {
        let (yards, pieces) = (cut_off(given.yards), cut_off(given.pieces));
        let mut answer = right(&Given { yards, pieces, ..*given });
        change(&mut answer, given);
        *places = answer.1;
        answer.0
    }
}

#[test]
fn right_answers_pass() {
    assert!(passes(&changed(|_, _| (), 64)));
}

#[test]
fn the_even_test_before_order_2_is_found() {
    let before_order_2 = changed(
        |answer, given| {
            if answer.0 == 0 {
                let sheet = sheet_given(given);
                answer.1.grade = grades::grade(tests_before_order_2(&sheet, &divide(&sheet)));
            }
        },
        64,
    );
    assert!(!passes(&before_order_2));
}

#[test]
fn counts_that_lose_their_upper_bits_are_found() {
    for width in [8, 16, 32, 63] {
        assert!(!passes(&changed(|_, _| (), width)), "{width}");
    }
}

#[test]
fn wrong_answers_are_found() {
    let wrong: [fn(&mut Answer, &Given); 5] = [
        |answer, _| answer.0 = if answer.0 == 5 { 4 } else { answer.0 },
        |answer, _| answer.1.grade = if answer.0 == 4 { 0 } else { answer.1.grade },
        |answer, _| answer.1.piles[5] = if answer.0 == 0 { 1 } else { BEFORE.piles[5] },
        |answer, _| answer.1.piles.swap(0, 1),
        |answer, _| answer.1.cutters[1] = 0,
    ];
    for (number, change) in wrong.into_iter().enumerate() {
        assert!(!passes(&changed(change, 64)), "{number}");
    }
}
