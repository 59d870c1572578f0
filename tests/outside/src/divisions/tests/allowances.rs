//! Wrong refusals by the allowance, each of which the comparison must find.

use super::{changed, right, samples};
use crate::divisions::allowances::{
    all_met, check, DIVIDED, DIVIDED_PIECES, FEWEST_DIVIDED, FEWEST_REFUSED, REFUSED,
    REFUSED_PIECES,
};
use crate::divisions::{check_counts, Answer, Entry, Given, Places, BEFORE};
use crate::growth::number;
use crate::kinds::Kinds;

fn passes(entry: Entry) -> bool {
    let mut kinds = Kinds::default();
    samples().all(|sheet| check(entry, &mut kinds, &sheet).is_ok())
}

#[test]
fn right_answers_pass() {
    assert!(passes(&changed(|_, _| (), 64)));
}

#[test]
fn wrong_answers_are_found() {
    let wrong: [fn(&mut Answer, &Given); 6] = [
        |answer, given| *answer = right(&Given { allowance: u32::MAX, ..*given }),
        |answer, given| *answer = right(&Given { allowance: given.allowance.max(1), ..*given }),
        |answer, given| *answer = right(&Given { allowance: given.allowance & 0xffff, ..*given }),
        |answer, given| {
            let just = given.allowance == number(given.pieces, given.yards);
            *answer = if just { (14, BEFORE) } else { *answer };
        },
        |answer, _| answer.0 = if answer.0 == 14 { 10 } else { answer.0 },
        |answer, _| answer.1.grade = if answer.0 == 14 { 0 } else { answer.1.grade },
    ];
    for (number, change) in wrong.into_iter().enumerate() {
        assert!(!passes(&changed(change, 64)), "{number}");
    }
}

/// Whether an entry passes that tries allowance 0 before this refusal.
fn passes_with_14_before(refusal: u8) -> bool {
    let entry = |given: &Given, places: &mut Places| {
        let answer = right(given);
        *places = answer.1;
        if given.allowance == 0 && answer.0 == refusal {
            return 14;
        }
        answer.0
    };
    check_counts(&entry).is_ok()
}

#[test]
fn refusals_in_another_order_are_found() {
    assert!(!passes_with_14_before(4));
    assert!(!passes_with_14_before(5));
    assert!(passes_with_14_before(14));
}

#[test]
fn rare_answers_are_found() {
    let mut kinds = Kinds::default();
    let unmet = |kinds: &Kinds| all_met(kinds).err().unwrap_or_default();
    for (name, fewest) in [(DIVIDED, FEWEST_DIVIDED), (REFUSED, FEWEST_REFUSED)] {
        for yards in 1..=6 {
            assert_eq!(unmet(&kinds), format!("never met: {name} {yards}"));
            kinds.count(name, yards);
        }
        (6..fewest - 1).for_each(|_| kinds.count(name, 1));
        assert_eq!(unmet(&kinds), format!("too rare: {name}: {}", fewest - 1));
        kinds.count(name, 1);
    }
    for name in [DIVIDED_PIECES, REFUSED_PIECES] {
        for pieces in 1..=12 {
            assert_eq!(unmet(&kinds), format!("never met: {name} {pieces}"));
            kinds.count(name, pieces);
        }
    }
    assert_eq!(unmet(&kinds), "");
}
