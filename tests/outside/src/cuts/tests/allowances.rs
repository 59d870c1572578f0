//! Wrong cuts with an allowance, each of which the comparison must find.

use super::{changed, run, stored, Change};
use crate::allowance::least_pile;
use crate::cuts::allowances::{
    all_met, faultless, refused, small, some, ANSWER, AT, BELOW, FEWEST, STOPPED_PIECES,
};
use crate::cuts::due::{due, marks_of, partition_of};
use crate::cuts::rows::ALL;
use crate::cuts::{Answer, Entry, Given, Harness, Kinds, Places, BEFORE, STOPPED};
use crate::generator::Generator;
use crate::growth::{first, number, step};
use crate::limits::{MOST_PIECES, MOST_YARDS};

fn passes(entry: Entry) -> bool {
    run(entry, &[refused, small]).0
}

/// Whether the entry passes on a row of twelve pieces in three piles with some allowances.
fn a_large_row_passes(entry: Entry) -> bool {
    let allowances = some(&mut Generator::new(0), number(MOST_PIECES, 3));
    let row = [7, 1, 8, 2, 8, 1, 8, 2, 8, 4, 5, 9];
    Harness::new(entry).walk(&row, ALL as u16, 3, &allowances).is_ok()
}

#[test]
fn right_answers_pass() {
    let right = changed(|_, _| ());
    assert!(passes(&right));
    assert!(a_large_row_passes(&right));
}

/// A wrong answer where the cut is stopped, or should not be.
const WRONGLY_STOPPED: [(&str, Change); 6] = [
    ("never stopped", |answer, _| answer.0 = if answer.0 == STOPPED { 0 } else { answer.0 }),
    ("stopped at the last", |answer, given| {
        let last = answer.0 == 0 && answer.1.count == given.allowance;
        answer.0 = if last { STOPPED } else { answer.0 };
    }),
    ("the allowance for the number", |answer, given| {
        answer.1.count = if answer.0 == 0 { given.allowance } else { answer.1.count };
    }),
    ("the number for the allowance", |answer, given| {
        answer.1.count = if answer.0 == STOPPED { of_all(given).1.count } else { answer.1.count };
    }),
    ("the share for what was reached", |answer, given| {
        if answer.0 == STOPPED {
            answer.1 = Places { count: answer.1.count, ..of_all(given).1 };
        }
    }),
    ("one layout less", |answer, given| {
        if answer.0 == STOPPED && given.allowance > 1 {
            let (_, less) = due(&Given { allowance: given.allowance - 1, ..*given });
            answer.1 = Places { count: answer.1.count, ..less };
        }
    }),
];

/// A wrong answer to allowance 0.
const WRONGLY_REFUSED: [(&str, Change); 2] = [
    ("allowance 0 is enough for one layout", |answer, given| {
        let one = answer.0 == 14 && of_all(given).1.count == 1;
        *answer = if one { of_all(given) } else { *answer };
    }),
    ("refusal 14 stores", |answer, _| {
        answer.1.count = if answer.0 == 14 { 0 } else { answer.1.count };
    }),
];

#[test]
fn wrong_answers_are_found() {
    for (name, change) in WRONGLY_STOPPED.into_iter().chain(WRONGLY_REFUSED) {
        assert!(!passes(&changed(change)), "{name}");
    }
}

/// The answer without an allowance.
fn of_all(given: &Given) -> Answer {
    due(&Given { allowance: u32::MAX, ..*given })
}

/// Of these refusals the first that holds.
fn in_order(order: [u8; 3]) -> impl Fn(&Given, &mut Places) -> u8 {
    move |given, places| {
        let holds = |number: &u8| match number {
            4 => !(1..=MOST_YARDS).contains(&given.piles),
            5 => usize::from(given.set) > ALL,
            _ => given.allowance == 0,
        };
        let first = order.into_iter().find(holds);
        stored(first.map_or_else(|| due(given), |number| (number, BEFORE)), places)
    }
}

#[test]
fn refusals_in_another_order_are_found() {
    assert!(run(&in_order([4, 5, 14]), &[refused]).0);
    for order in [[4, 14, 5], [5, 4, 14], [5, 14, 4], [14, 4, 5], [14, 5, 4]] {
        assert!(!run(&in_order(order), &[refused]).0, "{order:?}");
    }
}

/// Of several layouts with the best least pile the last.
fn last_of_the_best(given: &Given, places: &mut Places) -> u8 {
    let mut answer = due(given);
    if [0, STOPPED].contains(&answer.0) {
        let marks = marks_of(&given.row, given.set);
        let mut layout = first(marks.len());
        for _ in 0..answer.1.count {
            if least_pile(&marks, &layout, given.piles) == answer.1.figure {
                answer.1.partition = partition_of(&layout);
            }
            step(&mut layout, given.piles);
        }
    }
    stored(answer, places)
}

#[test]
fn the_last_of_the_best_layouts_is_found() {
    assert!(!passes(&last_of_the_best));
}

#[test]
fn narrow_allowances_are_found() {
    for bits in [8, 16, 24, 31] {
        let entry = |given: &Given, places: &mut Places| {
            let allowance = given.allowance & ((1 << bits) - 1);
            stored(due(&Given { allowance, ..*given }), places)
        };
        assert!(!a_large_row_passes(&entry), "{bits}");
    }
}

#[test]
fn a_faulty_walk_is_found() {
    let of = |figure| Places { figure, ..BEFORE };
    let whole = (0, of(7));
    assert_eq!(faultless(&(STOPPED, of(5)), 5, &whole), Ok(()));
    assert_eq!(faultless(&(0, of(7)), 5, &whole), Ok(()));
    assert!(faultless(&(STOPPED, of(4)), 5, &whole).is_err());
    assert!(faultless(&(STOPPED, of(8)), 5, &whole).is_err());
    assert!(faultless(&(0, of(6)), 5, &whole).is_err());
    assert!(faultless(&(0, Places { count: 0, ..of(7) }), 5, &whole).is_err());
}

#[test]
fn rare_answers_are_found() {
    let mut kinds = Kinds::default();
    let unmet = |kinds: &Kinds| all_met(kinds).err().unwrap_or_default();
    for (answer, fewest) in FEWEST {
        (1..fewest).for_each(|_| kinds.count(ANSWER, usize::from(answer)));
        assert_eq!(unmet(&kinds), format!("too rare: {ANSWER}, {answer}: {}", fewest - 1));
        kinds.count(ANSWER, usize::from(answer));
    }
    for (name, numbers) in [(BELOW, 2..=6), (AT, 2..=6), (STOPPED_PIECES, 2..=12)] {
        for number in numbers {
            assert_eq!(unmet(&kinds), format!("never met: {name} {number}"));
            kinds.count(name, number);
        }
    }
    assert_eq!(unmet(&kinds), "");
}
