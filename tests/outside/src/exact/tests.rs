//! Wrong boxes, each of which the comparison must find.

mod lines;
mod over_sets;
mod searches;

use super::line::Shown;
use super::search::exact_division;
use super::tables::{Entry, Tables};
use super::{samples, without};
use crate::divisions::{sheet_of, Piles, Table};
use crate::families::FAMILIES;
use crate::reader::Sheet;
use crate::sets::set_of;
use crate::share::maximin_share;
use crate::tables::{all_of, of_family};

/// So many tables of each part near none are run.
const NEAR: usize = 4;

/// The answer of a box: the refusal's number or 0, and what it stores, found and piles.
type Stored = (u8, Option<(u8, Piles)>);

/// Gives what a box shows for a sheet.
type Show = fn(&Sheet) -> Shown;

fn shares(sheet: &Sheet) -> Vec<u64> {
    sheet.marks.iter().map(|row| maximin_share(row, sheet.yards)).collect()
}

/// Shows as the library should.
fn right(sheet: &Sheet) -> Shown {
    exact_division(sheet, &shares(sheet))
}

/// The sheets that wrong boxes are tried on: samples, small ones, some near none, one of each family and
/// count of up to seven pieces.
fn sheets() -> impl Iterator<Item = Sheet> {
    let near = without::parts().into_iter().flat_map(|(_, near, _)| near.into_iter().take(NEAR));
    let small = all_of(2, 3, 3).chain(all_of(3, 2, 2));
    let random = (0..FAMILIES.len()).flat_map(|family| of_family(family, 1));
    samples().chain(small).chain(near).chain(random.filter(|sheet| sheet.pieces <= 7))
}

fn passes(entry: Entry) -> bool {
    let mut tables = Tables::new(entry);
    tables.run(sheets()).is_ok() && tables.check_counts().is_ok()
}

/// What is stored for piles, or for none.
fn stored(shown: &Shown) -> (u8, Piles) {
    let mut piles = Piles::default();
    for (place, pile) in piles.iter_mut().zip(shown.iter().flatten()) {
        *place = set_of(pile.iter().copied()) as u16;
    }
    (u8::from(shown.is_some()), piles)
}

/// The answer of a box that shows this and is right otherwise.
fn answer(show: impl Fn(&Sheet) -> Shown, table: &Table, yards: usize, pieces: usize) -> Stored {
    match (yards, pieces) {
        (1..=6, 1..=12) => (0, Some(stored(&show(&sheet_of(table, yards, pieces))))),
        (1..=6, _) => (5, None),
        _ => (4, None),
    }
}

/// Stores what the box stores, and gives its number.
fn lent((number, stored): Stored, found: &mut u8, piles: &mut Piles) -> u8 {
    if let Some(places) = stored {
        (*found, *piles) = places;
    }
    number
}

/// A box that shows this and is right otherwise.
fn showing(
    show: impl Fn(&Sheet) -> Shown,
) -> impl Fn(&Table, usize, usize, &mut u8, &mut Piles) -> u8 {
    move |table, yards, pieces, found, piles| {
        lent(answer(&show, table, yards, pieces), found, piles)
    }
}

/// A box that is right but for this change of what it stores.
fn changed(
    change: fn(&mut Stored, usize),
) -> impl Fn(&Table, usize, usize, &mut u8, &mut Piles) -> u8 {
    move |table, yards, pieces, found, piles| {
        let mut answer = answer(right, table, yards, pieces);
        change(&mut answer, yards);
        lent(answer, found, piles)
    }
}

#[test]
fn a_right_box_passes() {
    assert!(passes(&showing(right)));
}

/// A change of what is stored for a table within the limits.
fn accepted(answer: &mut Stored, change: impl Fn(&mut u8, &mut Piles)) {
    if let Some((found, piles)) = &mut answer.1 {
        change(found, piles);
    }
}

type Change = (&'static str, fn(&mut Stored, usize));

const CHANGES: [Change; 13] = [
    ("5 as 4", |answer, _| answer.0 = if answer.0 == 5 { 4 } else { answer.0 }),
    ("4 as 5", |answer, _| answer.0 = if answer.0 == 4 { 5 } else { answer.0 }),
    ("a refusal answered as none", |answer, _| {
        answer.1 = answer.1.or(Some((0, [0; 6])));
        answer.0 = 0;
    }),
    ("none stored on refusal 4", |answer, _| {
        answer.1 = if answer.0 == 4 { Some((0, [7_777; 6])) } else { answer.1 }
    }),
    ("piles stored on refusal 5", |answer, _| {
        answer.1 = if answer.0 == 5 { Some((77, [0; 6])) } else { answer.1 }
    }),
    ("nothing stored", |answer, _| answer.1 = None),
    ("9 for none", |answer, _| {
        answer.0 = if answer.1.is_some_and(|(found, _)| found == 0) { 9 } else { answer.0 }
    }),
    ("found is 2", |answer, _| accepted(answer, |found, _| *found *= 2)),
    ("found and none swapped", |answer, _| accepted(answer, |found, _| *found = 1 - *found)),
    ("found with six empty piles where none is due", |answer, _| {
        accepted(answer, |found, _| *found = 1)
    }),
    ("a stray pile beside none", |answer, _| {
        accepted(answer, |found, piles| piles[5] = if *found == 0 { 1 } else { piles[5] })
    }),
    ("a stray pile behind the last yard", |answer, yards| {
        accepted(answer, |found, piles| {
            (yards..6).for_each(|place| piles[place] = u16::from(*found))
        })
    }),
    ("piece k on bit k", |answer, _| {
        accepted(answer, |_, piles| piles.iter_mut().for_each(|pile| *pile <<= 1))
    }),
];

#[test]
fn wrong_answers_are_found() {
    for (name, change) in CHANGES {
        assert!(!passes(&changed(change)), "{name}");
    }
}

#[test]
fn counts_that_lose_their_upper_bits_are_found() {
    for width in [8, 16, 32, 63] {
        let cut_off = |count: usize| (count as u128 % (1 << width)) as usize;
        let entry = |table: &Table, yards, pieces, found: &mut u8, piles: &mut Piles| {
            lent(answer(right, table, cut_off(yards), cut_off(pieces)), found, piles)
        };
        assert!(!passes(&entry), "{width}");
    }
}

/// The marks beyond the counts must not count.
#[test]
fn a_box_that_takes_the_whole_table_is_found() {
    let entry = |table: &Table, yards: usize, pieces, found: &mut u8, piles: &mut Piles| {
        let pieces = if (1..=12).contains(&pieces) { 12 } else { pieces };
        lent(answer(right, table, yards, pieces), found, piles)
    };
    assert!(!passes(&entry));
}
