//! Divisions by marks, shares and worths that are kept in too few bits.

use super::{sheet_given, Entry};
use crate::division::{divide, divide_by, worth, Division};
use crate::divisions::{check, due};
use crate::families::FAMILIES;
use crate::grades::{grade, tests};
use crate::met::Met;
use crate::ratio::top_and_bottom;
use crate::reader::Sheet;
use crate::share::{cut, Cut};
use crate::tables::of_family;

type Divide = fn(&Sheet) -> Division;

/// A table of every family for every count of yards and pieces, divided in this way.
fn random_tables_pass(divide: Divide) -> bool {
    let mut met = Met::default();
    let mut tables = (0..FAMILIES.len()).flat_map(|family| of_family(family, 1));
    tables.all(|sheet| {
        let entry: Entry = &|given, places| {
            let answer = due(&divide(&sheet_given(given)));
            *places = answer.1;
            answer.0
        };
        check(entry, &mut met, &sheet).is_ok()
    })
}

fn with_marks(sheet: &Sheet, kept: fn(u64) -> u64) -> Division {
    let row = |row: &Vec<u64>| row.iter().copied().map(kept).collect();
    divide(&Sheet::of(sheet.marks.iter().map(row).collect()))
}

fn with_shares(sheet: &Sheet, kept: impl Fn(u64) -> u64) -> Division {
    let narrow = |row: &Vec<u64>| {
        let cut = cut(row, sheet.yards);
        Cut { share: kept(cut.share), ..cut }
    };
    divide_by(sheet, sheet.marks.iter().map(narrow).collect())
}

/// The bundles of one division, graded with the shares of another.
fn graded_with(sheet: &Sheet, division: Division, shares: Division) -> Division {
    let mixed = Division { cuts: shares.cuts, ..division };
    Division { grade: grade(tests(sheet, &mixed)), ..mixed }
}

/// What a sum keeps in 32 bits.
fn narrow(sum: u64) -> u64 {
    sum & u64::from(u32::MAX)
}

/// What suits is judged by top times share.
fn narrow_product(sheet: &Sheet) -> Division {
    let (top, _) = top_and_bottom(sheet.yards);
    let rounds = with_shares(sheet, |share| narrow(top * share) / top);
    graded_with(sheet, rounds, divide(sheet))
}

/// For the grade each pile counts as one piece, its worth as that piece's mark.
fn graded_by_worths(sheet: &Sheet, kept: fn(u64) -> u64) -> Division {
    let division = divide(sheet);
    let worths =
        |row: &Vec<u64>| division.bundles.iter().map(|bundle| kept(worth(row, bundle))).collect();
    let as_pieces = Sheet::of(sheet.marks.iter().map(worths).collect());
    let bundles: Vec<Vec<usize>> = (0..sheet.yards).map(|yard| vec![yard]).collect();
    let by_worths = Division { bundles, ..divide(sheet) };
    Division { grade: grade(tests(&as_pieces, &by_worths)), ..division }
}

const NARROW: [(&str, Divide); 7] = [
    ("marks of 16 bits", |sheet| with_marks(sheet, |mark| mark & 0xffff)),
    ("marks of 31 bits", |sheet| with_marks(sheet, |mark| mark & 0x7fff_ffff)),
    ("shares", |sheet| with_shares(sheet, narrow)),
    ("shares, in the rounds", |sheet| {
        graded_with(sheet, with_shares(sheet, narrow), divide(sheet))
    }),
    ("shares, in the grade", |sheet| graded_with(sheet, divide(sheet), with_shares(sheet, narrow))),
    ("top times share, in the rounds", narrow_product),
    ("worths, in the grade", |sheet| graded_by_worths(sheet, narrow)),
];

#[test]
fn right_divisions_pass() {
    assert!(random_tables_pass(|sheet| with_shares(sheet, |share| share)));
    assert!(random_tables_pass(|sheet| graded_by_worths(sheet, |worth| worth)));
}

#[test]
fn narrow_divisions_are_found() {
    for (name, divide) in NARROW {
        assert!(!random_tables_pass(divide), "{name}");
    }
}
