//! The rows, sets and numbers of piles that are cut with the allowance of the dividing program.

use super::{Harness, Part, Row};
use crate::families::FAMILIES;
use crate::generator::Generator;
use crate::limits::{counts_to_try, handed_over, Mark, MOST_PIECES, MOST_YARDS};
use crate::sets::{members, set_of};
use crate::tables::of_family;

/// The set of all pieces.
pub const ALL: usize = (1 << MOST_PIECES) - 1;
/// The mark of the places that are not in the set.
const OUTSIDE: Mark = 3_987_654_321;
/// Random tables of each family for every count of yards and pieces; each row of them is cut.
const OF_EACH_COUNT: usize = 4;

pub const PARTS: [(&str, Part); 4] = [
    ("refused piles and sets", refused),
    ("all rows of four pieces with marks 0 to 3", all_small),
    ("all sets of a row of each family", all_sets),
    ("random rows on random sets", random),
];

/// Refusal 4 before 5: every set with a piece above 12, and some others for the piles refused.
pub fn refused(harness: &mut Harness) -> Result<(), String> {
    let row = [1; MOST_PIECES];
    for set in ALL as u16 + 1..=u16::MAX {
        (1..=MOST_YARDS).try_for_each(|piles| harness.check(&row, set, piles))?;
    }
    for piles in counts_to_try().filter(|piles| !(1..=MOST_YARDS).contains(piles)) {
        for set in [0, 1, ALL as u16, 0b1010_0110, 1 << MOST_PIECES, u16::MAX] {
            harness.check(&row, set, piles)?;
        }
    }
    Ok(())
}

/// Every row of four pieces with marks 0 to 3, on the first places and on four apart, and every set
/// of them in every number of piles.
pub fn all_small(harness: &mut Harness) -> Result<(), String> {
    for places in [[0, 1, 2, 3], [1, 4, 6, 11]] {
        for number in 0..256 {
            let mut row = [OUTSIDE; MOST_PIECES];
            (0..4).for_each(|k| row[places[k]] = number >> (2 * k) & 3);
            for chosen in 0..16 {
                let set = set_of(members(chosen).map(|k| places[k])) as u16;
                (1..=MOST_YARDS).try_for_each(|piles| harness.check(&row, set, piles))?;
            }
        }
    }
    Ok(())
}

/// Every set of twelve pieces, in every number of piles, for one row of each family.
fn all_sets(harness: &mut Harness) -> Result<(), String> {
    let mut generator = Generator::new(0);
    for (_, family) in FAMILIES {
        let marks = family(&mut generator, MOST_YARDS, MOST_PIECES);
        let row = laid_on(ALL, &marks[MOST_YARDS - 1]);
        for set in 0..=ALL as u16 {
            (1..=MOST_YARDS).try_for_each(|piles| harness.check(&row, set, piles))?;
        }
    }
    Ok(())
}

/// Every row of random tables, laid on a random set of as many pieces, in a random number of piles.
pub fn random(harness: &mut Harness) -> Result<(), String> {
    let mut generator = Generator::new(0);
    for family in 0..FAMILIES.len() {
        for marks in of_family(family, OF_EACH_COUNT).flat_map(|sheet| sheet.marks) {
            let (row, set) = laid_at_random(&mut generator, &marks);
            harness.check(&row, set, 1 + generator.index(MOST_YARDS))?;
        }
    }
    Ok(())
}

/// The marks on a random set of as many pieces, and the set.
pub fn laid_at_random(generator: &mut Generator, marks: &[u64]) -> (Row, u16) {
    let mut places: Vec<usize> = (0..MOST_PIECES).collect();
    generator.shuffle(&mut places);
    let set = set_of(places[..marks.len()].iter().copied());
    (laid_on(set, marks), set as u16)
}

/// The marks on the places of the set.
fn laid_on(set: usize, marks: &[u64]) -> Row {
    let mut row = [OUTSIDE; MOST_PIECES];
    members(set).zip(marks).for_each(|(place, mark)| row[place] = handed_over(*mark));
    row
}
