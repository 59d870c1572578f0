//! Order 7: divisions of one table with several allowances. Below the number of growth layouts of all
//! pieces into as many piles as yards the table is refused with 14, from it on it is divided as before.

use super::{call, due, given, Entry, BEFORE};
use crate::allowance::edges;
use crate::division::divide;
use crate::families::FAMILIES;
use crate::growth::number;
use crate::kinds::Kinds;
use crate::limits::{MOST_PIECES, MOST_YARDS};
use crate::reader::Sheet;
use crate::tables::of_family;

/// Tables of each family for every count of yards and pieces.
const OF_EACH_COUNT: usize = 2;
/// So many divisions with an allowance must be divided, and so many be refused with 14.
pub const FEWEST_DIVIDED: usize = 5_000;
pub const FEWEST_REFUSED: usize = 5_000;

/// Kinds of divisions with an allowance, by the number of yards or of pieces.
pub const DIVIDED: &str = "divided within an allowance, yards";
pub const DIVIDED_PIECES: &str = "divided within an allowance, pieces";
pub const REFUSED: &str = "refused with 14, yards";
pub const REFUSED_PIECES: &str = "refused with 14, pieces";

/// Prints how many were run, and gives the kinds met; an error is the first difference.
pub fn run(entry: Entry) -> Result<Kinds, String> {
    let mut kinds = Kinds::default();
    for sheet in (0..FAMILIES.len()).flat_map(|family| of_family(family, OF_EACH_COUNT)) {
        check(entry, &mut kinds, &sheet)?;
    }
    println!("divisions with several allowances: {}", kinds.met(DIVIDED) + kinds.met(REFUSED));
    Ok(kinds)
}

/// One table with the allowances about the number of its growth layouts.
pub fn check(entry: Entry, kinds: &mut Kinds, sheet: &Sheet) -> Result<(), String> {
    let (_, divided) = due(&divide(sheet));
    let number = number(sheet.pieces, sheet.yards);
    for allowance in edges(number) {
        let (due, yards, pieces) = match number > allowance {
            true => ((14, BEFORE), REFUSED, REFUSED_PIECES),
            false => ((0, divided), DIVIDED, DIVIDED_PIECES),
        };
        kinds.count(yards, sheet.yards);
        kinds.count(pieces, sheet.pieces);
        call(entry, &given(sheet, allowance), &due)?;
    }
    Ok(())
}

/// Both often enough, with every number of yards and of pieces.
pub fn all_met(kinds: &Kinds) -> Result<(), String> {
    for (name, fewest) in [(DIVIDED, FEWEST_DIVIDED), (REFUSED, FEWEST_REFUSED)] {
        kinds.all_met(name, 1..=MOST_YARDS)?;
        if kinds.met(name) < fewest {
            return Err(format!("too rare: {name}: {}", kinds.met(name)));
        }
    }
    kinds.all_met(DIVIDED_PIECES, 1..=MOST_PIECES)?;
    kinds.all_met(REFUSED_PIECES, 1..=MOST_PIECES)
}
