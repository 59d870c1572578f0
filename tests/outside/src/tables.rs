//! The tables to compare on: all small ones, the random ones of every family and every count of yards
//! and pieces, and those with tied waiting sets.

use crate::families::FAMILIES;
use crate::generator::Generator;
use crate::limits::{MOST_PIECES, MOST_YARDS};
use crate::reader::Sheet;
use crate::ties;

/// Tables of each family for every count of yards and pieces.
const OF_EACH_COUNT: usize = 24;

/// The random tables in named parts, one for each family, and one with tied waiting sets.
pub fn random() -> impl Iterator<Item = (&'static str, Vec<Sheet>)> {
    let family = |number: usize| (FAMILIES[number].0, of_family(number, OF_EACH_COUNT).collect());
    let tied = || ("tied waiting sets", ties::tables());
    (0..FAMILIES.len()).map(family).chain(std::iter::once_with(tied))
}

/// Every table of up to three yards, three pieces and marks 0 to 2.
pub fn all_small() -> impl Iterator<Item = Sheet> {
    let counts = (1..=3).flat_map(|yards| (1..=3).map(move |pieces| (yards, pieces)));
    counts.flat_map(|(yards, pieces)| all_of(yards, pieces, 3))
}

/// Every table of these counts with so many distinct marks, from 0.
pub fn all_of(yards: usize, pieces: usize, distinct: usize) -> impl Iterator<Item = Sheet> {
    let places = (yards * pieces) as u32;
    (0..distinct.pow(places)).map(move |number| {
        let mark = |place: usize| (number / distinct.pow(place as u32) % distinct) as u64;
        let row = |yard: usize| (0..pieces).map(|piece| mark(yard * pieces + piece)).collect();
        Sheet::of((0..yards).map(row).collect())
    })
}

/// Of one family, this many tables for every count of yards and pieces.
pub fn of_family(family: usize, each: usize) -> impl Iterator<Item = Sheet> {
    let mut generator = Generator::new(family as u64);
    let counts = (0..each).flat_map(|_| every_count());
    counts.map(move |(yards, pieces)| Sheet::of(FAMILIES[family].1(&mut generator, yards, pieces)))
}

fn every_count() -> impl Iterator<Item = (usize, usize)> {
    (1..=MOST_YARDS).flat_map(|yards| (1..=MOST_PIECES).map(move |pieces| (yards, pieces)))
}

/// A table of any family with any counts.
pub fn any(generator: &mut Generator) -> Sheet {
    let yards = 1 + generator.index(MOST_YARDS);
    let pieces = 1 + generator.index(MOST_PIECES);
    let family = generator.index(FAMILIES.len());
    Sheet::of(FAMILIES[family].1(generator, yards, pieces))
}

#[cfg(test)]
mod tests {
    use super::all_small;

    #[test]
    fn all_small_tables_are_there() {
        let cells = [1, 2, 3, 2, 4, 6, 3, 6, 9];
        assert_eq!(all_small().count(), cells.iter().map(|places| 3usize.pow(*places)).sum());
    }
}
