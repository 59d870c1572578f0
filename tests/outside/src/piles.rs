//! Whether piles part the pieces; and marks made for given piles: `pile_of` has the pile of each piece,
//! from 0.

use crate::generator::Generator;

/// A worth that up to twelve pieces can share evenly.
pub const PILE_WORTH: u64 = 27_720;

/// Whether each piece of so many is in exactly one of the piles.
pub fn each_piece_once(piles: &[Vec<usize>], pieces: usize) -> bool {
    let mut handed_out: Vec<usize> = piles.concat();
    handed_out.sort();
    handed_out == (0..pieces).collect::<Vec<usize>>()
}

/// The number of pieces in a pile.
pub fn size(pile_of: &[usize], pile: usize) -> u64 {
    pile_of.iter().filter(|other| **other == pile).count() as u64
}

/// The row by which each of these piles is worth the same.
pub fn even_row(pile_of: &[usize]) -> Vec<u64> {
    pile_of.iter().map(|pile| PILE_WORTH / size(pile_of, *pile)).collect()
}

/// Yard 1 finds all these piles equal. Each yard after it finds a piece of the piles that it wants, a
/// set of piles, worth its share, more or less, and each other pile, taken whole, too little to suit.
pub fn wanting(generator: &mut Generator, pile_of: &[usize], wanted: &[usize]) -> Vec<Vec<u64>> {
    let too_little = generator.choose(&[50, 60, 70]);
    let mut row = |wanted: &usize| {
        let mut mark = |pile: &usize| match wanted >> pile & 1 {
            1 => generator.between(100, 110),
            _ => too_little / size(pile_of, *pile),
        };
        pile_of.iter().map(&mut mark).collect()
    };
    let mut marks = vec![even_row(pile_of)];
    marks.extend(wanted.iter().map(&mut row));
    marks
}
