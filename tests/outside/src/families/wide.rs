//! Families of marks at the limit, of rows that lose something in fewer bits or digits, and of rows times
//! a large factor.

use super::{chosen_piles, few_distinct, one_served, own_piece, row, Family, Marks};
use crate::generator::Generator;
use crate::limits::{GREATEST_MARK, MARK_DIGITS};

pub fn at_the_limit(generator: &mut Generator, yards: usize, pieces: usize) -> Marks {
    let limit = GREATEST_MARK;
    let marks = [limit, limit, limit, limit - 1, limit / 2, 1, 0];
    let kinds = 1 + generator.index(marks.len());
    let mut mark = |_| generator.choose(&marks[..kinds]);
    (0..yards).map(|_| row(pieces, &mut mark)).collect()
}

pub fn just_below_the_limit(generator: &mut Generator, yards: usize, pieces: usize) -> Marks {
    let mut mark = |_| GREATEST_MARK - generator.below(10);
    (0..yards).map(|_| row(pieces, &mut mark)).collect()
}

/// The marks of a row have two to ten digits and are alike but for the last.
pub fn last_digit(generator: &mut Generator, yards: usize, pieces: usize) -> Marks {
    let mut marks_of = |_| {
        let digits = generator.between(2, MARK_DIGITS as u64) as u32;
        let greatest = GREATEST_MARK.min(10u64.pow(digits) - 1);
        let base = generator.between(10u64.pow(digits - 1), greatest) / 10 * 10;
        row(pieces, |_| GREATEST_MARK.min(base + generator.below(10)))
    };
    (0..yards).map(&mut marks_of).collect()
}

/// Multiples of 65,536, two or one less, or one more: in 16 bits there would be four marks only.
pub fn about_16_bits(generator: &mut Generator, yards: usize, pieces: usize) -> Marks {
    let multiples = generator.choose(&[1, 2, 65_535]);
    let mut mark = |_| generator.between(1, multiples) * 65_536 - 2 + generator.below(4);
    (0..yards).map(|_| row(pieces, &mut mark)).collect()
}

/// Several rounds with large sums: of a family with small marks, each row times a factor of its own.
pub fn multiplied(generator: &mut Generator, yards: usize, pieces: usize) -> Marks {
    let families: [Family; 4] = [few_distinct, own_piece, chosen_piles, one_served];
    let mut marks = generator.choose(&families)(generator, yards, pieces);
    for row in &mut marks {
        let greatest = row.iter().copied().fold(1, u64::max);
        let most = GREATEST_MARK / greatest;
        let factor = most - generator.choose(&[0, 0, 1, most / 2]);
        row.iter_mut().for_each(|mark| *mark *= factor);
    }
    marks
}
