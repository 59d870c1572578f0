//! The families of random tables. Each makes the marks for given counts of yards and pieces.

mod wide;

use crate::generator::Generator;
use crate::limits::{GREATEST_MARK, GREATEST_MARK_BEFORE};
use crate::piles::{even_row, size, wanting, PILE_WORTH};

type Marks = Vec<Vec<u64>>;
type Family = fn(&mut Generator, usize, usize) -> Marks;

pub const FAMILIES: [(&str, Family); 16] = [
    ("uniform marks", uniform),
    ("few distinct marks", few_distinct),
    ("equal rows", equal_rows),
    ("nearly equal rows", nearly_equal_rows),
    ("permuted rows", permuted_rows),
    ("many zeros", many_zeros),
    ("one or two heavy pieces", heavy_pieces),
    ("marks at the limit", wide::at_the_limit),
    ("proportional rows", proportional_rows),
    ("each yard alone in valuing one piece", own_piece),
    ("yards that want chosen piles", chosen_piles),
    ("one yard served in each round", one_served),
    ("marks just below the limit", wide::just_below_the_limit),
    ("marks that differ in the last digit", wide::last_digit),
    ("marks about multiples of 65,536", wide::about_16_bits),
    ("rows times a large factor", wide::multiplied),
];

/// The greatest mark before order 3, and now.
const LIMITS: [u64; 2] = [GREATEST_MARK_BEFORE, GREATEST_MARK];

fn row<T>(pieces: usize, mark: impl FnMut(usize) -> T) -> Vec<T> {
    (0..pieces).map(mark).collect()
}

fn uniform(generator: &mut Generator, yards: usize, pieces: usize) -> Marks {
    let limit = generator.choose(&LIMITS);
    let mut mark = |_| generator.between(0, limit);
    (0..yards).map(|_| row(pieces, &mut mark)).collect()
}

/// Ties: every mark is one of two to five small numbers.
fn few_distinct(generator: &mut Generator, yards: usize, pieces: usize) -> Marks {
    let lowest = generator.below(2);
    let distinct = generator.between(2, 5);
    let mut mark = |_| lowest + generator.below(distinct);
    (0..yards).map(|_| row(pieces, &mut mark)).collect()
}

fn equal_rows(generator: &mut Generator, yards: usize, pieces: usize) -> Marks {
    let bound = generator.choose(&[3, 10, 100, GREATEST_MARK]);
    vec![row(pieces, |_| generator.between(0, bound)); yards]
}

fn nearly_equal_rows(generator: &mut Generator, yards: usize, pieces: usize) -> Marks {
    let bound = generator.choose(&[5, 20, 1_000, GREATEST_MARK - 2]);
    let base = row(pieces, |_| generator.between(0, bound));
    (0..yards).map(|_| row(pieces, |piece| base[piece] + generator.below(3))).collect()
}

/// The same marks in every row, each row in an order of its own.
fn permuted_rows(generator: &mut Generator, yards: usize, pieces: usize) -> Marks {
    let bound = generator.choose(&[5, 50, GREATEST_MARK]);
    let mut base = row(pieces, |_| generator.between(0, bound));
    let mut shuffled = |_| {
        generator.shuffle(&mut base);
        base.clone()
    };
    (0..yards).map(&mut shuffled).collect()
}

fn many_zeros(generator: &mut Generator, yards: usize, pieces: usize) -> Marks {
    let bound = generator.choose(&[1, 4, GREATEST_MARK]);
    let marked_in_eight = generator.between(1, 5);
    let mut mark = |_| match generator.below(8) < marked_in_eight {
        true => generator.between(0, bound),
        false => 0,
    };
    (0..yards).map(|_| row(pieces, &mut mark)).collect()
}

/// One or two pieces of each row are worth more than all others together.
fn heavy_pieces(generator: &mut Generator, yards: usize, pieces: usize) -> Marks {
    let light = generator.choose(&[3, 40, 2_000]);
    let limit = generator.choose(&LIMITS);
    let mut heavy_row = |_| {
        let mut marks = row(pieces, |_| generator.between(0, light));
        for _ in 0..generator.between(1, 2) {
            marks[generator.index(pieces)] = generator.between(12 * light, limit);
        }
        marks
    };
    (0..yards).map(&mut heavy_row).collect()
}

/// Every row is a multiple of the first.
fn proportional_rows(generator: &mut Generator, yards: usize, pieces: usize) -> Marks {
    let bound = generator.choose(&[3, 12, 600]);
    let base = row(pieces, |_| generator.between(0, bound));
    let mut multiple = |_| {
        let factor = generator.between(1, 100);
        base.iter().map(|mark| factor * mark).collect()
    };
    (0..yards).map(&mut multiple).collect()
}

/// Several rounds: yard k values piece k, and the pieces before it at little or nothing, so that
/// the yards after the cutter wait.
fn own_piece(generator: &mut Generator, yards: usize, pieces: usize) -> Marks {
    let before = generator.choose(&[0, 5, 30]);
    let after = generator.choose(&[60, 100, 200]);
    let mut marks_of = |yard: usize| {
        row(pieces, |piece| match piece.cmp(&yard) {
            std::cmp::Ordering::Less => generator.between(0, before),
            std::cmp::Ordering::Equal => generator.between(80, 240),
            std::cmp::Ordering::Greater => generator.between(after / 2, after),
        })
    };
    (0..yards).map(&mut marks_of).collect()
}

/// Several rounds with some yards waiting: yard 1 parts the pieces into piles chosen at random, and
/// each other yard wants the largest pile, two piles, or any number of piles.
fn chosen_piles(generator: &mut Generator, yards: usize, pieces: usize) -> Marks {
    let pile_of = row(pieces, |_| generator.index(yards));
    let largest = 1 << (0..yards).max_by_key(|pile| size(&pile_of, *pile)).unwrap_or(0);
    let mut wanted_by = |_| {
        let pair = 1 << generator.index(yards) | 1 << generator.index(yards);
        let any = generator.index(1 << yards);
        generator.choose(&[largest, largest, pair, pair, any])
    };
    let wanted: Vec<usize> = (1..yards).map(&mut wanted_by).collect();
    wanting(generator, &pile_of, &wanted)
}

/// As many rounds as yards, if there are enough pieces: yard k finds piece k, and piles of the
/// pieces after it, equal, and the pieces before it worthless. The pieces are then permuted.
fn one_served(generator: &mut Generator, yards: usize, pieces: usize) -> Marks {
    let mut order: Vec<usize> = (0..pieces).collect();
    generator.shuffle(&mut order);
    let mut marks_of = |yard: usize| {
        let piles_after = (yards - yard - 1).max(1);
        let pile_of = row(pieces.saturating_sub(yard + 1), |_| generator.index(piles_after));
        let after = even_row(&pile_of);
        row(pieces, |piece| match order[piece].checked_sub(yard) {
            None => 0,
            Some(0) => PILE_WORTH,
            Some(place) => after[place - 1],
        })
    };
    (0..yards).map(&mut marks_of).collect()
}
