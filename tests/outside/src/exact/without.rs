//! Tables without an exact division, and tables near them, some of which have one.

use super::players::{players, OF_THE_PAPER};
use crate::generator::Generator;
use crate::limits::{GREATEST_MARK, MOST_PIECES};
use crate::reader::Sheet;

type Marks = Vec<Vec<u64>>;

/// Three yards with shares of 40 and nine pieces.
pub const NINE_PIECES: [[u64; 9]; 3] = [
    [1, 16, 23, 26, 4, 10, 12, 19, 9],
    [1, 16, 22, 26, 4, 9, 13, 20, 9],
    [1, 15, 23, 25, 4, 10, 13, 20, 9],
];

pub fn nine_pieces() -> Marks {
    NINE_PIECES.map(|row| row.to_vec()).to_vec()
}

/// The outcomes of a search, as numbers of a kind.
pub const NONE: usize = 0;
pub const FOUND: usize = 1;

/// Its name, its tables, and the outcomes that they have.
pub type Part = (&'static str, Vec<Sheet>, &'static [usize]);

type Kind = (&'static str, fn(&mut Generator) -> Marks, usize, &'static [usize]);

/// Name, tables in some order of yards and pieces, how many of them, and their outcomes.
const KINDS: [Kind; 7] = [
    ("the three players", |_| players(OF_THE_PAPER), 40, &[NONE]),
    ("players by other factors", other_factors, 120, &[NONE, FOUND]),
    ("nine pieces", |_| nine_pieces(), 40, &[NONE]),
    ("nine pieces times factors", |made| multiplied(made, nine_pieces()), 60, &[NONE]),
    ("nine pieces and more", more_pieces, 120, &[NONE, FOUND]),
    ("rows and columns", rows_and_columns, 100, &[NONE, FOUND]),
    ("some marks moved", moved, 160, &[NONE, FOUND]),
];

pub fn parts() -> Vec<Part> {
    let mut generator = Generator::new(0);
    let mut part = |(name, make, number, outcomes): Kind| {
        let mut table = |_| {
            let marks = make(&mut generator);
            Sheet::of(permuted(&mut generator, marks))
        };
        (name, (0..number).map(&mut table).collect(), outcomes)
    };
    let mut parts: Vec<Part> = KINDS.into_iter().map(&mut part).collect();
    let bases = [nine_pieces(), players(OF_THE_PAPER), rows_and_columns(&mut Generator::new(1))];
    let one_off = |change| bases.iter().flat_map(|base| one_off(base, change)).collect();
    parts.push(("one mark lower by one", one_off(-1), &[FOUND]));
    parts.push(("one mark higher by one", one_off(1), &[NONE, FOUND]));
    parts
}

/// Yards and pieces each in another order.
fn permuted(generator: &mut Generator, mut marks: Marks) -> Marks {
    let mut order: Vec<usize> = (0..marks[0].len()).collect();
    generator.shuffle(&mut order);
    generator.shuffle(&mut marks);
    marks.iter().map(|row| order.iter().map(|piece| row[*piece]).collect()).collect()
}

/// Each row times a factor of its own.
fn multiplied(generator: &mut Generator, mut marks: Marks) -> Marks {
    for row in &mut marks {
        let most = GREATEST_MARK / row.iter().copied().fold(1, u64::max);
        let factor = generator.choose(&[1, 2, most / 2, most - 1, most]).clamp(1, most);
        row.iter_mut().for_each(|mark| *mark *= factor);
    }
    marks
}

/// The farther apart the three factors are, the surer there is no exact division.
fn other_factors(generator: &mut Generator) -> Marks {
    let epsilon = generator.choose(&[1, 1, 2, 5, 300, 20_000]);
    let oscillation = epsilon * generator.between(1, 60);
    let base = oscillation * generator.between(2, 60) + epsilon;
    let factors = [base, oscillation, epsilon].map(|factor| factor as u32);
    multiplied(generator, players(factors))
}

/// Up to three pieces more, of which all yards together find little or nothing.
fn more_pieces(generator: &mut Generator) -> Marks {
    let factor = generator.choose(&[1, 4, 20, 1_000_000]);
    let greatest = generator.choose(&[0, 0, 1, 2]);
    let pieces = generator.between(1, (MOST_PIECES - NINE_PIECES[0].len()) as u64);
    let mut marks = nine_pieces();
    for row in &mut marks {
        row.iter_mut().for_each(|mark| *mark *= factor);
        row.extend((0..pieces).map(|_| generator.between(0, greatest)));
    }
    marks
}

/// Four yards, and twelve pieces that stand off the diagonal of four rows and four columns. All rows and
/// columns weigh the same, and hardly any other four piles do. To two yards each row is worth the share,
/// but only the first column; to the two others each column, but only the first row.
fn rows_and_columns(generator: &mut Generator) -> Marks {
    let weights = even_weights(generator);
    let factor = generator.choose(&[8, 9, 100, 40_000]);
    let places = || (0..4).flat_map(|i| (0..4).map(move |j| (i, j))).filter(|(i, j)| i != j);
    let mut row = |yard: usize| {
        let change = column_changes(generator);
        let mark = |(i, j): (usize, usize)| {
            let change = if yard < 2 { change[i][j] } else { change[j][i] };
            (factor * weights[i][j] + change).unsigned_abs()
        };
        places().map(mark).collect()
    };
    (0..4).map(&mut row).collect()
}

/// Sums of orders that leave no place where it is: each row and column has the same sum.
fn even_weights(generator: &mut Generator) -> [[i64; 4]; 4] {
    let mut weights = [[0; 4]; 4];
    let mut order = [0, 1, 2, 3];
    for _ in 0..80 {
        generator.shuffle(&mut order);
        if (0..4).all(|row| order[row] != row) {
            let weight = generator.between(1, 1_000) as i64;
            (0..4).for_each(|row| weights[row][order[row]] += weight);
        }
    }
    weights
}

/// One is moved from each other column to the first, within some row.
fn column_changes(generator: &mut Generator) -> [[i64; 4]; 4] {
    let mut changes = [[0; 4]; 4];
    for column in 1..4 {
        let rows: Vec<usize> = (1..4).filter(|row| *row != column).collect();
        let row = generator.choose(&rows);
        changes[row][0] += 1;
        changes[row][column] -= 1;
    }
    changes
}

/// Up to four marks of a table without an exact division, times a factor, are one or two lower or higher.
fn moved(generator: &mut Generator) -> Marks {
    let base = generator.choose(&[0, 1, 2]);
    let mut marks = match base {
        0 => nine_pieces(),
        1 => players(OF_THE_PAPER),
        _ => rows_and_columns(generator),
    };
    let most = (GREATEST_MARK - 8) / marks.iter().flatten().copied().fold(1, u64::max);
    let factor = generator.choose(&[1, 3, 50]).min(most);
    marks.iter_mut().flatten().for_each(|mark| *mark *= factor);
    for _ in 0..generator.between(1, 4) {
        let yard = generator.index(marks.len());
        let piece = generator.index(marks[0].len());
        marks[yard][piece] =
            marks[yard][piece].saturating_add_signed(generator.choose(&[-2, -1, 1, 2]));
    }
    marks
}

/// Every table with one mark moved by this; no mark is below 0.
fn one_off(marks: &Marks, change: i64) -> Vec<Sheet> {
    let mut sheets = Vec::new();
    for yard in 0..marks.len() {
        for piece in 0..marks[yard].len() {
            let mut other = marks.clone();
            other[yard][piece] = other[yard][piece].saturating_add_signed(change);
            sheets.push(Sheet::of(other));
        }
    }
    sheets
}
