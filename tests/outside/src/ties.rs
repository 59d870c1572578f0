//! Tables in which several largest sets of yards may wait in a round. Two such sets have yards in
//! common that are more than the piles that suit them, hence two or more, since some pile suits each;
//! each set has a yard of its own; with the cutter that makes five, so only sheets of five and six
//! yards have ties.

use crate::generator::Generator;
use crate::limits::MOST_PIECES;
use crate::piles::wanting;
use crate::reader::Sheet;
use crate::share::cut;

type Marks = Vec<Vec<u64>>;

/// The yards of the sheet, and those left in the round with the tie.
pub const COUNTS: [(usize, usize); 3] = [(5, 5), (6, 5), (6, 6)];

/// Tables of each kind for each of these counts and each count of pieces. Most have a tie.
const OF_EACH_COUNT: usize = 40;
const FEWEST_PIECES: usize = 8;

pub fn tables() -> Vec<Sheet> {
    let mut generator = Generator::new(0);
    let mut tables = Vec::new();
    for (yards, left) in COUNTS {
        for pieces in FEWEST_PIECES..=MOST_PIECES {
            for number in 0..2 * OF_EACH_COUNT {
                let kind = [flat_cutter, even_cutter][number % 2];
                let tied = kind(&mut generator, left, pieces);
                tables.push(Sheet::of(after_worthless_rows(yards - left, tied)));
            }
        }
    }
    tables
}

/// A yard that finds every piece worthless cuts a round in which all others wait.
fn after_worthless_rows(count: usize, marks: Marks) -> Marks {
    [vec![vec![0; marks[0].len()]; count], marks].concat()
}

/// Yard 1 finds all pieces equal, so that pile 1 has more pieces than the others.
fn flat_cutter(generator: &mut Generator, yards: usize, pieces: usize) -> Marks {
    let flat = vec![1; pieces];
    let pile_of: Vec<usize> = cut(&flat, yards).layout.iter().map(|pile| pile - 1).collect();
    let mut marks = tied_marks(generator, yards, &pile_of, 0b000001);
    marks[0] = flat;
    marks
}

/// Yard 1 finds all piles equal, the first of three pieces or more, each other of at most two.
fn even_cutter(generator: &mut Generator, yards: usize, pieces: usize) -> Marks {
    let in_first = pieces.saturating_sub(2 * yards - 2).max(3);
    let pile = |piece: usize| (piece + 2).saturating_sub(in_first) / 2 % yards;
    let pile_of: Vec<usize> = (0..pieces).map(pile).collect();
    let shared = generator.choose(&[0b000000, 0b000001]);
    tied_marks(generator, yards, &pile_of, shared)
}

/// In a random order: two yards want pile 1 only, two others want two further piles each and the
/// shared ones, and a sixth wants piles 1 and 6.
fn tied_marks(generator: &mut Generator, yards: usize, pile_of: &[usize], shared: usize) -> Marks {
    let mut wanted = [0b000001, 0b000001, 0b000110 | shared, 0b011000 | shared, 0b100001];
    generator.shuffle(&mut wanted[..yards - 1]);
    wanting(generator, pile_of, &wanted[..yards - 1])
}
