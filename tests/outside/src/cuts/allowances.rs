//! Order 7: cuts of one row with many allowances, held against one walk over its growth layouts.

use super::due::{due, found, looked, marks_of, refusal};
use super::rows::{laid_at_random, ALL};
use super::{Answer, Given, Harness, Part, Row, BEFORE, STOPPED};
use crate::allowance::{edges, Walk};
use crate::families::FAMILIES;
use crate::generator::Generator;
use crate::growth::number;
use crate::kinds::Kinds;
use crate::limits::{counts_to_try, MOST_PIECES, MOST_YARDS};
use crate::share::cut;

/// Of the sets for the refusals one in so many.
const BETWEEN_SETS: usize = 997;
/// Sets of up to so many pieces are cut with every allowance.
const SMALL: usize = 6;
/// Rows of each family and number of pieces that are cut with every allowance.
const SMALL_ROWS: usize = 4;
/// Allowances drawn below the number of growth layouts of a larger row.
const DRAWN: usize = 6;
/// An answer, and how often at least it must be due to a cut with an allowance: 50,000 cuts without refusals.
pub const FEWEST: [(u8, usize); 5] =
    [(0, 10_000), (STOPPED, 40_000), (4, 1_000), (5, 1_000), (14, 1_000)];

/// Kinds of cuts with an allowance, by the answer, and of stopped ones by the number of piles or pieces.
pub const ANSWER: &str = "answer with an allowance";
pub const BELOW: &str = "stopped below the share, piles";
pub const AT: &str = "stopped at the share, piles";
pub const STOPPED_PIECES: &str = "stopped, pieces";

pub const PARTS: [(&str, Part); 3] = [
    ("allowances, refusals in their order", refused),
    ("allowances, all of them on small rows", small),
    ("allowances, some on larger rows", larger),
];

/// Every answer often enough; cuts that stop below the share and at it, for every number of piles and of
/// pieces that has more than one growth layout.
pub fn all_met(kinds: &Kinds) -> Result<(), String> {
    for (answer, fewest) in FEWEST {
        kinds.often_enough(ANSWER, usize::from(answer), fewest)?;
    }
    kinds.all_met(BELOW, 2..=MOST_YARDS)?;
    kinds.all_met(AT, 2..=MOST_YARDS)?;
    kinds.all_met(STOPPED_PIECES, 2..=MOST_PIECES)
}

/// Refusal 4 before 5 before 14, with every number of piles and some sets and allowances.
pub fn refused(harness: &mut Harness) -> Result<(), String> {
    for piles in counts_to_try() {
        for set in (0..=u16::MAX).step_by(BETWEEN_SETS).chain([ALL as u16, ALL as u16 + 1]) {
            for allowance in [0, 1, 1 << 16, u32::MAX] {
                let given = Given { row: [1; MOST_PIECES], set, piles, allowance };
                if let Some(refusal) = refusal(&given) {
                    harness.allow(&given, &(refusal, BEFORE))?;
                }
            }
        }
    }
    Ok(())
}

/// Every allowance from 0 to three more than there are growth layouts.
pub fn small(harness: &mut Harness) -> Result<(), String> {
    let mut generator = Generator::new(0);
    for (_, family) in FAMILIES {
        for pieces in (0..=SMALL).flat_map(|pieces| [pieces; SMALL_ROWS]) {
            let marks = family(&mut generator, MOST_YARDS, pieces.max(1));
            let marks = &marks[generator.index(MOST_YARDS)][..pieces];
            let (row, set) = laid_at_random(&mut generator, marks);
            for piles in 1..=MOST_YARDS {
                let allowances: Vec<u32> = (0..=number(pieces, piles) + 3).collect();
                harness.walk(&row, set, piles, &allowances)?;
            }
        }
    }
    Ok(())
}

/// A row of each family for every number of pieces and piles.
fn larger(harness: &mut Harness) -> Result<(), String> {
    let mut generator = Generator::new(1);
    for (_, family) in FAMILIES {
        for pieces in SMALL + 1..=MOST_PIECES {
            for piles in 1..=MOST_YARDS {
                let marks = family(&mut generator, MOST_YARDS, pieces);
                let marks = &marks[generator.index(MOST_YARDS)];
                let (row, set) = laid_at_random(&mut generator, marks);
                let allowances = some(&mut generator, number(pieces, piles));
                harness.walk(&row, set, piles, &allowances)?;
            }
        }
    }
    Ok(())
}

/// The edges, the powers of two, and some below the number of growth layouts; rising.
pub fn some(generator: &mut Generator, number: u32) -> Vec<u32> {
    let mut allowances = edges(number);
    allowances.extend((0..u32::BITS).map(|bit| 1 << bit));
    allowances.extend((0..DRAWN).map(|_| generator.below(number.into()) as u32));
    allowances.sort();
    allowances.dedup();
    allowances
}

impl Harness<'_> {
    /// Cuts one row with rising allowances.
    pub fn walk(
        &mut self,
        row: &Row,
        set: u16,
        piles: usize,
        allowances: &[u32],
    ) -> Result<(), String> {
        let marks = marks_of(row, set);
        let whole = found(&cut(&marks, piles), number(marks.len(), piles));
        let mut walk = Walk::new(&marks, piles);
        let mut before = 0;
        for allowance in allowances {
            let given = Given { row: *row, set, piles, allowance: *allowance };
            if *allowance == 0 {
                self.allow(&given, &due(&given))?;
                continue;
            }
            let due = looked(&walk.answer(*allowance));
            faultless(&due, before, &whole).map_err(|fault| format!("{fault}: {given:?}"))?;
            self.allow(&given, &due)?;
            before = due.1.figure;
            if due.0 == STOPPED {
                self.kinds.count(if before < whole.1.figure { BELOW } else { AT }, piles);
                self.kinds.count(STOPPED_PIECES, marks.len());
            }
        }
        Ok(())
    }

    /// One cut with an allowance, counted.
    fn allow(&mut self, given: &Given, due: &Answer) -> Result<(), String> {
        self.kinds.count(ANSWER, usize::from(due.0));
        self.hold(given, due)
    }
}

/// "A greater allowance never gives a smaller least pile", nor one above the share, and where the walk is
/// not stopped its answer is that of the older method.
pub fn faultless(due: &Answer, before: u64, whole: &Answer) -> Result<(), &'static str> {
    if due.1.figure < before {
        Err("a smaller least pile for a greater allowance")
    } else if due.1.figure > whole.1.figure {
        Err("a least pile above the share")
    } else if due.0 == 0 && due != whole {
        Err("the walk and the older method differ")
    } else {
        Ok(())
    }
}
