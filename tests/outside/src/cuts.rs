//! Holds the library's cut against the solver: the answer, the share, every place of the partition, and
//! the count. What is not in the set must not count, and a refusal must store nothing.

mod allowances;
mod due;
mod rows;
pub mod samples;

use crate::allowance::ALLOWANCE;
use crate::kinds::Kinds;
use crate::limits::{Mark, MOST_PIECES, MOST_YARDS};
use crate::progress::Progress;
use crate::widths::{count_row, count_sum, rows_met, sums_met, WIDE_SHARE};
use due::{due, marks_of};

pub type Row = [Mark; MOST_PIECES];
pub type Partition = [u8; MOST_PIECES];

/// What a cut is given.
#[derive(Clone, Copy, Debug)]
pub struct Given {
    pub row: Row,
    pub set: u16,
    pub piles: usize,
    pub allowance: u32,
}

/// The lent places: the share or the best least pile, the partition, and the count of growth layouts.
#[derive(Clone, Copy, Debug, PartialEq)]
pub struct Places {
    pub figure: u64,
    pub partition: Partition,
    pub count: u32,
}

/// Answers 0 for a share, `STOPPED`, or the refusal's number.
pub type Entry<'a> = &'a dyn Fn(&Given, &mut Places) -> u8;

/// What the entry answers where it was stopped.
pub const STOPPED: u8 = 255;

/// What the entry answers, and what the lent places hold afterwards.
type Answer = (u8, Places);

/// What the lent places hold before.
const BEFORE: Places =
    Places { figure: 77_777_777_777, partition: [77; MOST_PIECES], count: 777_777_777 };

type Part = fn(&mut Harness) -> Result<(), String>;

struct Harness<'a> {
    entry: Entry<'a>,
    calls: usize,
    kinds: Kinds,
}

/// Prints how many of each were run; an error is the first difference, or a kind that was met too rarely.
pub fn run(entry: Entry) -> Result<(), String> {
    let progress = Progress::start();
    let mut harness = Harness::new(entry);
    for (name, part) in rows::PARTS.into_iter().chain(allowances::PARTS) {
        let before = harness.calls;
        part(&mut harness)?;
        progress.passed(name, harness.calls - before);
    }
    harness.kinds.print();
    all_met(&harness.kinds)?;
    allowances::all_met(&harness.kinds)
}

fn all_met(kinds: &Kinds) -> Result<(), String> {
    kinds.all_met("piles", 1..=MOST_YARDS)?;
    kinds.all_met("pieces, no gap among them", 0..=MOST_PIECES)?;
    kinds.all_met("pieces, with gaps", 2..MOST_PIECES)?;
    kinds.all_met("refusal", [4, 5])?;
    rows_met(kinds)?;
    sums_met(kinds, WIDE_SHARE)
}

impl<'a> Harness<'a> {
    fn new(entry: Entry<'a>) -> Harness<'a> {
        Harness { entry, calls: 0, kinds: Kinds::default() }
    }

    /// One cut with the allowance of the dividing program, under which none is stopped.
    fn check(&mut self, row: &Row, set: u16, piles: usize) -> Result<(), String> {
        let given = Given { row: *row, set, piles, allowance: ALLOWANCE };
        let due = due(&given);
        self.hold(&given, &due)?;
        if due.0 > 0 {
            self.kinds.count("refusal", usize::from(due.0));
        } else {
            self.count(&given, due.1.figure);
        }
        Ok(())
    }

    /// One cut, which must be as is due.
    fn hold(&mut self, given: &Given, due: &Answer) -> Result<(), String> {
        let mut places = BEFORE;
        let number = (self.entry)(given, &mut places);
        self.calls += 1;
        match (number, places) {
            came if came == *due => Ok(()),
            came => Err(format!("{given:?}\ndue {due:?}\ncame {came:?}")),
        }
    }

    fn count(&mut self, given: &Given, share: u64) {
        let Given { row, set, piles, .. } = given;
        let pieces = set.count_ones();
        let without_gap = set >> set.trailing_zeros().min(15) == (1 << pieces) - 1;
        let kind = if without_gap { "pieces, no gap among them" } else { "pieces, with gaps" };
        self.kinds.count(kind, pieces as usize);
        self.kinds.count("piles", *piles);
        count_row(&mut self.kinds, &marks_of(row, *set));
        count_sum(&mut self.kinds, WIDE_SHARE, *piles, share);
    }
}

#[cfg(test)]
mod tests;
