//! Holds the library's exact division of a table against the solver: the answer, every lent place, and
//! the places beside them. What is beyond the counts must not count, and a refusal must store nothing.

use super::line::Shown;
use super::met::Met;
use super::without::{self, FOUND, NONE};
use crate::divisions::{table_of, Piles, Table};
use crate::limits::{counts_to_try, MOST_PIECES, MOST_YARDS};
use crate::reader::Sheet;
use crate::sets::members;

/// Table, yards, pieces, the lent place for found or not, and the lent piles as sets; answers 0 or the
/// refusal's number.
pub type Entry<'a> = &'a dyn Fn(&Table, usize, usize, &mut u8, &mut Piles) -> u8;

/// The refusal's number or 0, and what the lent places and those beside them hold.
#[derive(Clone, Copy, Debug, PartialEq)]
struct Answer {
    number: u8,
    found: [u8; 3],
    piles: [Piles; 3],
}

/// What the lent places hold before.
const LENT: Answer = Answer { number: 0, found: [77; 3], piles: [[7_777; MOST_YARDS]; 3] };

pub struct Tables<'a> {
    entry: Entry<'a>,
    pub calls: usize,
    pub met: Met,
}

impl<'a> Tables<'a> {
    pub fn new(entry: Entry<'a>) -> Tables<'a> {
        Tables { entry, calls: 0, met: Met::default() }
    }

    /// Runs each table and gives their number.
    pub fn run(&mut self, sheets: impl Iterator<Item = Sheet>) -> Result<usize, String> {
        let before = self.calls;
        for sheet in sheets {
            self.check(&sheet)?;
        }
        Ok(self.calls - before)
    }

    /// Runs each table of a part near none, and counts the outcomes under its name.
    pub fn run_near(&mut self, name: &str, sheets: &[Sheet]) -> Result<usize, String> {
        for sheet in sheets {
            let outcome = if self.check(sheet)? { FOUND } else { NONE };
            self.met.kinds.count(&near(name), outcome);
        }
        Ok(sheets.len())
    }

    /// Runs one table; whether there is an exact division.
    pub fn check(&mut self, sheet: &Sheet) -> Result<bool, String> {
        let due = self.met.solve(sheet)?;
        let answer = self.call(&table_of(sheet), sheet.yards, sheet.pieces);
        let shown = shown(&answer, sheet.yards);
        let judged = shown.and_then(|shown| self.met.judge(sheet, &due, &shown));
        match judged {
            Ok(()) => Ok(due.division.is_some()),
            Err(wrong) => {
                Err(format!("{wrong}\n{:?}, shares {:?}\ncame {answer:?}", sheet.marks, due.shares))
            }
        }
    }

    /// All that tables must meet: both refusals, and the outcomes of each part near none.
    pub fn all_met(&self) -> Result<(), String> {
        self.met.kinds.all_met("refusal", [4, 5])?;
        for (name, _, outcomes) in without::parts() {
            self.met.kinds.all_met(&near(name), outcomes.iter().copied())?;
        }
        self.met.all_met()
    }

    /// Every pair of counts out of range: 4 before 5, and nothing is stored.
    pub fn check_counts(&mut self) -> Result<usize, String> {
        let before = self.calls;
        for yards in counts_to_try() {
            for pieces in counts_to_try() {
                let number = match (yards, pieces) {
                    (1..=MOST_YARDS, 1..=MOST_PIECES) => continue,
                    (1..=MOST_YARDS, _) => 5,
                    _ => 4,
                };
                let answer = self.call(&[[1; MOST_PIECES]; MOST_YARDS], yards, pieces);
                self.met.kinds.count("refusal", usize::from(number));
                if answer != (Answer { number, ..LENT }) {
                    return Err(format!(
                        "{yards} yards, {pieces} pieces: {number} is due\ncame {answer:?}"
                    ));
                }
            }
        }
        Ok(self.calls - before)
    }

    fn call(&mut self, table: &Table, yards: usize, pieces: usize) -> Answer {
        self.calls += 1;
        let mut answer = LENT;
        answer.number =
            (self.entry)(table, yards, pieces, &mut answer.found[1], &mut answer.piles[1]);
        answer
    }
}

/// What an answer shows; the places beside the lent ones are as before, and those not in use 0.
fn shown(answer: &Answer, yards: usize) -> Result<Shown, String> {
    let ([before, found, after], [piles_before, piles, piles_after]) = (answer.found, answer.piles);
    if answer.number != 0 {
        return Err(format!("a table within the limits gives {}", answer.number));
    }
    if [before, after] != [LENT.found[0]; 2] || [piles_before, piles_after] != [LENT.piles[0]; 2] {
        return Err("stored beside a lent place".to_owned());
    }
    let in_use = if found == 0 { 0 } else { yards };
    if piles[in_use..].iter().any(|pile| *pile != 0) {
        return Err("a pile that is not in use is not empty".to_owned());
    }
    match found {
        0 => Ok(None),
        1 => Ok(Some(piles[..yards].iter().map(|pile| pieces_of(*pile)).collect())),
        _ => Err(format!("found is {found}")),
    }
}

/// The kind of a part near none; its number is the outcome.
fn near(name: &str) -> String {
    format!("near none, {name}")
}

fn pieces_of(pile: u16) -> Vec<usize> {
    members(usize::from(pile)).collect()
}
