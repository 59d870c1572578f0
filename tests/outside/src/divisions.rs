//! Holds the library's division of a table against the solver: the answer, and every lent place. What
//! is beyond the counts must not count, and a refusal must store nothing.

mod allowances;

use crate::allowance::ALLOWANCE;
use crate::division::Division;
use crate::limits::{counts_to_try, handed_over, Mark, MOST_PIECES, MOST_YARDS};
use crate::met::Met;
use crate::reader::{read, Sheet};
use crate::samples::SHEETS;
use crate::sets::set_of;
use crate::tables::{all_small, random};

pub type Table = [[Mark; MOST_PIECES]; MOST_YARDS];
pub type Piles = [u16; MOST_YARDS];
pub type Cutters = [u8; MOST_YARDS];

/// What a division is given.
#[derive(Clone, Copy, Debug)]
pub struct Given {
    pub table: Table,
    pub yards: usize,
    pub pieces: usize,
    pub allowance: u32,
}

/// The lent places.
#[derive(Clone, Copy, Debug, PartialEq)]
pub struct Places {
    pub grade: u8,
    pub piles: Piles,
    pub cutters: Cutters,
}

/// Answers 0 or the refusal's number.
pub type Entry<'a> = &'a dyn Fn(&Given, &mut Places) -> u8;

/// What the entry answers, and what the lent places hold afterwards.
type Answer = (u8, Places);

/// What the lent places hold before.
const BEFORE: Places = Places { grade: 77, piles: [7_777; MOST_YARDS], cutters: [77; MOST_YARDS] };
/// The mark of the places beyond the counts.
const OUTSIDE: Mark = 3_987_654_321;

/// Prints how many of each were run; an error is the first difference, or a kind that was never met.
pub fn run(entry: Entry) -> Result<(), String> {
    let mut met = Met::default();
    for (name, text, _) in SHEETS {
        let table = read(text.as_bytes()).map_err(|refusal| format!("{name} gives {refusal}"))?;
        check(entry, &mut met, &table)?;
    }
    all_small().try_for_each(|table| check(entry, &mut met, &table))?;
    println!("sample tables and all small tables: {}", met.divisions);
    for (name, tables) in random() {
        tables.iter().try_for_each(|table| check(entry, &mut met, table))?;
        println!("random tables, {name}: {}", tables.len());
    }
    println!("counts out of range: {}", check_counts(entry)?);
    let kinds = allowances::run(entry)?;
    met.print();
    kinds.print();
    met.all_met()?;
    allowances::all_met(&kinds)
}

/// One table with the allowance of the dividing program.
fn check(entry: Entry, met: &mut Met, sheet: &Sheet) -> Result<(), String> {
    let division = met.divide(sheet)?;
    call(entry, &given(sheet, ALLOWANCE), &due(&division))
}

fn given(sheet: &Sheet, allowance: u32) -> Given {
    Given { table: table_of(sheet), yards: sheet.yards, pieces: sheet.pieces, allowance }
}

/// The table of a sheet as it is handed over.
pub fn table_of(sheet: &Sheet) -> Table {
    let mut table = [[OUTSIDE; MOST_PIECES]; MOST_YARDS];
    for (places, row) in table.iter_mut().zip(&sheet.marks) {
        places.iter_mut().zip(row).for_each(|(place, mark)| *place = handed_over(*mark));
    }
    table
}

/// The sheet of these counts in a table.
#[cfg(test)]
pub fn sheet_of(table: &Table, yards: usize, pieces: usize) -> Sheet {
    let rows = table[..yards].iter().map(|row| row[..pieces].iter());
    Sheet::of(rows.map(|row| row.map(|mark| u64::from(*mark)).collect()).collect())
}

/// Every pair of counts out of range, with several allowances: 4 before 5 before 14, and nothing is stored.
fn check_counts(entry: Entry) -> Result<usize, String> {
    let table = [[1; MOST_PIECES]; MOST_YARDS];
    let mut calls = 0;
    for yards in counts_to_try() {
        for pieces in counts_to_try() {
            let number = match (yards, pieces) {
                (1..=MOST_YARDS, 1..=MOST_PIECES) => continue,
                (1..=MOST_YARDS, _) => 5,
                _ => 4,
            };
            for allowance in [0, ALLOWANCE, u32::MAX] {
                let given = Given { table, yards, pieces, allowance };
                call(entry, &given, &(number, BEFORE))?;
                calls += 1;
            }
        }
    }
    Ok(calls)
}

/// One division, which must be as is due.
fn call(entry: Entry, given: &Given, due: &Answer) -> Result<(), String> {
    let mut places = BEFORE;
    let number = entry(given, &mut places);
    match (number, places) {
        came if came == *due => Ok(()),
        came => Err(format!("{given:?}\ndue {due:?}\ncame {came:?}")),
    }
}

/// Places not in use are 0.
fn due(division: &Division) -> Answer {
    let (mut piles, mut cutters) = ([0; MOST_YARDS], [0; MOST_YARDS]);
    for (place, bundle) in piles.iter_mut().zip(&division.bundles) {
        *place = set_of(bundle.iter().copied()) as u16;
    }
    for (place, cutter) in cutters.iter_mut().zip(&division.cutters) {
        *place = *cutter as u8 + 1;
    }
    (0, Places { grade: division.grade, piles, cutters })
}

#[cfg(test)]
mod tests;
