//! Order 4, "a whole share for everybody": holds the library's exact divisions of tables and of texts
//! against the solver, which finds its own piece by piece and judges those that are shown.

pub mod judge;
pub mod layouts;
pub mod line;
pub mod met;
pub mod players;
pub mod search;
pub mod tables;
pub mod texts;
pub mod without;

use crate::damage;
use crate::families::FAMILIES;
use crate::generator::Generator;
use crate::harness::{self, Buffers, Harness};
use crate::parts::{self, SEVERAL_BUFFERS};
use crate::progress::Progress;
use crate::reader::{read, Sheet};
use crate::samples::{SHEETS, SHEET_A, SHEET_AS_TYPED};
use crate::strict::strict_text;
use crate::tables::{all_of, all_small, any, of_family};
use crate::typed;
use tables::Tables;
use texts::Judge;

/// Random tables, and texts, of each family for every count of yards and pieces.
const OF_EACH_COUNT: usize = 20;
const TEXTS_OF_EACH_COUNT: usize = 4;
const OF_EACH_DAMAGE: usize = 1_000;
const OF_EACH_TYPING: usize = 400;
/// So many texts of each kind of typing must be met, and of either outcome that it has.
const FEWEST_TYPED: usize = 20;
/// Random sheets whose lines are shown in buffers of every length.
const EVERY_LENGTH: usize = 60;

/// Prints how many of each were run; an error is the first difference, or a kind that was never met.
pub fn run(table_entry: tables::Entry, text_entry: harness::Entry) -> Result<(), String> {
    let progress = Progress::start();
    let mut tables = Tables::new(table_entry);
    all_tables(&mut tables, &progress)?;
    let mut texts = Harness::with(text_entry, Judge::new(text_entry));
    all_texts(&mut texts, &progress)?;
    tables.met.print();
    println!("texts {}, calls {}", texts.counts.texts, texts.counts.calls);
    texts.counts.kinds.print();
    texts.solver.met.print();
    tables.all_met()?;
    texts.counts.kinds.all_met("refusal", (1..=8).chain([10]))?;
    typed::all_met(&texts.counts.kinds, FEWEST_TYPED)?;
    texts.solver.met.all_met()
}

fn all_tables(tables: &mut Tables, progress: &Progress) -> Result<(), String> {
    progress.passed("tables of the samples", tables.run(samples())?);
    progress.passed("counts out of range", tables.check_counts()?);
    progress.passed("all small tables", tables.run(small())?);
    for (name, near, _) in without::parts() {
        progress.passed(&format!("tables near none, {name}"), tables.run_near(name, &near)?);
    }
    for (family, (name, _)) in FAMILIES.iter().enumerate() {
        let random = of_family(family, OF_EACH_COUNT);
        progress.passed(&format!("random tables, {name}"), tables.run(random)?);
    }
    Ok(())
}

/// The tables of the sample sheets.
fn samples() -> impl Iterator<Item = Sheet> {
    SHEETS.iter().filter_map(|(_, text, _)| read(text.as_bytes()).ok())
}

/// Every table of up to three yards, three pieces and marks 0 to 2, and of some other counts and marks.
fn small() -> impl Iterator<Item = Sheet> {
    let others =
        [(3, 3, 4), (2, 4, 4), (3, 4, 2), (4, 3, 2), (2, 6, 2), (6, 2, 2), (5, 2, 2), (1, 6, 3)];
    let others = others.into_iter().flat_map(|(yards, pieces, marks)| all_of(yards, pieces, marks));
    all_small().chain(others)
}

fn all_texts(texts: &mut Harness<Judge>, progress: &Progress) -> Result<(), String> {
    progress.passed("sample sheets", parts::samples(texts)?);
    progress.passed("sheets, with every length of buffer", every_length(texts)?);
    progress.passed("all small sheets", parts::sheets(texts, all_small(), SEVERAL_BUFFERS)?);
    for (name, text) in [("a", SHEET_A), ("a as typed", SHEET_AS_TYPED)] {
        let number = parts::one_byte_away(texts, text)?;
        progress.passed(&format!("texts, all one byte away from sample {name}"), number);
    }
    for (kind, (name, _)) in damage::KINDS.iter().enumerate() {
        let number = parts::damaged(texts, kind, OF_EACH_DAMAGE)?;
        progress.passed(&format!("damaged texts, {name}"), number);
    }
    for (kind, (name, _, _)) in typed::KINDS.iter().enumerate() {
        let number = parts::typed(texts, kind, OF_EACH_TYPING)?;
        progress.passed(&format!("typed texts, {name}"), number);
    }
    for (name, near, _) in without::parts() {
        let number = parts::sheets(texts, near.into_iter(), SEVERAL_BUFFERS)?;
        progress.passed(&format!("sheets near none, {name}"), number);
    }
    let random = (0..FAMILIES.len()).flat_map(|family| of_family(family, TEXTS_OF_EACH_COUNT));
    progress.passed("random sheets", parts::sheets(texts, random, SEVERAL_BUFFERS)?);
    Ok(())
}

/// Random sheets and one of each part near none, in buffers of every length from 0 to one more than the
/// line.
fn every_length(texts: &mut Harness<Judge>) -> Result<usize, String> {
    let mut generator = Generator::new(0);
    let near = without::parts().into_iter().filter_map(|(_, near, _)| near.into_iter().next());
    let sheets: Vec<Sheet> = near.chain((0..EVERY_LENGTH).map(|_| any(&mut generator))).collect();
    for sheet in &sheets {
        texts.check(&strict_text(sheet), Buffers::Every)?;
    }
    Ok(sheets.len())
}

#[cfg(test)]
mod tests;
