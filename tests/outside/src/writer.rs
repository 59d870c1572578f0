//! Holds the library's writer of strict texts against the one of this package: samples, texts as
//! yards type them, damaged texts, and every length of buffer.

use crate::damage;
use crate::generator::Generator;
use crate::harness::{Buffers, Entry, Harness};
use crate::parts;
use crate::progress::Progress;
use crate::samples::{SHEET_A, SHEET_AS_TYPED};
use crate::strict::Writer;
use crate::typed;
use crate::widths::rows_met;

const OF_EACH_TYPING: usize = 6_000;
/// So many texts of each kind of typing must be met, and of either outcome that it has.
const FEWEST_TYPED: usize = 400;
/// So many texts of typing must be run in all.
const FEWEST_IN_ALL: usize = 100_000;
const OF_EACH_DAMAGE: usize = 2_000;
/// Sheets that are written into buffers of every length.
const EVERY_LENGTH: usize = 60;

/// Prints how many of each were run; an error is the first difference, or a kind that was never met.
pub fn run(entry: Entry) -> Result<(), String> {
    let mut harness = Harness::<Writer>::new(entry);
    let typed = all_parts(&mut harness, OF_EACH_TYPING, OF_EACH_DAMAGE)?;
    let counts = &harness.counts;
    println!("texts {}, of them typed {typed}, calls {}", counts.texts, counts.calls);
    counts.kinds.print();
    harness.solver.kinds.print();
    counts.kinds.all_met("refusal", (1..=8).chain([10]))?;
    typed::all_met(&counts.kinds, FEWEST_TYPED)?;
    rows_met(&harness.solver.kinds)?;
    match typed < FEWEST_IN_ALL {
        true => Err(format!("typed texts: {typed}")),
        false => Ok(()),
    }
}

/// Gives the number of texts of typing.
fn all_parts(
    harness: &mut Harness<Writer>,
    of_each_typing: usize,
    of_each_damage: usize,
) -> Result<usize, String> {
    let progress = Progress::start();
    progress.passed("sample sheets", parts::samples(harness)?);
    progress.passed("sheets, with every length of buffer", every_length(harness)?);
    for (name, text) in [("a", SHEET_A), ("a as typed", SHEET_AS_TYPED)] {
        let number = parts::one_byte_away(harness, text)?;
        progress.passed(&format!("texts, all one byte away from sample {name}"), number);
    }
    let mut typed = 0;
    for (kind, (name, _, _)) in typed::KINDS.iter().enumerate() {
        let number = parts::typed(harness, kind, of_each_typing)?;
        progress.passed(&format!("typed texts, {name}"), number);
        typed += number;
    }
    for (kind, (name, _)) in damage::KINDS.iter().enumerate() {
        let number = parts::damaged(harness, kind, of_each_damage)?;
        progress.passed(&format!("damaged texts, {name}"), number);
    }
    Ok(typed)
}

/// Texts typed freely, each written into a buffer of every length from 0 to one more than the text.
fn every_length(harness: &mut Harness<Writer>) -> Result<usize, String> {
    let mut generator = Generator::new(0);
    for _ in 0..EVERY_LENGTH {
        let source = parts::source(&mut generator);
        let text = typed::typed_freely(&mut generator, &source);
        harness.check(&text, Buffers::Every)?;
    }
    Ok(EVERY_LENGTH)
}

#[cfg(test)]
mod tests;
