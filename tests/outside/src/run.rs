//! The comparison of the whole box: samples, all small tables, damaged texts, texts as yards type
//! them, random tables; texts with several allowances; and the counts.

mod allowances;

use crate::allowance::ALLOWANCE;
use crate::damage;
use crate::harness::Harness;
use crate::met::Met;
use crate::parts::{self, SEVERAL_BUFFERS};
use crate::progress::Progress;
use crate::samples::{SHEET_A, SHEET_AS_TYPED};
use crate::tables::{all_small, random};
use crate::typed;

const OF_EACH_DAMAGE: usize = 5_000;
const OF_EACH_TYPING: usize = 1_000;
/// So many texts of each kind of typing must be met, and of either outcome that it has.
const FEWEST_TYPED: usize = 50;

/// Text, allowance, lent buffer and lent length; answers the refusal's number, or 0 with the printed length
/// stored.
pub type Entry<'a> = &'a dyn Fn(&[u8], u32, &mut [u8], &mut usize) -> u8;

/// Prints how many of each were run; an error is the first difference, or a kind that was met too rarely.
pub fn run(entry: Entry) -> Result<(), String> {
    let progress = Progress::start();
    with_the_programs_allowance(entry, &progress)?;
    allowances::run(entry, &progress)
}

fn with_the_programs_allowance(entry: Entry, progress: &Progress) -> Result<(), String> {
    let entry =
        |text: &[u8], buffer: &mut [u8], length: &mut usize| entry(text, ALLOWANCE, buffer, length);
    let mut harness = Harness::<Met>::new(&entry);
    progress.passed("sample sheets", parts::samples(&mut harness)?);
    progress.passed("all small tables", parts::sheets(&mut harness, all_small(), 1)?);
    for (name, text) in [("a", SHEET_A), ("a as typed", SHEET_AS_TYPED)] {
        let number = parts::one_byte_away(&mut harness, text)?;
        progress.passed(&format!("texts, all one byte away from sample {name}"), number);
    }
    for (kind, (name, _)) in damage::KINDS.iter().enumerate() {
        let number = parts::damaged(&mut harness, kind, OF_EACH_DAMAGE)?;
        progress.passed(&format!("damaged texts, {name}"), number);
    }
    for (kind, (name, _, _)) in typed::KINDS.iter().enumerate() {
        let number = parts::typed(&mut harness, kind, OF_EACH_TYPING)?;
        progress.passed(&format!("typed texts, {name}"), number);
    }
    for (name, tables) in random() {
        let number = parts::sheets(&mut harness, tables.into_iter(), SEVERAL_BUFFERS)?;
        progress.passed(&format!("random tables, {name}"), number);
    }
    let counts = &harness.counts;
    println!("texts {}, calls {}", counts.texts, counts.calls);
    counts.kinds.print();
    harness.solver.print();
    counts.kinds.all_met("refusal", (1..=8).chain([10]))?;
    typed::all_met(&counts.kinds, FEWEST_TYPED)?;
    harness.solver.all_met()
}

#[cfg(test)]
mod tests;
