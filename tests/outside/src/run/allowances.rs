//! Order 7: texts with several allowances. Refusals 1 to 8 stand before 14, and 14 before 10.

use std::cell::Cell;

use super::Entry;
use crate::allowance::edges;
use crate::damage;
use crate::division::divide;
use crate::families::FAMILIES;
use crate::growth::number;
use crate::harness::{Buffers, Due, Harness, Solver};
use crate::kinds::Kinds;
use crate::parts::{damaged_texts, sample_texts, source};
use crate::printer::print;
use crate::progress::Progress;
use crate::reader::{read, Sheet};
use crate::strict::strict_text;
use crate::tables::of_family;

/// Texts of each kind of damage.
const OF_EACH_DAMAGE: usize = 40;
/// An answer, 0 for a division, and how often at least it must be due.
pub const FEWEST: [(u8, usize); 2] = [(0, 3_000), (14, 3_000)];

/// The kind of texts with an allowance, by the answer.
pub const ANSWER: &str = "answer with an allowance";

/// What is due to a text with the allowance of the cell.
struct Within<'a> {
    allowance: &'a Cell<u32>,
}

impl Solver for Within<'_> {
    const GIVES_ITSELF: bool = false;

    fn solve(&mut self, text: &[u8]) -> Result<Due, String> {
        Ok(match read(text) {
            Err(refusal) => Due::Refused(refusal),
            Ok(sheet) if layouts(&sheet) > self.allowance.get() => Due::Refused(14),
            Ok(sheet) => Due::Text(print(&sheet, &divide(&sheet))),
        })
    }
}

/// "the growth layouts of all pieces into N piles"
fn layouts(sheet: &Sheet) -> u32 {
    number(sheet.pieces, sheet.yards)
}

/// Prints how many were run; an error is the first difference, or a kind that was met too rarely.
pub fn run(entry: Entry, progress: &Progress) -> Result<(), String> {
    let tables = (0..FAMILIES.len()).flat_map(|family| of_family(family, 1));
    let damaged =
        (0..damage::KINDS.len()).flat_map(|kind| damaged_texts(kind, OF_EACH_DAMAGE, source));
    let texts = sample_texts().chain(tables.map(|sheet| strict_text(&sheet))).chain(damaged);
    let kinds = check(entry, texts)?;
    progress.passed("texts with several allowances", kinds.met(ANSWER));
    kinds.print();
    all_met(&kinds)
}

/// Each text with the allowances about the number of its growth layouts, and the kinds met.
pub fn check(entry: Entry, texts: impl Iterator<Item = Vec<u8>>) -> Result<Kinds, String> {
    let allowance = &Cell::new(0);
    let within = |text: &[u8], buffer: &mut [u8], length: &mut usize| {
        entry(text, allowance.get(), buffer, length)
    };
    let mut harness = Harness::with(&within, Within { allowance });
    for text in texts {
        for edge in edges(read(&text).map_or(1, |sheet| layouts(&sheet))) {
            allowance.set(edge);
            let due = harness.check(&text, Buffers::Several)?;
            harness.counts.kinds.count(ANSWER, usize::from(due.number()));
        }
    }
    Ok(harness.counts.kinds)
}

/// Divisions and refusals 14 often enough, every refusal that can stand before 14, and 10.
pub fn all_met(kinds: &Kinds) -> Result<(), String> {
    for (answer, fewest) in FEWEST {
        kinds.often_enough(ANSWER, usize::from(answer), fewest)?;
    }
    kinds.all_met(ANSWER, 1..=8)?;
    kinds.all_met("refusal", [10])
}
