//! Order 5, "other people's divisions": holds the library's judgements of texts against the solver's. True
//! divisions of random sheets are falsified in one thing at a time, and spaced and remarked at random.

pub mod falsify;
pub mod judge;
pub mod layout;
pub mod met;
mod parts;
pub mod samples;
pub mod source;

use crate::damage;
use crate::generator::Generator;
use crate::harness::{Buffers, Entry, Harness};
use crate::kinds::Kinds;
use crate::parts::{damaged_from, one_byte_away, samples as sheet_samples, texts, SEVERAL_BUFFERS};
use crate::progress::Progress;
use crate::typed;
use met::Met;
use parts::{all_sources, falsified, true_divisions, typed_texts};
use samples::{JUDGED, JUDGED_AS_TYPED};
use source::{Source, MEANS};

/// So many texts must be true divisions of random sheets or be falsified.
const FEWEST_IN_ALL: usize = 100_000;
/// So many texts of each kind of falsification, for each number that it comes to, and of each kind of typing
/// and either outcome that it has.
const FEWEST_OF_EACH: usize = 20;
const FEWEST_TYPED: usize = 5;
/// Texts that are typed or damaged are made of divisions that are no longer.
const LONGEST_SOURCE: usize = 1_200;

/// How many texts a comparison runs.
#[derive(Clone, Copy)]
struct Extent {
    /// Of the sheets of each family with every number of yards and pieces, one in so many.
    sheets: usize,
    /// Of their divisions, one in so many is falsified; no multiple of the number of means.
    falsified: usize,
    every_length: usize,
    reasons: usize,
    of_each_damage: usize,
    of_each_typing: usize,
    /// Whether all texts that are one byte away from a sample are run.
    one_byte_away: bool,
}

const WHOLE: Extent = Extent {
    sheets: 1,
    falsified: 12,
    every_length: 60,
    reasons: 5_000,
    of_each_damage: 1_000,
    of_each_typing: 600,
    one_byte_away: true,
};

/// Prints how many of each were run; an error is the first difference, or a kind that was never met.
pub fn run(entry: Entry) -> Result<(), String> {
    let mut harness = Harness::<Met>::new(entry);
    let falsified = all_parts(&mut harness, WHOLE)?;
    let counts = &harness.counts;
    println!(
        "texts {}, of them true or falsified {falsified}, calls {}",
        counts.texts, counts.calls
    );
    counts.kinds.print();
    println!("accepted {}", harness.solver.accepted);
    harness.solver.kinds.print();
    counts.kinds.all_met("refusal", (1..=8).chain(10..=13))?;
    all_met(&counts.kinds, FEWEST_OF_EACH)?;
    typed::all_met(&counts.kinds, FEWEST_TYPED)?;
    harness.solver.all_met()?;
    match falsified < FEWEST_IN_ALL {
        true => Err(format!("texts, true or falsified: {falsified}")),
        false => Ok(()),
    }
}

/// An error names the first means, or kind of falsification, that was met too rarely with one of its numbers.
fn all_met(kinds: &Kinds, fewest: usize) -> Result<(), String> {
    let by_means = MEANS.iter().map(|(name, _)| (*name, &[0][..]));
    let falsified = falsify::KINDS.iter().map(|(name, numbers, _)| (*name, *numbers));
    for (name, numbers) in by_means.chain(falsified) {
        for number in numbers {
            kinds.often_enough(name, usize::from(*number), fewest)?;
        }
    }
    Ok(())
}

/// Gives the number of texts that are true divisions or falsified ones.
fn all_parts(harness: &mut Harness<Met>, extent: Extent) -> Result<usize, String> {
    let progress = Progress::start();
    progress.passed("sample sheets without a division", sheet_samples(harness)?);
    let samples = JUDGED.iter().map(|(_, text, _)| text.as_bytes().to_vec());
    progress.passed("samples", texts(harness, samples, 1)?);
    let all = all_sources(extent.sheets);
    let mut texts = true_divisions(harness, &all)?;
    progress.passed("true divisions", texts);
    let to_falsify: Vec<&Source> =
        all.iter().step_by(extent.falsified).map(|(_, source)| source).collect();
    for (kind, (name, _, _)) in falsify::KINDS.iter().enumerate() {
        let number = falsified(harness, kind, &to_falsify)?;
        progress.passed(&format!("falsified, {name}"), number);
        texts += number;
    }
    let sources = all.iter().map(|(_, source)| source.text());
    let short: Vec<Vec<u8>> = sources.filter(|text| text.len() <= LONGEST_SOURCE).collect();
    let source = |generator: &mut Generator| short[generator.index(short.len())].clone();
    other_texts(harness, extent, source, &progress)?;
    Ok(texts)
}

/// Texts for every length of buffer and for the order of the refusals, damaged and typed ones.
fn other_texts(
    harness: &mut Harness<Met>,
    extent: Extent,
    source: impl Fn(&mut Generator) -> Vec<u8> + Copy,
    progress: &Progress,
) -> Result<(), String> {
    let mut generator = Generator::new(0);
    for _ in 0..extent.every_length {
        harness.check(&source(&mut generator), Buffers::Every)?;
    }
    progress.passed("divisions, with every length of buffer", extent.every_length);
    let reasons = (0..extent.reasons).map(|_| falsify::several_reasons(&mut generator));
    progress.passed("several reasons to refuse", texts(harness, reasons, SEVERAL_BUFFERS)?);
    for (kind, (name, _)) in damage::KINDS.iter().enumerate() {
        let number = damaged_from(harness, kind, extent.of_each_damage, source)?;
        progress.passed(&format!("damaged texts, {name}"), number);
    }
    for (kind, (name, _, _)) in typed::KINDS.iter().enumerate() {
        let number = typed_texts(harness, kind, extent.of_each_typing, source)?;
        progress.passed(&format!("typed texts, {name}"), number);
    }
    let samples = [("a", JUDGED[0].1), ("a as typed", JUDGED_AS_TYPED)];
    for (name, text) in samples.into_iter().filter(|_| extent.one_byte_away) {
        let number = one_byte_away(harness, text)?;
        progress.passed(&format!("texts, all one byte away from sample {name}"), number);
    }
    Ok(())
}

#[cfg(test)]
mod tests;
