//! The parts of the comparison: true divisions, falsified ones and typed ones.

use super::falsify;
use super::met::Met;
use super::source::{sources, Source};
use crate::families::FAMILIES;
use crate::generator::Generator;
use crate::harness::{Buffers, Harness};
use crate::limits::LONGEST_TEXT;
use crate::parts::{buffers, SEVERAL_BUFFERS};
use crate::tables::of_family;
use crate::typed::{self, typed_freely, Outcome};

/// The name of the means, and a division by it.
pub type Sample = (&'static str, Source);

/// Sheets of every family and every number of yards and pieces, one in so many of them, each divided by
/// every means, one in two with other cuts than the box's.
pub fn all_sources(one_in: usize) -> Vec<Sample> {
    let mut generator = Generator::new(5);
    let sheets = (0..FAMILIES.len()).flat_map(|family| of_family(family, 1)).step_by(one_in);
    let mut all = Vec::new();
    for sheet in sheets {
        for (name, source) in sources(&mut generator, &sheet) {
            let source = match generator.below(2) {
                0 => source,
                _ => source.with_other_cuts(&mut generator),
            };
            all.push((name, source));
        }
    }
    all
}

/// A text as it is, or typed freely where it does not become too long by that.
fn spaced(generator: &mut Generator, text: Vec<u8>) -> Vec<u8> {
    if generator.below(2) == 0 {
        return text;
    }
    let typed = typed_freely(generator, &text);
    match typed.len() > LONGEST_TEXT {
        true => text,
        false => typed,
    }
}

/// Each source as it is, counted under the name of its means.
pub fn true_divisions(harness: &mut Harness<Met>, all: &[Sample]) -> Result<usize, String> {
    let mut generator = Generator::new(6);
    for (number, (name, source)) in all.iter().enumerate() {
        let text = spaced(&mut generator, source.text());
        let due = harness.check(&text, buffers(number, SEVERAL_BUFFERS))?;
        if due.number() > 0 {
            return Err(format!("not accepted, {name}: {}", text.escape_ascii()));
        }
        harness.counts.kinds.count(name, 0);
    }
    Ok(all.len())
}

/// Texts of one kind of falsification, counted under its name; each must come to one of its numbers.
pub fn falsified(
    harness: &mut Harness<Met>,
    kind: usize,
    sources: &[&Source],
) -> Result<usize, String> {
    let (name, numbers, make) = falsify::KINDS[kind];
    let mut generator = Generator::new(3_000 + kind as u64);
    let mut texts = 0;
    for source in sources {
        for text in make(&mut generator, source) {
            let text = spaced(&mut generator, text);
            let number = harness.check(&text, buffers(texts, SEVERAL_BUFFERS))?.number();
            if !numbers.contains(&number) {
                return Err(format!("{number} for {name}: {}", text.escape_ascii()));
            }
            harness.counts.kinds.count(name, usize::from(number));
            texts += 1;
        }
    }
    Ok(texts)
}

/// Texts of one kind of typing, counted under its name where it altered the text. Spaces and remarks must
/// leave the answer as it was, and what a sheet is refused for must be refused here too.
pub fn typed_texts(
    harness: &mut Harness<Met>,
    kind: usize,
    number: usize,
    source: impl Fn(&mut Generator) -> Vec<u8>,
) -> Result<usize, String> {
    let (name, outcome, make) = typed::KINDS[kind];
    let mut generator = Generator::new(4_000 + kind as u64);
    for number in 0..number {
        let source = source(&mut generator);
        let text = make(&mut generator, &source);
        let due = harness.check(&text, buffers(number, SEVERAL_BUFFERS))?;
        let holds = match outcome {
            Outcome::SameSheet => harness.check(&source, Buffers::Large)? == due,
            Outcome::Refused(_) => due.number() > 0,
            Outcome::Either => true,
        };
        if !holds {
            return Err(format!("not as its kind says, {name}: {}", text.escape_ascii()));
        }
        if text != source {
            harness.counts.kinds.count(name, usize::from(due.number()));
        }
    }
    Ok(number)
}
