//! The parts of a comparison from text to text, for any entry and its solver. Each gives the number
//! of its texts; an error is the first difference.

use crate::damage;
use crate::generator::Generator;
use crate::harness::{Buffers, Harness, Solver};
use crate::reader::Sheet;
use crate::samples::{SHEETS, TEXTS_OF_J, TYPED};
use crate::strict::strict_text;
use crate::tables::any;
use crate::typed;

/// One text in so many is run with several buffers.
pub const SEVERAL_BUFFERS: usize = 5;

type Passed = Result<usize, String>;

pub fn buffers(number: usize, several: usize) -> Buffers {
    match number % several {
        0 => Buffers::Several,
        _ => Buffers::Large,
    }
}

/// Runs each text; one in so many with several buffers.
pub fn texts<S: Solver>(
    harness: &mut Harness<S>,
    texts: impl Iterator<Item = Vec<u8>>,
    several: usize,
) -> Passed {
    let before = harness.counts.texts;
    for (number, text) in texts.enumerate() {
        harness.check(&text, buffers(number, several))?;
    }
    Ok(harness.counts.texts - before)
}

/// The samples of document 01, the typed ones, and the text without a byte.
pub fn samples<S: Solver>(harness: &mut Harness<S>) -> Passed {
    texts(harness, sample_texts(), 1)
}

pub fn sample_texts() -> impl Iterator<Item = Vec<u8>> {
    let sheets = SHEETS.iter().map(|(_, text, _)| text.as_bytes().to_vec());
    let typed = TYPED.iter().map(|(_, text, _)| text.as_bytes().to_vec());
    let of_j = TEXTS_OF_J.iter().map(|(text, _)| text.as_bytes().to_vec());
    sheets.chain(typed).chain(of_j).chain([Vec::new()])
}

/// The strict texts of the sheets.
pub fn sheets<S: Solver>(
    harness: &mut Harness<S>,
    sheets: impl Iterator<Item = Sheet>,
    several: usize,
) -> Passed {
    texts(harness, sheets.map(|sheet| strict_text(&sheet)), several)
}

/// Every text that is one byte away from this one.
pub fn one_byte_away<S: Solver>(harness: &mut Harness<S>, text: &str) -> Passed {
    texts(harness, damage::one_byte_away(text.as_bytes()), SEVERAL_BUFFERS)
}

/// Texts of one kind of damage.
pub fn damaged<S: Solver>(harness: &mut Harness<S>, kind: usize, number: usize) -> Passed {
    damaged_from(harness, kind, number, |generator| strict_text(&any(generator)))
}

/// The same with texts of these sources.
pub fn damaged_from<S: Solver>(
    harness: &mut Harness<S>,
    kind: usize,
    number: usize,
    source: impl Fn(&mut Generator) -> Vec<u8>,
) -> Passed {
    texts(harness, damaged_texts(kind, number, source), SEVERAL_BUFFERS)
}

/// So many texts of one kind of damage.
pub fn damaged_texts(
    kind: usize,
    number: usize,
    source: impl Fn(&mut Generator) -> Vec<u8>,
) -> impl Iterator<Item = Vec<u8>> {
    let mut generator = Generator::new(1_000 + kind as u64);
    (0..number).map(move |_| {
        let text = source(&mut generator);
        damage::KINDS[kind].1(&mut generator, &text)
    })
}

/// Texts of one kind of typing, counted under its name where it altered the text; each must come to
/// what its kind says.
pub fn typed<S: Solver>(harness: &mut Harness<S>, kind: usize, number: usize) -> Passed {
    let (name, outcome, make) = typed::KINDS[kind];
    let mut generator = Generator::new(2_000 + kind as u64);
    for number in 0..number {
        let source = source(&mut generator);
        let text = make(&mut generator, &source);
        if !typed::holds(outcome, &source, &text) {
            return Err(format!("not as its kind says, {name}: {}", text.escape_ascii()));
        }
        let due = harness.check(&text, buffers(number, SEVERAL_BUFFERS))?;
        if text != source {
            harness.counts.kinds.count(name, usize::from(due.number()));
        }
    }
    Ok(number)
}

/// The strict text of a random sheet, or of a sample.
pub fn source(generator: &mut Generator) -> Vec<u8> {
    match generator.below(4) {
        0 => generator.choose(&SHEETS).1.as_bytes().to_vec(),
        _ => strict_text(&any(generator)),
    }
}
