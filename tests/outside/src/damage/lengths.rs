//! Texts cut short, extended, and of lengths about the limit and far above it.

use super::bytes::{byte, byte_altered};
use super::lines::lines;
use crate::generator::Generator;
use crate::limits::LONGEST_TEXT;

/// At any byte, the empty text among the results; one in four just before or after a line feed.
pub fn cut_short(generator: &mut Generator, text: &[u8]) -> Vec<u8> {
    let lines = lines(text);
    let whole: usize = lines[..generator.index(lines.len())].iter().map(|line| line.len()).sum();
    let kept = match generator.below(8) {
        0 => whole,
        1 => whole.saturating_sub(1),
        2 => generator.index(4),
        _ => generator.index(text.len()),
    };
    text[..kept].to_vec()
}

pub fn extended(generator: &mut Generator, text: &[u8]) -> Vec<u8> {
    let tail = match generator.below(4) {
        0 => {
            generator.choose(&["\n", " ", "(end)\n", "\0", "\r\n", ")", "()\n"]).as_bytes().to_vec()
        }
        1 => text.to_vec(),
        _ => (0..generator.between(1, 40)).map(|_| byte(generator)).collect(),
    };
    [text, &tail].concat()
}

/// A sheet, well formed or not, followed by other bytes up to a length near the limit, above it, or
/// above 65,536 by the length of the sheet or somewhat more.
pub fn about_longest(generator: &mut Generator, text: &[u8]) -> Vec<u8> {
    let longest = LONGEST_TEXT;
    let wrapped = 65_536 + text.len();
    let lengths = [
        longest - 1,
        longest,
        longest + 1,
        longest + 1,
        longest + 2,
        2 * longest,
        2 * longest + text.len(),
    ];
    let length = match generator.below(40) {
        0 => wrapped,
        1 => wrapped + generator.index(5_000),
        2..=9 => longest - 50 + generator.index(100),
        _ => generator.choose(&lengths),
    };
    let mut text =
        if generator.below(4) == 0 { byte_altered(generator, text) } else { text.to_vec() };
    let filling = generator.choose(b"  0\n)x\0");
    text.resize(length, filling);
    text
}
