//! Damage to single bytes of a text, and texts of random bytes.

use super::Kind;
use crate::generator::Generator;
use crate::limits::LONGEST_TEXT;

/// Mostly bytes that the format uses, so that the text comes close to a sheet.
pub fn byte(generator: &mut Generator) -> u8 {
    let used = b"(((()))))   \n\n\n00123456789sheetyardspiecesmarksend";
    let others = b"\t\r\0;-+.,[]{}SHEYPME\x0b\x0c\xa0\xff";
    match generator.below(8) {
        0 => generator.choose(others),
        1 => generator.below(256) as u8,
        _ => generator.choose(used),
    }
}

pub fn byte_deleted(generator: &mut Generator, text: &[u8]) -> Vec<u8> {
    let mut text = text.to_vec();
    text.remove(generator.index(text.len()));
    text
}

pub fn byte_doubled(generator: &mut Generator, text: &[u8]) -> Vec<u8> {
    let mut text = text.to_vec();
    let place = generator.index(text.len());
    text.insert(place, text[place]);
    text
}

pub fn byte_replaced(generator: &mut Generator, text: &[u8]) -> Vec<u8> {
    let mut text = text.to_vec();
    let place = generator.index(text.len());
    text[place] = byte(generator);
    text
}

pub fn byte_inserted(generator: &mut Generator, text: &[u8]) -> Vec<u8> {
    let mut text = text.to_vec();
    let place = generator.index(text.len() + 1);
    text.insert(place, byte(generator));
    text
}

pub fn byte_altered(generator: &mut Generator, text: &[u8]) -> Vec<u8> {
    let kinds: [Kind; 4] = [byte_deleted, byte_doubled, byte_replaced, byte_inserted];
    generator.choose(&kinds)(generator, text)
}

pub fn two_bytes_altered(generator: &mut Generator, text: &[u8]) -> Vec<u8> {
    let once = byte_altered(generator, text);
    byte_altered(generator, &once)
}

pub fn random_bytes(generator: &mut Generator, _: &[u8]) -> Vec<u8> {
    let length = match generator.below(20) {
        0 => generator.index(LONGEST_TEXT + 100),
        _ => generator.index(80),
    };
    match generator.below(2) {
        0 => (0..length).map(|_| byte(generator)).collect(),
        _ => (0..length).map(|_| generator.below(256) as u8).collect(),
    }
}

/// Every text that comes from this one by one byte deleted, replaced or inserted.
pub fn one_byte_away(text: &[u8]) -> impl Iterator<Item = Vec<u8>> + '_ {
    let spliced =
        |start: usize, end: usize, new: &[u8]| [&text[..start], new, &text[end..]].concat();
    let deleted = (0..text.len()).map(move |place| spliced(place, place + 1, &[]));
    let replaced = (0..text.len())
        .flat_map(move |place| (0..=255).map(move |byte| spliced(place, place + 1, &[byte])));
    let inserted = (0..=text.len())
        .flat_map(move |place| (0..=255).map(move |byte| spliced(place, place, &[byte])));
    deleted.chain(replaced).chain(inserted)
}
