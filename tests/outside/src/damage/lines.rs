//! Damage to whole lines of a text.

use crate::generator::Generator;

pub fn lines(text: &[u8]) -> Vec<&[u8]> {
    text.split_inclusive(|byte| *byte == b'\n').collect()
}

pub fn lines_swapped(generator: &mut Generator, text: &[u8]) -> Vec<u8> {
    let mut lines = lines(text);
    let (first, second) = (generator.index(lines.len()), generator.index(lines.len()));
    lines.swap(first, second);
    lines.concat()
}

pub fn line_repeated(generator: &mut Generator, text: &[u8]) -> Vec<u8> {
    let mut lines = lines(text);
    let repeated = generator.choose(&lines);
    let place = generator.index(lines.len() + 1);
    lines.insert(place, repeated);
    lines.concat()
}

pub fn line_dropped(generator: &mut Generator, text: &[u8]) -> Vec<u8> {
    let mut lines = lines(text);
    lines.remove(generator.index(lines.len()));
    lines.concat()
}

/// One line, or each line, ends in a carriage return and a line feed.
pub fn carriage_returns(generator: &mut Generator, text: &[u8]) -> Vec<u8> {
    let lines = lines(text);
    let place = generator.index(2 * lines.len());
    let ended = lines.iter().enumerate().map(|(number, line)| {
        match number == place || place >= lines.len() {
            true => [&line[..line.len() - 1], b"\r\n"].concat(),
            false => line.to_vec(),
        }
    });
    ended.collect::<Vec<Vec<u8>>>().concat()
}
