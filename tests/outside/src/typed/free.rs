//! Texts with everything that order 1 allows, and damage before and after.

use super::remarks::{self, remark};
use super::spaces::{self, spaces};
use super::Make;
use crate::damage;
use crate::generator::Generator;

/// What may be done to a text, each with one chance in two.
const FREELY: [Make; 7] = [
    spaces::beside_brackets,
    spaces::beside_spaces,
    spaces::at_line_ends,
    spaces::spare_taken_out,
    spaces::blank_lines,
    remarks::at_line_ends,
    remarks::lines_of_remarks,
];

/// A text with spaces, remarks and blank lines put in at will, with or without an unended last line.
pub fn typed_freely(generator: &mut Generator, text: &[u8]) -> Vec<u8> {
    let mut typed = text.to_vec();
    for make in FREELY {
        if generator.below(2) == 0 {
            typed = make(generator, &typed);
        }
    }
    match generator.below(4) {
        0 => spaces::behind_the_end(generator, &typed),
        1 => remarks::behind_the_end(generator, &typed),
        _ => typed,
    }
}

/// Of a text typed freely: some spaces, some remarks, and some lines without a word taken out.
pub fn some_taken_out(generator: &mut Generator, text: &[u8]) -> Vec<u8> {
    let typed = typed_freely(generator, text);
    let typed = spaces::spare_taken_out(generator, &typed);
    let mut kept = Vec::new();
    for line in typed.split_inclusive(|byte| *byte == b'\n') {
        let said = line.iter().position(|byte| *byte == b';').unwrap_or(line.len());
        let blank = line[..said].iter().all(|byte| b" \n".contains(byte));
        match generator.below(2) {
            0 if blank => (),
            0 if said < line.len() && line.ends_with(b"\n") => {
                kept.extend([&line[..said], b"\n"].concat())
            }
            0 => kept.extend(&line[..said]),
            _ => kept.extend(line),
        }
    }
    kept
}

/// One to four lines of spaces and remarks, the last with a line feed or without.
pub fn nothing_left(generator: &mut Generator, _: &[u8]) -> Vec<u8> {
    let mut text = Vec::new();
    for _ in 0..1 + generator.index(4) {
        text.extend(spaces(generator));
        if generator.below(2) == 0 {
            text.extend(remark(generator));
        }
        text.push(b'\n');
    }
    text.truncate(text.len() - generator.index(2));
    text
}

fn damaged(generator: &mut Generator, text: &[u8]) -> Vec<u8> {
    let (_, damage) = generator.choose(&damage::KINDS);
    damage(generator, text)
}

pub fn damaged_before(generator: &mut Generator, text: &[u8]) -> Vec<u8> {
    let text = damaged(generator, text);
    typed_freely(generator, &text)
}

pub fn damaged_after(generator: &mut Generator, text: &[u8]) -> Vec<u8> {
    let text = typed_freely(generator, text);
    damaged(generator, &text)
}

#[cfg(test)]
mod tests {
    use super::{nothing_left, some_taken_out, typed_freely};
    use crate::generator::Generator;

    const LINES: &[u8] = b"(a (b 1)\n(c)\n";

    #[test]
    fn a_text_typed_freely_has_all_that_is_allowed() {
        let mut generator = Generator::new(0);
        let texts: Vec<Vec<u8>> = (0..500).map(|_| typed_freely(&mut generator, LINES)).collect();
        let met = |part: &[u8]| {
            texts.iter().filter(|text| text.windows(part.len()).any(|bytes| bytes == part)).count()
        };
        for part in [&b"( "[..], b" )", b"(a(b", b"1  ", b"\n ", b" \n", b"\n\n", b"\n;", b");"] {
            assert!((20..480).contains(&met(part)), "{}", part.escape_ascii());
        }
        let unended = texts.iter().filter(|text| !text.ends_with(b"\n")).count();
        assert!((100..400).contains(&unended), "{unended}");
    }

    #[test]
    fn taking_out_leaves_some_remarks_and_blank_lines() {
        let mut generator = Generator::new(0);
        let (mut with, mut bare) = (0, 0);
        for _ in 0..500 {
            let text = some_taken_out(&mut generator, LINES);
            with += usize::from(text.contains(&b';'));
            bare += usize::from(!text.contains(&b';'));
        }
        assert!(with > 50 && bare > 50, "{with} {bare}");
    }

    #[test]
    fn nothing_is_left_of_spaces_and_remarks() {
        let mut generator = Generator::new(0);
        let texts: Vec<Vec<u8>> = (0..500).map(|_| nothing_left(&mut generator, b"")).collect();
        assert!(texts.iter().all(|text| !text.is_empty()));
        let met = |due: fn(&[u8]) -> bool| texts.iter().filter(|text| due(text)).count();
        assert!((100..400).contains(&met(|text| text.ends_with(b"\n"))));
        assert!((100..450).contains(&met(|text| text.contains(&b';'))));
    }
}
