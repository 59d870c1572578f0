//! Spaces and blank lines that count for nothing.

use super::places::{before, is_bracket, line_starts, places, put_in, taken_out};
use crate::generator::Generator;

/// Mostly one to three, at times a dozen.
pub fn spaces(generator: &mut Generator) -> Vec<u8> {
    let number = match generator.below(20) {
        0 => generator.index(12) + 1,
        _ => generator.index(3) + 1,
    };
    vec![b' '; number]
}

pub fn beside_brackets(generator: &mut Generator, text: &[u8]) -> Vec<u8> {
    let beside = places(text, |before, behind| is_bracket(before) || is_bracket(behind));
    put_in(generator, text, &beside, spaces)
}

pub fn beside_spaces(generator: &mut Generator, text: &[u8]) -> Vec<u8> {
    put_in(generator, text, &before(text, b' '), spaces)
}

pub fn at_line_ends(generator: &mut Generator, text: &[u8]) -> Vec<u8> {
    let at_ends = places(text, |before, behind| {
        behind == Some(b'\n') || behind.is_some() && matches!(before, None | Some(b'\n'))
    });
    put_in(generator, text, &at_ends, spaces)
}

/// Some spaces beside a bracket, behind another space or at either end of a line.
pub fn spare_taken_out(generator: &mut Generator, text: &[u8]) -> Vec<u8> {
    let spare = places(text, |before, behind| {
        behind == Some(b' ') && (is_bracket(before) || matches!(before, None | Some(b' ' | b'\n')))
    });
    let before_others = (0..text.len().saturating_sub(1))
        .filter(|k| text[*k] == b' ' && matches!(text[k + 1], b'(' | b')' | b'\n'));
    let mut spare: Vec<usize> = spare.into_iter().chain(before_others).collect();
    spare.sort();
    spare.dedup();
    taken_out(generator, text, &spare)
}

/// Empty lines and lines of spaces.
pub fn blank_lines(generator: &mut Generator, text: &[u8]) -> Vec<u8> {
    put_in(generator, text, &line_starts(text), |generator| match generator.below(2) {
        0 => b"\n".to_vec(),
        _ => [&spaces(generator)[..], b"\n"].concat(),
    })
}

/// A last line of spaces without a line feed.
pub fn behind_the_end(generator: &mut Generator, text: &[u8]) -> Vec<u8> {
    [text, &spaces(generator)].concat()
}

#[cfg(test)]
mod tests {
    use super::{at_line_ends, beside_brackets, beside_spaces, blank_lines, spare_taken_out};
    use crate::generator::Generator;

    /// Every text of 300 that the kind makes of this one.
    fn made(kind: fn(&mut Generator, &[u8]) -> Vec<u8>, text: &str) -> Vec<String> {
        let mut generator = Generator::new(0);
        let texts = (0..300).map(|_| kind(&mut generator, text.as_bytes()));
        texts.map(|text| String::from_utf8(text).unwrap()).collect()
    }

    #[test]
    fn spaces_stand_beside_their_bytes() {
        for text in made(beside_brackets, "a(b)c d\n") {
            assert!(text != "a(b)c d\n" && text.contains("c d\n"), "{text}");
            assert_eq!(text.replace(' ', ""), "a(b)cd\n");
        }
        for text in made(beside_spaces, "a b(c)\n") {
            assert!(text.starts_with("a  ") && text.ends_with(" b(c)\n"), "{text}");
        }
        for text in made(at_line_ends, "a b\nc\n") {
            assert!(text != "a b\nc\n" && text.contains("a b"), "{text}");
            assert!(text.ends_with('\n'));
            assert_eq!(text.split('\n').map(str::trim).collect::<Vec<_>>(), ["a b", "c", ""]);
        }
    }

    #[test]
    fn spare_spaces_are_taken_out_and_one_is_left_between_words() {
        let texts = made(spare_taken_out, " a  b ( c ) \n");
        let words = |text: &str| text.replace(['(', ')'], " ");
        for text in &texts {
            assert_eq!(words(text).split_whitespace().collect::<Vec<_>>(), ["a", "b", "c"]);
            assert!(text.len() < 13, "{text}");
        }
        assert!(texts.iter().any(|text| text.starts_with("a b(")));
    }

    #[test]
    fn blank_lines_stand_between_lines() {
        for text in made(blank_lines, "a\nb\n") {
            let lines: Vec<&str> = text.lines().filter(|line| !line.trim().is_empty()).collect();
            assert!(text.len() > 4 && lines == ["a", "b"], "{text:?}");
        }
    }
}
