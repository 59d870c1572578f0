//! Texts at the limit of refusal 1 as typed, that are short after dropping.

use super::free::typed_freely;
use super::places::{before, is_bracket, line_starts, places, put_in_once};
use super::remarks::any_bytes;
use crate::generator::Generator;
use crate::limits::LONGEST_TEXT;

pub fn longest(generator: &mut Generator, text: &[u8]) -> Vec<u8> {
    filled(generator, text, LONGEST_TEXT)
}

pub fn too_long(generator: &mut Generator, text: &[u8]) -> Vec<u8> {
    filled(generator, text, LONGEST_TEXT + 1)
}

/// A text typed freely, with spaces, a remark or blank lines at one place that make it this long.
fn filled(generator: &mut Generator, text: &[u8], length: usize) -> Vec<u8> {
    let typed = typed_freely(generator, text);
    let spare = length - typed.len();
    let remark = [b";", &any_bytes(generator, spare - 1)[..]].concat();
    let blank = [&b" ".repeat(spare - 1)[..], b"\n"].concat();
    let (filling, places) = match generator.below(6) {
        0 => (b" ".repeat(spare), places(&typed, |before, _| is_bracket(before))),
        1 => (b" ".repeat(spare), vec![typed.len()]),
        2 => (b"\n".repeat(spare), line_starts(&typed)),
        3 => (blank, line_starts(&typed)),
        4 => (remark, before(&typed, b'\n')),
        _ => (remark, vec![typed.len()]),
    };
    put_in_once(generator, &typed, &places, &filling)
}

#[cfg(test)]
mod tests {
    use super::{longest, too_long};
    use crate::generator::Generator;
    use crate::samples::SHEET_A;
    use crate::spelling::strict_spelling;

    #[test]
    fn the_texts_are_long_as_typed_and_short_after_dropping() {
        let mut generator = Generator::new(0);
        for _ in 0..300 {
            for (make, length) in [(longest as super::super::Make, 4_096), (too_long, 4_097)] {
                let text = make(&mut generator, SHEET_A.as_bytes());
                assert_eq!(text.len(), length);
                assert_eq!(strict_spelling(&text), SHEET_A.as_bytes());
            }
        }
    }
}
