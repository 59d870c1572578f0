//! Remarks, and lines of remarks, that count for nothing.

use super::places::{before, line_starts, put_in};
use super::spaces::spaces;
use crate::generator::Generator;

const SAID: [&str; 8] = [
    "", " (end)", "(end)", " thanks; and (good) night", "(sheet (yards 1) (pieces 1))",
    " (yard 2 (marks 5 3 4))", "))", " 12 logs of 7",
];

/// A semicolon and any bytes but a line feed.
pub fn remark(generator: &mut Generator) -> Vec<u8> {
    let said = match generator.below(6) {
        0 => spaces(generator),
        1 | 2 => generator.choose(&SAID).as_bytes().to_vec(),
        _ => {
            let number = 1 + generator.index(20);
            any_bytes(generator, number)
        }
    };
    [b";", &said[..]].concat()
}

/// Any bytes but a line feed, as many of them; half of them are bytes that a sheet has.
pub fn any_bytes(generator: &mut Generator, number: usize) -> Vec<u8> {
    let byte = |_| match generator.below(2) {
        0 => generator.choose(b" ()();0123456789\t\rsheetyardmarks"),
        _ => generator.below(256) as u8,
    };
    (0..number).map(byte).map(|byte| if byte == b'\n' { b'\r' } else { byte }).collect()
}

/// Behind some lines.
pub fn at_line_ends(generator: &mut Generator, text: &[u8]) -> Vec<u8> {
    put_in(generator, text, &before(text, b'\n'), remark)
}

/// A remark at the beginning of a line or behind spaces.
fn line_of_a_remark(generator: &mut Generator) -> Vec<u8> {
    let indent = if generator.below(2) == 0 { spaces(generator) } else { Vec::new() };
    [indent, remark(generator)].concat()
}

pub fn lines_of_remarks(generator: &mut Generator, text: &[u8]) -> Vec<u8> {
    put_in(generator, text, &line_starts(text), |generator| {
        [&line_of_a_remark(generator)[..], b"\n"].concat()
    })
}

/// A last line of a remark without a line feed.
pub fn behind_the_end(generator: &mut Generator, text: &[u8]) -> Vec<u8> {
    [text, &line_of_a_remark(generator)].concat()
}

#[cfg(test)]
mod tests {
    use super::{at_line_ends, behind_the_end, lines_of_remarks, remark};
    use crate::generator::Generator;

    #[test]
    fn remarks_have_every_byte_but_a_line_feed() {
        let mut generator = Generator::new(0);
        let remarks: Vec<Vec<u8>> = (0..3_000).map(|_| remark(&mut generator)).collect();
        assert!(remarks.iter().all(|remark| remark[0] == b';'));
        let said: Vec<u8> = remarks.iter().flat_map(|remark| remark[1..].to_vec()).collect();
        assert!((0..=255).all(|byte| said.contains(&byte) == (byte != b'\n')));
        let has = |said: &[u8]| remarks.iter().any(|remark| remark.ends_with(said));
        assert!(has(b"(end)") && has(b"(marks 5 3 4))") && has(b"; "));
        assert!(remarks.contains(&b";".to_vec()));
    }

    #[test]
    fn remarks_stand_behind_lines_or_have_lines_of_their_own() {
        let mut generator = Generator::new(0);
        for _ in 0..300 {
            let lines = |text: &[u8]| text.split(|byte| *byte == b'\n').count();
            let text = at_line_ends(&mut generator, b"a\nb\n");
            assert!(text.len() > 4 && lines(&text) == 3);
            let text = lines_of_remarks(&mut generator, b"a\nb\n");
            assert!(lines(&text) > 3 && text.ends_with(b"\n"));
            let text = behind_the_end(&mut generator, b"a\n");
            assert!(text.starts_with(b"a\n") && text.contains(&b';') && lines(&text) == 2);
        }
    }
}
