//! Slips in typing that change the tokens of a line, in texts that are typed freely otherwise.

use super::free::typed_freely;
use super::places::{before, places, put_in_once, taken_out_once};
use super::spaces::spaces;
use crate::generator::Generator;

/// Whether this is a byte of a word or number, in a text without remarks.
fn is_of_word(byte: Option<u8>) -> bool {
    byte.is_some_and(|byte| !b" ()\n".contains(&byte))
}

fn is_digit(byte: Option<u8>) -> bool {
    byte.is_some_and(|byte| byte.is_ascii_digit())
}

/// The places before a space that alone parts two such bytes.
fn parting_spaces(text: &[u8], due: fn(Option<u8>) -> bool) -> Vec<usize> {
    let behind = |place: usize| text.get(place + 1).copied();
    let spaces = before(text, b' ').into_iter();
    spaces.filter(|k| *k > 0 && due(Some(text[k - 1])) && due(behind(*k))).collect()
}

/// The places between two such bytes.
fn within(text: &[u8], due: fn(Option<u8>) -> bool) -> Vec<usize> {
    places(text, |before, behind| due(before) && due(behind))
}

/// `yards2`, or two marks as one number.
pub fn words_glued(generator: &mut Generator, text: &[u8]) -> Vec<u8> {
    let glued = taken_out_once(generator, text, &parting_spaces(text, is_of_word));
    typed_freely(generator, &glued)
}

/// `she et`, or one mark as two numbers.
pub fn word_split(generator: &mut Generator, text: &[u8]) -> Vec<u8> {
    let space = spaces(generator);
    let split = put_in_once(generator, text, &within(text, is_of_word), &space);
    typed_freely(generator, &split)
}

/// Two marks as one number, and a number of the same row as two marks at another place, if it can be.
pub fn glued_and_split(generator: &mut Generator, text: &[u8]) -> Vec<u8> {
    let parting = parting_spaces(text, is_digit);
    if parting.is_empty() {
        return text.to_vec();
    }
    let place = generator.choose(&parting);
    let glued = [&text[..place], &text[place + 1..]].concat();
    let line = |at: usize| glued[..at].iter().filter(|byte| **byte == b'\n').count();
    let in_row = |at: &usize| line(*at) == line(place) && *at != place;
    let within: Vec<usize> = within(&glued, is_digit).into_iter().filter(in_row).collect();
    let split = put_in_once(generator, &glued, &within, b" ");
    typed_freely(generator, &split)
}

/// A line feed between two tokens of a line, or in a word.
pub fn line_broken(generator: &mut Generator, text: &[u8]) -> Vec<u8> {
    let inside = |byte: Option<u8>| byte.is_some_and(|byte| byte != b'\n');
    let broken = put_in_once(generator, text, &within(text, inside), b"\n");
    typed_freely(generator, &broken)
}

/// Two lines in one, or the last line without its line feed.
pub fn lines_joined(generator: &mut Generator, text: &[u8]) -> Vec<u8> {
    let joined = taken_out_once(generator, text, &before(text, b'\n'));
    typed_freely(generator, &joined)
}

/// A remark that has a token of the line in it, or the whole line.
pub fn semicolon_within(generator: &mut Generator, text: &[u8]) -> Vec<u8> {
    let in_lines = places(text, |_, behind| behind.is_some_and(|byte| byte != b'\n'));
    let cut = put_in_once(generator, text, &in_lines, b";");
    typed_freely(generator, &cut)
}

/// `(end)`, at times with a remark, and no line feed behind it.
pub fn end_unended(generator: &mut Generator, text: &[u8]) -> Vec<u8> {
    typed_freely(generator, text.strip_suffix(b"\n").unwrap_or(text))
}

#[cfg(test)]
mod tests {
    use super::{
        end_unended, glued_and_split, is_of_word, line_broken, lines_joined, parting_spaces,
        semicolon_within, within, word_split, words_glued,
    };
    use crate::generator::Generator;
    use crate::samples::SHEET_A;
    use crate::spelling::strict_spelling;
    use crate::typed::Make;

    #[test]
    fn words_and_the_spaces_between_them_are_found() {
        assert_eq!(parting_spaces(b"(a b (12 3)  4 5\n", is_of_word), [2, 8, 14]);
        assert_eq!(within(b"(ab 123)\n", is_of_word), [2, 5, 6]);
    }

    /// The words of a line that is not in the strict spelling of sheet a, of 300 texts.
    fn other_lines(make: Make) -> Vec<String> {
        let mut generator = Generator::new(0);
        let mut texts = Vec::new();
        for _ in 0..300 {
            let text = make(&mut generator, SHEET_A.as_bytes());
            let spelling = String::from_utf8(strict_spelling(&text)).unwrap();
            let other = |line: &&str| !SHEET_A.split_inclusive('\n').any(|known| known == *line);
            texts.extend(spelling.split_inclusive('\n').find(other).map(str::to_owned));
        }
        texts
    }

    #[test]
    fn slips_are_made_as_named() {
        let met = |make: Make, line: &str| other_lines(make).iter().any(|other| other == line);
        assert!(met(words_glued, "(sheet (yards2) (pieces 3))\n"));
        assert!(met(words_glued, "(yard 2 (marks 62 2))\n"));
        assert!(met(word_split, "(sh eet (yards 2) (pieces 3))\n"));
        assert!(met(word_split, "(en d)\n"));
        assert!(met(line_broken, "(sheet (yards 2)\n"));
        assert!(met(lines_joined, "(yard 2 (marks 6 2 2)) (end)\n"));
        assert!(met(semicolon_within, "(yard 1 (marks 5 3\n"));
        assert!(met(end_unended, "(end)"));
        assert_eq!(other_lines(words_glued).len(), 300);
        assert_eq!(other_lines(word_split).len(), 300);
        assert_eq!(other_lines(end_unended).len(), 300);
    }

    #[test]
    fn an_end_line_is_unended_with_a_remark_and_without() {
        let mut generator = Generator::new(0);
        let mut texts = || end_unended(&mut generator, SHEET_A.as_bytes());
        let bare = |text: &[u8]| text.ends_with(b"(end)");
        let with_remark = |text: &[u8]| {
            text.rsplit(|byte| *byte == b'\n').next().is_some_and(|line| line.contains(&b';'))
        };
        assert!((0..100).any(|_| bare(&texts())));
        assert!((0..100).any(|_| with_remark(&texts())));
    }

    #[test]
    fn marks_are_glued_and_split_in_one_row() {
        let mut generator = Generator::new(0);
        let mut texts = || glued_and_split(&mut generator, b"(marks 10 27 3))\n(end)\n");
        let mut met = |row: &str| {
            let due = format!("(marks {row}))\n(end)\n");
            (0..300).any(|_| strict_spelling(&texts()) == due.as_bytes())
        };
        assert!(met("1 027 3") && met("10 2 73") && met("102 7 3"));
        assert_eq!(glued_and_split(&mut Generator::new(0), b"(marks 1))\n"), b"(marks 1))\n");
    }
}
