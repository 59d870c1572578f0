//! Reads a sheet (document 01, "The sheet" and refusals 1 to 8) line by line, in the spelling that
//! order 1 leaves. A line counts only with its line feed; an answer `Err` is the refusal's number.

use crate::limits::{GREATEST_MARK, LONGEST_TEXT, MARK_DIGITS, MOST_PIECES, MOST_YARDS};
use crate::spelling::strict_spelling;

#[derive(Clone, Debug, PartialEq)]
pub struct Sheet {
    pub yards: usize,
    pub pieces: usize,
    /// One row a yard, one mark a piece.
    pub marks: Vec<Vec<u64>>,
}

impl Sheet {
    /// The sheet with these rows of marks.
    pub fn of(marks: Vec<Vec<u64>>) -> Sheet {
        Sheet { yards: marks.len(), pieces: marks[0].len(), marks }
    }
}

/// "Each is looked for over the whole input before the following one."
pub fn read(text: &[u8]) -> Result<Sheet, u8> {
    let text = spelling(text)?;
    let (sheet, rest) = through_the_yards(&text)?;
    match rest {
        b"(end)\n" => within_the_limit(sheet),
        _ => Err(7),
    }
}

/// Order 5: "a sheet through its `(end)` line (in this reading refusal 7 is given only where that line
/// does not follow the yard lines)", and what follows, in the same spelling.
pub fn read_through_end(text: &[u8]) -> Result<(Sheet, Vec<u8>), u8> {
    let text = spelling(text)?;
    let (sheet, rest) = through_the_yards(&text)?;
    let rest = rest.strip_prefix(b"(end)\n").ok_or(7)?;
    Ok((within_the_limit(sheet)?, rest.to_vec()))
}

/// Of order 1: "Layout is judged after that; refusals 1 and 2 count the bytes as typed."
fn spelling(text: &[u8]) -> Result<Vec<u8>, u8> {
    match text.len() {
        0 => Err(2),
        1..=LONGEST_TEXT => Ok(strict_spelling(text)),
        _ => Err(1),
    }
}

/// The head and the yard lines, and the text after them.
fn through_the_yards(text: &[u8]) -> Result<(Sheet, &[u8]), u8> {
    let (head, mut rest) = first_line(text).ok_or(3)?;
    let (yards, pieces) = head_line(head).ok_or(3)?;
    if !(1..=MOST_YARDS).contains(&yards) {
        return Err(4);
    }
    if !(1..=MOST_PIECES).contains(&pieces) {
        return Err(5);
    }
    let mut marks = Vec::new();
    for number in 1..=yards {
        let (line, after) = first_line(rest).ok_or(6)?;
        marks.push(yard_line(line, number, pieces).ok_or(6)?);
        rest = after;
    }
    Ok((Sheet { yards, pieces, marks }, rest))
}

fn within_the_limit(sheet: Sheet) -> Result<Sheet, u8> {
    match sheet.marks.iter().flatten().any(|mark| *mark > GREATEST_MARK) {
        true => Err(8),
        false => Ok(sheet),
    }
}

/// The first line without its line feed, and the text after that line feed.
fn first_line(text: &[u8]) -> Option<(&[u8], &[u8])> {
    let end = text.iter().position(|byte| *byte == b'\n')?;
    Some((&text[..end], &text[end + 1..]))
}

/// `(sheet (yards Y) (pieces P))`, "the counts, each in one to three digits".
fn head_line(line: &[u8]) -> Option<(usize, usize)> {
    let between = b") (pieces ";
    let counts = line.strip_prefix(b"(sheet (yards ")?.strip_suffix(b"))")?;
    let end = counts.windows(between.len()).position(|bytes| bytes == between)?;
    let yards = number(&counts[..end], 3)?;
    let pieces = number(&counts[end + between.len()..], 3)?;
    Some((yards as usize, pieces as usize))
}

/// `(yard N (marks M .. M))` with the number due and "one mark for each piece", each "in one to ten digits".
fn yard_line(line: &[u8], due: usize, pieces: usize) -> Option<Vec<u64>> {
    let start = format!("(yard {due} (marks ");
    let marks = line.strip_prefix(start.as_bytes())?.strip_suffix(b"))")?;
    let words = marks.split(|byte| *byte == b' ');
    let row: Vec<u64> = words.map(|word| number(word, MARK_DIGITS)).collect::<Option<_>>()?;
    (row.len() == pieces).then_some(row)
}

/// "Numbers have no leading zero; zero is `0`."
pub fn number(word: &[u8], most_digits: usize) -> Option<u64> {
    let digits_only = word.iter().all(u8::is_ascii_digit);
    let leading_zero = word.len() > 1 && word[0] == b'0';
    if word.is_empty() || word.len() > most_digits || !digits_only || leading_zero {
        return None;
    }
    Some(word.iter().fold(0, |value, digit| 10 * value + u64::from(digit - b'0')))
}

#[cfg(test)]
mod tests {
    use super::{read, read_through_end};
    use crate::limits::LONGEST_TEXT;
    use crate::samples::{SHEET_A, TEXTS_OF_J};

    fn refusal(text: &str) -> u8 {
        read(text.as_bytes()).err().unwrap_or(0)
    }

    #[test]
    fn sheet_a_is_read() {
        let sheet = read(SHEET_A.as_bytes()).ok().unwrap();
        assert_eq!((sheet.yards, sheet.pieces), (2, 3));
        assert_eq!(sheet.marks, [[5, 3, 4], [6, 2, 2]]);
    }

    #[test]
    fn sample_j() {
        for (text, due) in TEXTS_OF_J {
            assert_eq!(refusal(text), due, "{text}");
        }
    }

    #[test]
    fn each_refusal_has_its_place() {
        assert_eq!(refusal(""), 2);
        assert_eq!(refusal("(sheet (yards 2) (pieces 3))"), 3);
        assert_eq!(refusal("(sheet (yards 02) (pieces 3))\n"), 3);
        assert_eq!(refusal("(sheet (yards 1000) (pieces 3))\n"), 3);
        assert_eq!(refusal("(sheet (yards 999) (pieces 999))\n"), 4);
        assert_eq!(refusal("(sheet (yards 2) (pieces 3))\n"), 6);
        assert_eq!(refusal(&SHEET_A.replace("yard 2", "yard 1")), 6);
        assert_eq!(refusal(&SHEET_A.replace("6 2 2", "6 2")), 6);
        assert_eq!(refusal(&SHEET_A.replace("5 3 4", "5 03 4")), 6);
        assert_eq!(refusal(SHEET_A.trim_end()), 7);
        assert_eq!(refusal(&(SHEET_A.to_owned() + "x\n")), 7);
        let with_mark = |mark: &str, end: &str| {
            refusal(&SHEET_A.replace("5 3 4", &format!("5 3 {mark}")).replace("(end)", end))
        };
        assert_eq!(with_mark("70000", "(end)"), 0);
        assert_eq!(with_mark("5000000000", "(end)"), 8);
        assert_eq!(with_mark("5000000000", "(END)"), 7);
        assert_eq!(with_mark("50000000000", "(END)"), 6);
    }

    #[test]
    fn what_follows_the_end_line_is_left_to_others() {
        let through_end = |text: &str| read_through_end(text.as_bytes()).map(|(_, rest)| rest);
        assert_eq!(through_end(SHEET_A), Ok(vec![]));
        assert_eq!(through_end(&(SHEET_A.to_owned() + "; \n x  (y)")), Ok(b"x (y)".to_vec()));
        assert_eq!(through_end(SHEET_A.trim_end()), Err(7));
        assert_eq!(through_end(&SHEET_A.replace("(end)", "(end) x")), Err(7));
        assert_eq!(through_end(&SHEET_A.replace("5 3 4", "5 3 5000000000")), Err(8));
        assert_eq!(through_end(&SHEET_A.replace("5 3 4", "5 3 04")), Err(6));
        assert_eq!(through_end(""), Err(2));
    }

    /// Sheet a with this change carries the same counts and marks.
    fn same_sheet(old: &str, new: &str) -> bool {
        read(SHEET_A.replace(old, new).as_bytes()) == read(SHEET_A.as_bytes())
    }

    #[test]
    fn spaces_count_for_nothing_between_tokens() {
        assert!(same_sheet("(sheet (yards 2) (pieces 3))", "( sheet(yards 2) (pieces  3 ))"));
        assert!(same_sheet("5 3 4", "  5  3   4 "));
        assert!(same_sheet("\n", "  \n  "));
        assert!(!same_sheet("5 3 4", "53 4"));
        assert!(!same_sheet("(yard 1", "(ya rd 1"));
    }

    #[test]
    fn a_tab_or_a_carriage_return_is_a_byte_of_a_word() {
        assert_eq!(refusal(&SHEET_A.replace("(sheet ", "(sheet\t")), 3);
        assert_eq!(refusal(&SHEET_A.replace("5 3 4", "5\t3 4")), 6);
        assert_eq!(refusal(&SHEET_A.replace("(end)", "(end)\r")), 7);
        assert_eq!(refusal(&SHEET_A.replace("(end)", "\t\n(end)")), 7);
    }

    #[test]
    fn remarks_and_blank_lines_count_for_nothing() {
        assert!(same_sheet("\n", " ; (end)\n"));
        assert!(same_sheet("(end)\n", "\n  \n;;\n(end);(end)\n\n"));
        assert!(same_sheet("(sheet", "; (sheet\n\n(sheet"));
        assert!(!same_sheet("5 3 4))", "5 3 4 ; ))"));
        assert!(!same_sheet("\n(yard 2", ";(yard 2"));
    }

    #[test]
    fn a_text_of_spaces_and_remarks_has_no_head() {
        for text in ["\n", " ", ";", "; (sheet (yards 2) (pieces 3))\n", " \n\n  ; remark"] {
            assert_eq!(refusal(text), 3, "{text:?}");
        }
    }

    #[test]
    fn an_unended_last_line_is_dropped_or_malformed() {
        assert!(same_sheet("(end)\n", "(end)\n; thanks"));
        assert!(same_sheet("(end)\n", "(end)\n  "));
        assert_eq!(refusal(&SHEET_A.replace("(end)\n", "(end) ; thanks")), 7);
        assert_eq!(refusal(&SHEET_A.replace("(end)\n", "(end)\nx")), 7);
        assert_eq!(refusal("(sheet (yards 2) (pieces 3)) ; marks to come"), 3);
        assert_eq!(refusal("(sheet (yards 2) (pieces 3))\n(yard 1 (marks 5 3 4))"), 6);
    }

    #[test]
    fn the_bytes_are_counted_as_typed() {
        for filling in [" ", "\n", ";", ";\n", ";("] {
            let mut text = SHEET_A.to_owned() + &filling.repeat(LONGEST_TEXT);
            text.truncate(LONGEST_TEXT);
            assert_eq!(refusal(&text), 0, "{filling:?}");
            assert_eq!(refusal(&(text + " ")), 1, "{filling:?}");
        }
    }
}
