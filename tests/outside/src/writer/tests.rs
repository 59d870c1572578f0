//! Wrong writers, each of which the comparison must find.

use super::{every_length, Harness, Writer};
use crate::damage::renumbered;
use crate::harness::{filled, Entry};
use crate::limits::LONGEST_TEXT;
use crate::parts;
use crate::spelling::strict_spelling;
use crate::strict::strict;
use crate::typed;
use crate::widths::rows_met;

/// Writes as the library should.
fn right(text: &[u8], buffer: &mut [u8], length: &mut usize) -> u8 {
    filled(strict(text), buffer, length)
}

fn passes(entry: Entry) -> bool {
    let mut harness = Harness::<Writer>::new(entry);
    (0..typed::KINDS.len()).all(|kind| parts::typed(&mut harness, kind, 100).is_ok())
        && every_length(&mut harness).is_ok()
        && parts::samples(&mut harness).is_ok()
}

#[test]
fn a_right_writer_passes() {
    assert!(passes(&right));
}

#[test]
fn typed_texts_have_wide_marks() {
    let mut harness = Harness::<Writer>::new(&right);
    assert!(parts::samples(&mut harness).is_ok());
    assert!(rows_met(&harness.solver.kinds).is_err());
    assert!(every_length(&mut harness).is_ok());
    assert!(parts::typed(&mut harness, 0, 300).is_ok());
    assert_eq!(rows_met(&harness.solver.kinds), Ok(()));
}

/// Each byte of the text, with whether it stands in a remark, as other bytes.
fn bytewise(text: &[u8], other: fn(u8, bool) -> Vec<u8>) -> Vec<u8> {
    let mut in_remark = false;
    let mut made = Vec::new();
    for byte in text {
        in_remark = *byte != b'\n' && (in_remark || *byte == b';');
        made.extend(other(*byte, in_remark));
    }
    made
}

/// Each line of the text, with its line feed if it has one, as other bytes.
fn linewise(text: &[u8], other: fn(&[u8]) -> Vec<u8>) -> Vec<u8> {
    text.split_inclusive(|byte| *byte == b'\n').flat_map(other).collect()
}

fn is_blank(line: &[u8]) -> bool {
    strict_spelling(line).is_empty()
}

/// The line up to its first semicolon, and from there on.
fn at_semicolon(line: &[u8]) -> (&[u8], &[u8]) {
    line.split_at(line.iter().position(|byte| *byte == b';').unwrap_or(line.len()))
}

/// The text with each of these bytes replaced.
fn replaced(text: &[u8], old: u8, new: u8) -> Vec<u8> {
    text.iter().map(|byte| if *byte == old { new } else { *byte }).collect()
}

fn word_after_semicolon_only(line: &[u8]) -> Vec<u8> {
    let (kept, remark) = at_semicolon(line);
    let end = remark.iter().position(|byte| b" ()\n".contains(byte)).unwrap_or(remark.len());
    [kept, &remark[end..]].concat()
}

fn remark_only_after_a_space(line: &[u8]) -> Vec<u8> {
    let (kept, remark) = at_semicolon(line);
    match kept.last() {
        None | Some(b' ') => line.to_vec(),
        _ => [kept, &replaced(remark, b';', b'x')].concat(),
    }
}

/// The text without the spaces that stand between such bytes; a line feed for the text's ends.
fn spaces_lost(text: &[u8], lost: fn(u8, u8) -> bool) -> Vec<u8> {
    let byte = |k: usize| text.get(k).copied().unwrap_or(b'\n');
    let before = |k: usize| k.checked_sub(1).map_or(b'\n', byte);
    let kept = |k: &usize| text[*k] != b' ' || !lost(before(*k), byte(k + 1));
    (0..text.len()).filter(kept).map(byte).collect()
}

/// A line feed behind every outermost bracketed group and nowhere else.
fn layout_by_brackets(text: &[u8]) -> Vec<u8> {
    let (mut depth, mut made) = (0, Vec::new());
    for byte in replaced(&strict_spelling(text), b'\n', b' ') {
        depth += i32::from(byte == b'(') - i32::from(byte == b')');
        made.push(byte);
        if byte == b')' && depth == 0 {
            made.push(b'\n');
        }
    }
    made
}

type Misread = (&'static str, fn(&[u8]) -> Vec<u8>);

/// What a wrong reader takes a text for.
const MISREAD: [Misread; 20] = [
    ("the line feed goes with a remark", |text| {
        linewise(text, |line| at_semicolon(line).0.to_vec())
    }),
    ("a semicolon ends a word only", |text| linewise(text, word_after_semicolon_only)),
    ("a semicolon is a byte of a word", |text| replaced(text, b';', b'x')),
    ("a remark needs a space before it", |text| linewise(text, remark_only_after_a_space)),
    ("a remark ends at a carriage return", |text| {
        bytewise(text, |byte, remark| vec![if remark && byte == b'\r' { b'\n' } else { byte }])
    }),
    ("a remark ends at a closing bracket", |text| {
        bytewise(text, |byte, remark| match byte {
            b')' if remark => b")\n".to_vec(),
            _ => vec![byte],
        })
    }),
    ("a blank line is kept", |text| {
        linewise(text, |line| if is_blank(line) { b"x\n".to_vec() } else { line.to_vec() })
    }),
    ("an unended blank line is kept", |text| {
        linewise(text, |line| match line.ends_with(b"\n") || !is_blank(line) {
            true => line.to_vec(),
            false => b"x".to_vec(),
        })
    }),
    ("an unended line with a token is accepted", |text| [text, b"\n"].concat()),
    ("a tab is a space", |text| replaced(text, b'\t', b' ')),
    ("a carriage return is a space", |text| replaced(text, b'\r', b' ')),
    ("a line feed is a space", layout_by_brackets),
    ("a number goes on behind a space", |text| {
        spaces_lost(text, |before, behind| before.is_ascii_digit() && behind.is_ascii_digit())
    }),
    ("two spaces part no words", |text| {
        spaces_lost(text, |before, behind| before == b' ' || behind == b' ')
    }),
    ("a space at a line's beginning is not dropped", |text| {
        linewise(text, |line| [if line[0] == b' ' { &b"x"[..] } else { b"" }, line].concat())
    }),
    ("a mark is cut off to 16 bits", |text| {
        renumbered(text, |mark| if mark <= TEN_DIGITS { mark & 0xffff } else { mark })
    }),
    ("a mark is cut off to 32 bits", |text| {
        renumbered(text, |mark| if mark <= TEN_DIGITS { mark & 0xffff_ffff } else { mark })
    }),
    ("a mark above 65,535 is too great", |text| {
        renumbered(text, |mark| if mark > 65_535 { mark.max(TEN_DIGITS) } else { mark })
    }),
    ("a mark of six digits is too long", |text| {
        renumbered(text, |mark| if mark > 99_999 { TEN_DIGITS + 1 } else { mark })
    }),
    ("a mark of eleven digits is not too long", |text| {
        renumbered(text, |mark| if mark / 10 <= TEN_DIGITS { mark.min(TEN_DIGITS) } else { mark })
    }),
];

/// The greatest number of ten digits.
const TEN_DIGITS: u64 = 9_999_999_999;

/// A text is misread only where that leaves refusals 1 and 2 as they are.
#[test]
fn misread_texts_are_found() {
    for (name, taken_for) in MISREAD {
        let wrong = |text: &[u8], buffer: &mut [u8], length: &mut usize| {
            let taken = taken_for(text);
            let counted = |text: &[u8]| (1..=LONGEST_TEXT).contains(&text.len());
            match counted(text) && counted(&taken) {
                true => right(&taken, buffer, length),
                false => right(text, buffer, length),
            }
        };
        assert!(!passes(&wrong), "{name}");
    }
}

#[test]
fn bytes_counted_after_dropping_are_found() {
    let counted = |text: &[u8], buffer: &mut [u8], length: &mut usize| match text.len() {
        0..=LONGEST_TEXT => right(text, buffer, length),
        _ => right(&strict_spelling(text), buffer, length),
    };
    assert!(!passes(&counted));
    let none = |text: &[u8], buffer: &mut [u8], length: &mut usize| match is_blank(text) {
        true => 2,
        false => right(text, buffer, length),
    };
    assert!(!passes(&none));
}

/// What a wrong writer does with buffer and length behind a right answer, and what it answers then.
type Miswritten = (&'static str, fn(u8, &mut [u8], &mut usize) -> u8);

fn set_byte(buffer: &mut [u8], place: usize) {
    buffer.iter_mut().skip(place).take(1).for_each(|byte| *byte = b' ');
}

const MISWRITTEN: [Miswritten; 9] = [
    ("a byte behind the text changed", |number, buffer, length| {
        set_byte(buffer, if number == 0 { *length } else { buffer.len() });
        number
    }),
    ("a buffer just long enough refused", |number, buffer, length| match number {
        0 if buffer.len() == *length => 10,
        _ => number,
    }),
    ("a buffer one byte longer than the text refused", |number, buffer, length| match number {
        0 if buffer.len() == *length + 1 => 10,
        _ => number,
    }),
    ("a buffer of seven bytes written to", |number, buffer, _| {
        set_byte(buffer, if buffer.len() == 7 { 0 } else { buffer.len() });
        number
    }),
    ("a buffer too short written to", |number, buffer, _| {
        set_byte(buffer, if number == 10 { 0 } else { buffer.len() });
        number
    }),
    ("a byte written on a refusal of layout", |number, buffer, _| {
        set_byte(buffer, if number == 7 { buffer.len() - 1 } else { buffer.len() });
        number
    }),
    ("a length stored on a refusal", |number, _, length| {
        *length = if number == 10 { 0 } else { *length };
        number
    }),
    ("a length one short", |number, _, length| {
        *length -= usize::from(number == 0);
        number
    }),
    ("one yard in every head", |number, buffer, _| {
        if number == 0 {
            buffer["(sheet (yards ".len()] = b'1';
        }
        number
    }),
];

#[test]
fn miswritten_texts_are_found() {
    for (name, then) in MISWRITTEN {
        let wrong = |text: &[u8], buffer: &mut [u8], length: &mut usize| {
            let number = right(text, buffer, length);
            then(number, buffer, length)
        };
        assert!(!passes(&wrong), "{name}");
    }
}

#[test]
fn a_buffer_one_short_that_is_written_to_is_found() {
    let wrong = |text: &[u8], buffer: &mut [u8], length: &mut usize| match strict(text) {
        Ok(written) if written.len() == buffer.len() + 1 => {
            buffer.copy_from_slice(&written[..buffer.len()]);
            10
        }
        _ => right(text, buffer, length),
    };
    assert!(!passes(&wrong));
}
