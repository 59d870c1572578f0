//! Boxes that show a text's exact division in a wrong way.

use super::{right, sheets};
use crate::exact::line::{printed, Shown};
use crate::exact::texts::Judge;
use crate::harness::{filled, Buffers, Entry, Harness};
use crate::parts;
use crate::reader::{read, Sheet};
use crate::strict::strict_text;

/// The line for a text, or the refusal's number.
fn right_line(text: &[u8]) -> Result<Vec<u8>, u8> {
    Ok(printed(&right(&read(text)?)))
}

fn right_box(text: &[u8], buffer: &mut [u8], length: &mut usize) -> u8 {
    filled(right_line(text), buffer, length)
}

/// Samples with several buffers, and one in so many of the sheets with every length of buffer.
fn passes(entry: Entry) -> bool {
    let mut harness = Harness::with(entry, Judge::new(entry));
    let mut sheets = sheets().step_by(15);
    parts::samples(&mut harness).is_ok()
        && sheets.all(|sheet| harness.check(&strict_text(&sheet), Buffers::Every).is_ok())
}

#[test]
fn a_right_box_passes() {
    assert!(passes(&right_box));
}

/// What a box prints for what it should show.
type Misprint = (&'static str, fn(&Sheet, Shown) -> String);

fn as_text(shown: &Shown) -> String {
    String::from_utf8_lossy(&printed(shown)).into_owned()
}

/// The line with every such part replaced.
fn replaced(shown: Shown, old: &str, new: &str) -> String {
    as_text(&shown).replace(old, new)
}

/// The line of other piles.
fn of_other_piles(shown: Shown, other: impl Fn(Vec<Vec<usize>>) -> Vec<Vec<usize>>) -> String {
    as_text(&shown.map(other))
}

const MISPRINTS: [Misprint; 19] = [
    ("no line feed", |_, shown| replaced(shown, "\n", "")),
    ("two line feeds", |_, shown| replaced(shown, "\n", "\n\n")),
    ("a carriage return", |_, shown| replaced(shown, "\n", "\r\n")),
    ("a space behind the line", |_, shown| replaced(shown, "\n", " \n")),
    ("an end line", |_, shown| replaced(shown, "\n", "\n(end)\n")),
    ("none in brackets", |_, shown| replaced(shown, "none", "(none)")),
    ("none with a capital letter", |_, shown| replaced(shown, "none", "None")),
    ("none without its word", |_, shown| replaced(shown, " none", "")),
    ("none as empty piles", |sheet, shown| {
        replaced(shown, "none", &vec!["()"; sheet.yards].join(" "))
    }),
    ("an empty pile left out", |_, shown| replaced(shown, " ()", "")),
    ("a space in an empty pile", |_, shown| replaced(shown, "()", "( )")),
    ("no space between piles", |_, shown| replaced(shown, ") (", ")(")),
    ("two digits in every number", |_, shown| replaced(shown, "(1 ", "(01 ")),
    ("the word pile", |_, shown| replaced(shown, " (", " (pile ")),
    ("pieces falling", |_, shown| {
        of_other_piles(shown, |piles| {
            piles.into_iter().map(|pile| pile.into_iter().rev().collect()).collect()
        })
    }),
    ("pieces from 2", |_, shown| {
        of_other_piles(shown, |piles| {
            piles
                .into_iter()
                .map(|pile| pile.into_iter().map(|piece| piece + 1).collect())
                .collect()
        })
    }),
    ("an empty pile for a seventh yard", |_, shown| {
        of_other_piles(shown, |piles| [piles, vec![Vec::new()]].concat())
    }),
    ("a piece twice in a pile", |_, shown| {
        of_other_piles(shown, |mut piles| {
            let last = piles[0].last().copied();
            piles[0].extend(last);
            piles
        })
    }),
    ("none for all", |_, _| as_text(&None)),
];

#[test]
fn misprints_are_found() {
    for (name, misprint) in MISPRINTS {
        let entry = |text: &[u8], buffer: &mut [u8], length: &mut usize| {
            let line = read(text).map(|sheet| misprint(&sheet, right(&sheet)).into_bytes());
            filled(line, buffer, length)
        };
        assert!(!passes(&entry), "{name}");
    }
}

/// What a box does with buffer and length behind a right answer, and what it answers then.
type Misdeed = (&'static str, fn(u8, &mut [u8], &mut usize) -> u8);

fn set_byte(buffer: &mut [u8], place: usize) {
    buffer.iter_mut().skip(place).take(1).for_each(|byte| *byte = b' ');
}

const MISDEEDS: [Misdeed; 12] = [
    ("a byte behind the line changed", |number, buffer, length| {
        set_byte(buffer, if number == 0 { *length } else { buffer.len() });
        number
    }),
    ("a buffer just long enough refused", |number, buffer, length| match number {
        0 if buffer.len() == *length => 10,
        _ => number,
    }),
    ("a buffer one byte longer than the line refused", |number, buffer, length| match number {
        0 if buffer.len() == *length + 1 => 10,
        _ => number,
    }),
    ("a buffer too short written to", |number, buffer, _| {
        set_byte(buffer, if number == 10 { 0 } else { buffer.len() });
        number
    }),
    ("a byte written on a refusal of layout", |number, buffer, _| {
        set_byte(buffer, if number == 6 { buffer.len() - 1 } else { buffer.len() });
        number
    }),
    ("a length stored on refusal 10", |number, _, length| {
        *length = if number == 10 { 0 } else { *length };
        number
    }),
    ("a length stored on refusal 4", |number, _, length| {
        *length = if number == 4 { 0 } else { *length };
        number
    }),
    ("a length one short", |number, _, length| {
        *length -= usize::from(number == 0);
        number
    }),
    ("a length beyond every buffer", |number, _, length| {
        *length = if number == 0 { usize::MAX } else { *length };
        number
    }),
    ("8 as 6", |number, _, _| if number == 8 { 6 } else { number }),
    ("10 as 9", |number, _, _| if number == 10 { 9 } else { number }),
    ("an accepted text refused", |number, _, _| if number == 0 { 9 } else { number }),
];

#[test]
fn misdeeds_are_found() {
    for (name, then) in MISDEEDS {
        let entry = |text: &[u8], buffer: &mut [u8], length: &mut usize| {
            let number = right_box(text, buffer, length);
            then(number, buffer, length)
        };
        assert!(!passes(&entry), "{name}");
    }
}

#[test]
fn a_buffer_one_short_that_is_written_to_is_found() {
    let entry = |text: &[u8], buffer: &mut [u8], length: &mut usize| match right_line(text) {
        Ok(line) if line.len() == buffer.len() + 1 => {
            buffer.copy_from_slice(&line[..buffer.len()]);
            10
        }
        _ => right_box(text, buffer, length),
    };
    assert!(!passes(&entry));
}

/// A refused text is not judged, so a line for it must be found otherwise.
#[test]
fn a_refused_text_that_is_accepted_is_found() {
    for refusal in [1, 2, 4, 5, 6, 8] {
        let entry = |text: &[u8], buffer: &mut [u8], length: &mut usize| match right_line(text) {
            Err(number) if number == refusal => filled(Ok(printed(&None)), buffer, length),
            line => filled(line, buffer, length),
        };
        assert!(!passes(&entry), "{refusal}");
    }
}

/// Which division is shown is left free, but not once for each buffer.
#[test]
fn another_division_in_a_short_buffer_is_found() {
    let entry = |text: &[u8], buffer: &mut [u8], length: &mut usize| {
        let equal_rows =
            read(text).is_ok_and(|sheet| sheet.marks.iter().all(|row| *row == sheet.marks[0]));
        let other = |shown: Shown| match equal_rows && buffer.len() < 100 {
            true => shown.map(|piles| piles.into_iter().rev().collect()),
            false => shown,
        };
        let line = read(text).map(|sheet| printed(&other(right(&sheet))));
        filled(line, buffer, length)
    };
    assert!(!passes(&entry));
}
