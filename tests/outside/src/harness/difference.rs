//! Shows a difference between what was due and what came.

use super::{unprinted_byte, Answer, MARGIN};

/// Line feeds are kept, other bytes outside ASCII text are written as escapes.
fn shown(bytes: &[u8]) -> String {
    bytes.escape_ascii().to_string().replace("\\n", "\n")
}

/// The bytes up to the last one that is not as it was before the call.
fn written(memory: &[u8]) -> &[u8] {
    let as_before = |place: &usize| memory[*place] == unprinted_byte(*place);
    let end = (0..memory.len()).rev().find(|place| !as_before(place)).map_or(0, |last| last + 1);
    &memory[MARGIN.min(end)..end]
}

pub fn difference(text: &[u8], lent: usize, due: &Answer, came: &Answer) -> String {
    let other = (0..due.memory.len()).find(|place| due.memory[*place] != came.memory[*place]);
    let place = other.map_or("none".to_owned(), |place| (place as i64 - MARGIN as i64).to_string());
    format!(
        "a difference\n--- text of {} bytes\n{}\n--- lent buffer of {lent} bytes\n\
         --- answer due {}, came {}\n--- length due {}, came {}\n\
         --- first other byte of the buffer: {place}\n\
         --- bytes due\n{}\n--- bytes that came\n{}",
        text.len(),
        shown(text),
        due.number,
        came.number,
        due.length,
        came.length,
        shown(written(&due.memory)),
        shown(written(&came.memory)),
    )
}
