//! The strict text of a sheet, as document 01 lays it out, and order 1's writer from any text to it.

use crate::harness::{Due, Solver};
use crate::kinds::Kinds;
use crate::reader::{read, Sheet};
use crate::widths::count_row;

pub fn strict_text(sheet: &Sheet) -> Vec<u8> {
    let mut text = format!("(sheet (yards {}) (pieces {}))\n", sheet.yards, sheet.pieces);
    for (agent, row) in sheet.marks.iter().enumerate() {
        let marks: Vec<String> = row.iter().map(u64::to_string).collect();
        text += &format!("(yard {} (marks {}))\n", agent + 1, marks.join(" "));
    }
    text += "(end)\n";
    text.into_bytes()
}

/// From a text to the strict text of its sheet, or the refusal's number.
pub fn strict(text: &[u8]) -> Result<Vec<u8>, u8> {
    Ok(strict_text(&read(text)?))
}

/// The writer to hold a library's writer against, and the kinds of rows that it has met.
#[derive(Default)]
pub struct Writer {
    pub kinds: Kinds,
}

impl Solver for Writer {
    const GIVES_ITSELF: bool = true;

    /// "the strict text reads back to the sheet it came from"
    fn solve(&mut self, text: &[u8]) -> Result<Due, String> {
        let sheet = match read(text) {
            Ok(sheet) => sheet,
            Err(refusal) => return Ok(Due::Refused(refusal)),
        };
        sheet.marks.iter().for_each(|row| count_row(&mut self.kinds, row));
        let written = strict_text(&sheet);
        match read(&written) == Ok(sheet) {
            true => Ok(Due::Text(written)),
            false => Err(format!("does not read back: {}", written.escape_ascii())),
        }
    }
}

#[cfg(test)]
mod tests {
    use super::{strict, strict_text};
    use crate::families::FAMILIES;
    use crate::reader::read;
    use crate::samples::{SHEETS, TYPED};
    use crate::tables::of_family;

    #[test]
    fn every_random_table_reads_back() {
        for (family, (name, _)) in FAMILIES.iter().enumerate() {
            for sheet in of_family(family, 5) {
                assert_eq!(read(&strict_text(&sheet)), Ok(sheet), "{name}");
            }
        }
    }

    #[test]
    fn the_samples_of_document_01_are_strict() {
        for (name, text, _) in SHEETS {
            assert_eq!(strict(text.as_bytes()).as_deref(), Ok(text.as_bytes()), "{name}");
        }
    }

    #[test]
    fn the_typed_samples_are_written_as_they_say() {
        for (name, text, due) in TYPED {
            assert_eq!(strict(text.as_bytes()), due.map(|due| due.as_bytes().to_vec()), "{name}");
        }
    }
}
