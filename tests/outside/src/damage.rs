//! Damaged texts: each kind alters the strict text of a sheet. Some results are sheets again, most
//! are refused; the solver decides.

mod bytes;
mod lengths;
mod lines;
mod numbers;

use crate::generator::Generator;
use crate::limits::LONGEST_TEXT;

pub use bytes::one_byte_away;
pub use numbers::numbers;
#[cfg(test)]
pub use numbers::renumbered;

type Kind = fn(&mut Generator, &[u8]) -> Vec<u8>;

pub const KINDS: [(&str, Kind); 18] = [
    ("several reasons to refuse", several_reasons),
    ("random bytes", bytes::random_bytes),
    ("text cut short", lengths::cut_short),
    ("text extended", lengths::extended),
    ("text about or above the longest", lengths::about_longest),
    ("lines swapped", lines::lines_swapped),
    ("line repeated", lines::line_repeated),
    ("line dropped", lines::line_dropped),
    ("carriage returns", lines::carriage_returns),
    ("byte deleted", bytes::byte_deleted),
    ("byte doubled", bytes::byte_doubled),
    ("byte replaced", bytes::byte_replaced),
    ("byte inserted", bytes::byte_inserted),
    ("two bytes altered", bytes::two_bytes_altered),
    ("number replaced", numbers::number_replaced),
    ("count replaced", numbers::count_replaced),
    ("two numbers replaced", numbers::two_numbers_replaced),
    ("number and byte altered", numbers::number_and_byte_altered),
];

/// A small sheet in which refusals 1 and 3 to 8 each have their reason with one chance in three, so
/// that their order shows.
pub fn several_reasons(generator: &mut Generator, _: &[u8]) -> Vec<u8> {
    let spaces = " ".repeat(LONGEST_TEXT);
    let mut either = |good, bad| if generator.below(3) == 0 { bad } else { good };
    let yards = either("2", "7");
    let pieces = either("2", "13");
    let close = either(")", "");
    let mark = either("6", "5000000000");
    let marks = either("3 4", "3 04");
    let end = either("(end)", "(End)");
    let filling = either("", &spaces);
    let head = format!("(sheet (yards {yards}) (pieces {pieces}){close}\n");
    let rows = format!("(yard 1 (marks 5 {mark}))\n(yard 2 (marks {marks}))\n");
    format!("{head}{rows}{end}\n{filling}").into_bytes()
}
