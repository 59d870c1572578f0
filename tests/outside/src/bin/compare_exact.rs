//! Runs the library's exact divisions of tables and of texts, by their C boundary, against the solver;
//! ends with 1 on the first difference, or if a kind of answer was never met.
//! `SHAREOUT_LIB_DIR=folder cargo run --release --features exact --bin compare_exact`

use std::process::ExitCode;

use outside::divisions::{Piles, Table};
use outside::limits::Mark;
use outside::verdict::verdict;

#[link(name = "exact_c", kind = "static")]
extern "C" {
    /// 72 marks row by row and the counts; writes 1 and each yard's pile as a set of pieces, or 0 and six
    /// empty sets where there is no exact division. Answers 0 or the refusal's number.
    fn exact_table(
        marks: *const Mark,
        agents: usize,
        items: usize,
        found: *mut u8,
        bundles: *mut u16,
    ) -> u8;

    /// Prints the exact division of the sheet, or none, into the buffer. Answers 0 and stores the length
    /// printed, or answers the refusal's number and stores nothing.
    fn exact_text(
        text: *const u8,
        text_len: usize,
        buffer: *mut u8,
        buffer_len: usize,
        length: *mut usize,
    ) -> u8;
}

fn of_table(table: &Table, yards: usize, pieces: usize, found: &mut u8, piles: &mut Piles) -> u8 {
    let marks = table.as_flattened().as_ptr();
    // SAFETY: the pointers are those of 72 marks in a row, one place and six sets.
    unsafe { exact_table(marks, yards, pieces, found, piles.as_mut_ptr()) }
}

fn of_text(text: &[u8], buffer: &mut [u8], length: &mut usize) -> u8 {
    // SAFETY: the pointers are those of two slices, with the slices' lengths, and of one length.
    unsafe { exact_text(text.as_ptr(), text.len(), buffer.as_mut_ptr(), buffer.len(), length) }
}

fn main() -> ExitCode {
    verdict(outside::exact::run(&of_table, &of_text))
}
