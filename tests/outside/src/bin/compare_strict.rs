//! Runs the library's writer of strict texts, by its C boundary, against the one of this package; ends
//! with 1 on the first difference, or if a kind of text was never met.
//! `SHAREOUT_LIB_DIR=folder cargo run --release --features strict --bin compare_strict`

use std::process::ExitCode;

use outside::verdict::verdict;

#[link(name = "strict_c", kind = "static")]
extern "C" {
    /// Writes the strict text of the sheet into the buffer. Answers 0 and stores the length written, or
    /// answers the refusal's number and stores nothing.
    fn strict_text(
        text: *const u8,
        text_len: usize,
        buffer: *mut u8,
        buffer_len: usize,
        length: *mut usize,
    ) -> u8;
}

fn library(text: &[u8], buffer: &mut [u8], length: &mut usize) -> u8 {
    // SAFETY: the pointers are those of two slices, with the slices' lengths, and of one length.
    unsafe { strict_text(text.as_ptr(), text.len(), buffer.as_mut_ptr(), buffer.len(), length) }
}

fn main() -> ExitCode {
    verdict(outside::writer::run(&library))
}
