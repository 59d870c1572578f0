//! Runs the library, by its C boundary, against the solver; ends with 1 on the first difference.
//! `SHAREOUT_LIB_DIR=folder cargo run --release --features compare --bin compare`

use std::process::ExitCode;

use outside::verdict::verdict;

#[link(name = "shareout_c", kind = "static")]
extern "C" {
    /// Prints the division of the sheet into the buffer, if the allowance is enough. Answers 0 and stores
    /// the length printed, or answers the refusal's number and stores nothing.
    fn shareout_text(
        text: *const u8,
        text_len: usize,
        allowance: u32,
        buffer: *mut u8,
        buffer_len: usize,
        length: *mut usize,
    ) -> u8;
}

fn library(text: &[u8], allowance: u32, buffer: &mut [u8], length: &mut usize) -> u8 {
    let (from, to) = (text.as_ptr(), buffer.as_mut_ptr());
    // SAFETY: the pointers are those of two slices, with the slices' lengths, and of one length.
    unsafe { shareout_text(from, text.len(), allowance, to, buffer.len(), length) }
}

fn main() -> ExitCode {
    verdict(outside::run::run(&library))
}
