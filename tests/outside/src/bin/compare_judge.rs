//! Runs the library's judgements of other people's divisions, by their C boundary, against the solver; ends
//! with 1 on the first difference, or if a kind of text or answer was never met.
//! `SHAREOUT_LIB_DIR=folder cargo run --release --features judge --bin compare_judge`

use std::process::ExitCode;

use outside::verdict::verdict;

#[link(name = "judge_c", kind = "static")]
extern "C" {
    /// Prints the judgement of the division behind the sheet into the buffer. Answers 0 and stores the length
    /// printed, or answers the refusal's number and stores nothing.
    fn judge_text(
        text: *const u8,
        text_len: usize,
        buffer: *mut u8,
        buffer_len: usize,
        length: *mut usize,
    ) -> u8;
}

fn library(text: &[u8], buffer: &mut [u8], length: &mut usize) -> u8 {
    // SAFETY: the pointers are those of two slices, with the slices' lengths, and of one length.
    unsafe { judge_text(text.as_ptr(), text.len(), buffer.as_mut_ptr(), buffer.len(), length) }
}

fn main() -> ExitCode {
    verdict(outside::judging::run(&library))
}
