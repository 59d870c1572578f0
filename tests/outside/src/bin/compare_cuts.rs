//! Runs the library's cut, by its C boundary, against the solver; ends with 1 on the first difference.
//! `SHAREOUT_LIB_DIR=folder cargo run --release --features cuts --bin compare_cuts`

use std::process::ExitCode;

use outside::cuts::{run, Given, Places};
use outside::limits::Mark;
use outside::verdict::verdict;

#[link(name = "cut_c", kind = "static")]
extern "C" {
    /// Twelve marks, the set of pieces (bit k - 1 for piece k), the number of piles and the allowance;
    /// writes the share or the best least pile, for each piece of the set in rising order its pile from 1,
    /// and the count of growth layouts. Answers 0, 255 where it was stopped, or the refusal's number.
    fn cut_row(
        marks: *const Mark,
        set: u16,
        bundles: usize,
        allowance: u32,
        figure: *mut u64,
        partition: *mut u8,
        count: *mut u32,
    ) -> u8;
}

fn library(given: &Given, places: &mut Places) -> u8 {
    let Given { row, set, piles, allowance } = given;
    let Places { figure, partition, count } = places;
    // SAFETY: the pointers are those of twelve marks, one figure, twelve places and one count.
    unsafe {
        cut_row(row.as_ptr(), *set, *piles, *allowance, figure, partition.as_mut_ptr(), count)
    }
}

fn main() -> ExitCode {
    verdict(run(&library))
}
