//! Runs the library's division, by its C boundary, against the solver; ends with 1 on the first
//! difference, or if a kind of division was never met.
//! `SHAREOUT_LIB_DIR=folder cargo run --release --features divisions --bin compare_divisions`

use std::process::ExitCode;

use outside::divisions::{run, Given, Places};
use outside::limits::Mark;
use outside::verdict::verdict;

#[link(name = "division_c", kind = "static")]
extern "C" {
    /// 72 marks row by row, the counts and the allowance; writes the grade, each yard's pile as a set of
    /// pieces and the cutters from 1. Answers 0 or the refusal's number.
    fn divide_table(
        marks: *const Mark,
        agents: usize,
        items: usize,
        allowance: u32,
        grade: *mut u8,
        bundles: *mut u16,
        cutters: *mut u8,
    ) -> u8;
}

fn library(given: &Given, places: &mut Places) -> u8 {
    let Given { table, yards, pieces, allowance } = given;
    let marks = table.as_flattened().as_ptr();
    let grade = &mut places.grade;
    let (piles, cutters) = (places.piles.as_mut_ptr(), places.cutters.as_mut_ptr());
    // SAFETY: the pointers are those of 72 marks in a row, one grade, six sets and six places.
    unsafe { divide_table(marks, *yards, *pieces, *allowance, grade, piles, cutters) }
}

fn main() -> ExitCode {
    verdict(run(&library))
}
