//! Calls an entry that divides a table.

use crate::cut::{Mark, GREATEST_ALLOWANCE};
use crate::division::{Division, Table, MOST_AGENTS};

/// 72 marks row by row, the counts and the allowance; writes the grade, each yard's pile as a set of pieces
/// and the cutters from 1. Answers 0 or the refusal's number.
pub type DivideTable =
    unsafe extern "C" fn(*const Mark, usize, usize, u32, *mut u8, *mut u16, *mut u8) -> u8;

/// Divides a full table.
///
/// # Safety
/// The entry is as `DivideTable` says.
pub unsafe fn divide(entry: DivideTable, table: &Table) -> Division {
    // The places of the cutters after the last round stay 0.
    let mut division = Division { grade: 0, bundles: [0; MOST_AGENTS], cutters: [0; MOST_AGENTS] };
    let Division { grade, bundles, cutters } = &mut division;
    let (agents, items) = (table.len(), table[0].len());
    let (bundles, cutters) = (bundles.as_mut_ptr(), cutters.as_mut_ptr());
    // SAFETY: the pointers are those of 72 marks in a row, one grade, six sets and six places.
    let refusal = unsafe {
        let marks = table.as_flattened().as_ptr();
        entry(marks, agents, items, GREATEST_ALLOWANCE, grade, bundles, cutters)
    };
    assert_eq!(refusal, 0, "the library refuses {table:?}");
    division
}
