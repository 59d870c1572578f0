//! Calls an entry that searches a table for an exact division.

use crate::cut::Mark;
use crate::division::MOST_AGENTS;
use crate::exact::{Bundles, Instance};

/// 72 marks row by row and the counts; writes whether there is an exact division and each yard's pile as a
/// set of pieces, zeros where there is none. Answers 0 or the refusal's number.
pub type ExactTable = unsafe extern "C" fn(*const Mark, usize, usize, *mut u8, *mut u16) -> u8;

/// Searches the yards and pieces in use.
///
/// # Safety
/// The entry is as `ExactTable` says.
pub unsafe fn search(entry: ExactTable, instance: &Instance) -> Option<Bundles> {
    let Instance { table, agents, items } = instance;
    // What the entry leaves alone is neither an answer nor a set.
    let mut found = u8::MAX;
    let mut bundles = [u16::MAX; MOST_AGENTS];
    // SAFETY: the pointers are those of 72 marks in a row, one answer and six sets.
    let refusal = unsafe {
        let marks = table.as_flattened().as_ptr();
        entry(marks, *agents, *items, &mut found, bundles.as_mut_ptr())
    };
    assert_eq!(refusal, 0, "the library refuses {instance:?}");
    match found {
        0 => {
            assert_eq!(bundles, [0; MOST_AGENTS], "the library says none: {instance:?}");
            None
        }
        1 => Some(bundles),
        _ => panic!("the library answers {found}: {instance:?}"),
    }
}
