//! Calls the entry that cuts one row.

use crate::cut::{Cut, Estimate, Mark, Row, ALL_ITEMS, MOST_ITEMS};

/// Twelve marks, the set of pieces (bit k - 1 for piece k), the number of piles and the allowance; writes
/// the share or the best least pile, for each piece of the set in rising order its pile from 1, and the
/// count of growth layouts. Answers 0, `STOPPED`, or the refusal's number.
pub type CutRow =
    unsafe extern "C" fn(*const Mark, u16, usize, u32, *mut u64, *mut u8, *mut u32) -> u8;

const STOPPED: u8 = 255;

/// Cuts all twelve pieces.
///
/// # Safety
/// The entry is as `CutRow` says.
pub unsafe fn estimate(entry: CutRow, row: &Row, bundles: usize, allowance: u32) -> Estimate {
    let mut best = Cut { share: 0, layout: [0; MOST_ITEMS] };
    let mut count = 0;
    let (marks, layout) = (row.as_ptr(), best.layout.as_mut_ptr());
    // SAFETY: the pointers are those of twelve marks, one share, twelve places and one count.
    let answer =
        unsafe { entry(marks, ALL_ITEMS, bundles, allowance, &mut best.share, layout, &mut count) };
    let accepted = [0, STOPPED].contains(&answer);
    assert!(accepted, "the library refuses {row:?} in {bundles} piles with {allowance}");
    Estimate { stopped: answer == STOPPED, best, count }
}
