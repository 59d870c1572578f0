//! The limits that document 01 states as belonging to the sheet, the mark's as order 3 moved it.

/// "The limits of 1 to 6 yards and 1 to 12 pieces"
pub const MOST_YARDS: usize = 6;
pub const MOST_PIECES: usize = 12;

/// "A mark may go up to 4,294,967,295, in one to ten digits"
pub const GREATEST_MARK: u64 = 4_294_967_295;
pub const MARK_DIGITS: usize = 10;

/// Before order 3: "A mark is a whole number from 0 to 65,535."
pub const GREATEST_MARK_BEFORE: u64 = 65_535;

/// A mark as it is handed to the library.
pub type Mark = u32;

pub fn handed_over(mark: u64) -> Mark {
    Mark::try_from(mark).expect("no mark is above the limit")
}

/// "The text is longer than 4,096 bytes."
pub const LONGEST_TEXT: usize = 4_096;

/// Counts to hand over: all of 8 bits, and wider ones, some in range but for their upper bits.
pub fn counts_to_try() -> impl Iterator<Item = usize> {
    let wider = [256, 258, 65_536 + 2, (1 << 32) + 3, (1 << 63) + 1, usize::MAX];
    (0..=u8::MAX as usize).chain(wider)
}
