//! The entries of today's library and of an earlier one, which has the same, each linked at four places. The
//! same code takes up to a fifth more time when it begins at another number of bytes after a multiple of 64,
//! and a linker leaves that number to chance. So both libraries are timed at 0, 16, 32 and 48, and the mean
//! counts.

use crate::boundary::{self, CutRow, DivideTable, ShareOut, WriteText, Written};
use crate::cut::{Cut, Mark, Row, GREATEST_ALLOWANCE};
use crate::division::{Division, Table};

pub const PLACES: usize = 4;

/// Each entry of a library at the four places.
pub struct Library {
    cut_row: [CutRow; PLACES],
    divide_table: [DivideTable; PLACES],
    shareout_text: [ShareOut; PLACES],
    strict_text: [WriteText; PLACES],
}

/// An entry at the four places, by the prefix of its name, its name and the types of what it is given.
macro_rules! placed {
    ($prefix:literal $entry:literal ($($given:ty),*)) => {{
        extern "C" {
            #[link_name = concat!($prefix, $entry, "_at_0")]
            fn at_0($(_: $given),*) -> u8;
            #[link_name = concat!($prefix, $entry, "_at_16")]
            fn at_16($(_: $given),*) -> u8;
            #[link_name = concat!($prefix, $entry, "_at_32")]
            fn at_32($(_: $given),*) -> u8;
            #[link_name = concat!($prefix, $entry, "_at_48")]
            fn at_48($(_: $given),*) -> u8;
        }
        [at_0, at_16, at_32, at_48]
    }};
}

/// A library, by the prefix of its entries' names.
macro_rules! library {
    ($prefix:literal) => {
        Library {
            cut_row: placed!($prefix "cut_row"
                (*const Mark, u16, usize, u32, *mut u64, *mut u8, *mut u32)),
            divide_table: placed!($prefix "divide_table"
                (*const Mark, usize, usize, u32, *mut u8, *mut u16, *mut u8)),
            shareout_text: placed!($prefix "shareout_text"
                (*const u8, usize, u32, *mut u8, usize, *mut usize)),
            strict_text: placed!($prefix "strict_text"
                (*const u8, usize, *mut u8, usize, *mut usize)),
        }
    };
}

pub const TODAY: Library = library!("");
pub const EARLIER: Library = library!("earlier_");

impl Library {
    /// Cuts all twelve pieces.
    pub fn cut(&self, place: usize, row: &Row, bundles: usize) -> Cut {
        // SAFETY: the entry cuts a row of twelve marks.
        unsafe { boundary::estimate(self.cut_row[place], row, bundles, GREATEST_ALLOWANCE) }.best
    }

    /// Divides a full table.
    pub fn divide(&self, place: usize, table: &Table) -> Division {
        // SAFETY: the entry divides a table of 72 marks.
        unsafe { boundary::divide(self.divide_table[place], table) }
    }

    /// Prints the division of the sheet that a text holds.
    pub fn share_out(&self, place: usize, text: &str, buffer: &mut [u8]) -> Written {
        // SAFETY: the entry reads a text and fills a lent buffer.
        unsafe { boundary::share_out(self.shareout_text[place], text, buffer) }
    }

    /// Writes the strict text of the sheet that a text holds.
    pub fn write_strict(&self, place: usize, text: &str, buffer: &mut [u8]) -> Written {
        // SAFETY: the entry reads a text and fills a lent buffer.
        unsafe { boundary::write(self.strict_text[place], text, buffer) }
    }
}
