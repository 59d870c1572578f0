//! The library's entries over their C boundary.

use crate::boundary;
use crate::cut::{Estimate, Mark, Row};
#[cfg(feature = "division")]
use crate::division::{Division, Table};
#[cfg(feature = "exact")]
use crate::exact::{Bundles, Instance};

#[link(name = "cut_c", kind = "static")]
extern "C" {
    fn cut_row(
        marks: *const Mark,
        set: u16,
        bundles: usize,
        allowance: u32,
        figure: *mut u64,
        partition: *mut u8,
        count: *mut u32,
    ) -> u8;
}

/// Cuts all twelve pieces.
pub fn estimate(row: &Row, bundles: usize, allowance: u32) -> Estimate {
    // SAFETY: the entry cuts a row of twelve marks.
    unsafe { boundary::estimate(cut_row, row, bundles, allowance) }
}

#[cfg(feature = "division")]
#[link(name = "division_c", kind = "static")]
extern "C" {
    fn divide_table(
        marks: *const Mark,
        agents: usize,
        items: usize,
        allowance: u32,
        grade: *mut u8,
        bundles: *mut u16,
        cutters: *mut u8,
    ) -> u8;
}

/// Divides a full table.
#[cfg(feature = "division")]
pub fn divide(table: &Table) -> Division {
    // SAFETY: the entry divides a table of 72 marks.
    unsafe { boundary::divide(divide_table, table) }
}

#[cfg(feature = "exact")]
#[link(name = "exact_c", kind = "static")]
extern "C" {
    fn exact_table(
        marks: *const Mark,
        agents: usize,
        items: usize,
        found: *mut u8,
        bundles: *mut u16,
    ) -> u8;
}

/// Searches a table for an exact division.
#[cfg(feature = "exact")]
pub fn search(instance: &Instance) -> Option<Bundles> {
    // SAFETY: the entry searches a table of 72 marks.
    unsafe { boundary::search(exact_table, instance) }
}
