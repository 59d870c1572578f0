//! The table of cuts.

use super::compare;
use crate::cut::{Row, MOST_BUNDLES};
use crate::families::{rows, FAMILIES, ROWS};
use crate::placed::{EARLIER, TODAY};

pub fn print_table() {
    println!("\nCutting twelve pieces: microseconds per row, mean over {ROWS} rows\n");
    println!("| marks | piles | earlier | today | today / earlier |");
    println!("|---|---|---|---|---|");
    for (name, rule) in FAMILIES {
        print_lines(name, &rows(rule));
    }
}

/// One line for each number of piles.
fn print_lines(name: &str, rows: &[Row]) {
    for bundles in 1..=MOST_BUNDLES {
        let by_earlier = |place, row: &Row| EARLIER.cut(place, row, bundles);
        let by_today = |place, row: &Row| TODAY.cut(place, row, bundles);
        println!("| {name} | {bundles} | {} |", compare(rows, &by_earlier, &by_today));
    }
}
