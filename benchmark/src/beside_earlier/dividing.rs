//! The table of divisions.

use super::compare;
use crate::division::Table;
use crate::families::{tables, FAMILIES};
use crate::placed::{EARLIER, TODAY};

/// Tables of each family.
const TABLES: usize = 20;

pub fn print_table() {
    println!(
        "\nDividing six yards and twelve pieces: microseconds per table, mean over {TABLES} tables\n"
    );
    println!("| marks | earlier | today | today / earlier |");
    println!("|---|---|---|---|");
    for (name, rule) in FAMILIES {
        let by_earlier = |place, table: &Table| EARLIER.divide(place, table);
        let by_today = |place, table: &Table| TODAY.divide(place, table);
        println!("| {name} | {} |", compare(&tables(rule)[..TABLES], &by_earlier, &by_today));
    }
}
