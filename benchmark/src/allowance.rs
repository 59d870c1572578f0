//! The table of cuts that an allowance stops: how long they take, and how much of the share they reach.

use crate::cut::{Estimate, Row, GREATEST_ALLOWANCE, MOST_BUNDLES, MOST_ITEMS};
use crate::families::{rows, FAMILIES, ROWS};
use crate::growth::number;
use crate::timing::{time, Timed};
use crate::{library, plain, pruned};

/// As the table names them; the last one stops no cut.
const ALLOWANCES: [(&str, u32); 4] =
    [("1", 1), ("100", 100), ("10,000", 10_000), ("full", GREATEST_ALLOWANCE)];

pub fn print_table() {
    println!(
        "\nCutting twelve pieces with an allowance: microseconds per row, mean over {ROWS} rows;"
    );
    println!(
        "and the best least pile divided by the share, mean over the rows with a share above 0\n"
    );
    let [stopped @ .., full] = ALLOWANCES.map(|(name, _)| name);
    let times = stopped.map(|name| format!("allowance {name}")).join(" | ");
    let parts = stopped.map(|name| format!("part at {name}")).join(" | ");
    println!("| marks | piles | growth layouts | {times} | {full} | rows | {parts} |");
    println!("|---|---|---|---|---|{}", "---|".repeat(2 * stopped.len()));
    for (name, rule) in FAMILIES {
        for bundles in 2..=MOST_BUNDLES {
            print_line(name, &rows(rule), bundles);
        }
    }
}

fn print_line(name: &str, rows: &[Row], bundles: usize) {
    let cuts = ALLOWANCES
        .map(|(_, allowance)| move |row: &Row| library::estimate(row, bundles, allowance));
    let timed = time(rows, &cuts.each_ref().map(|cut| cut as &dyn Fn(&Row) -> Estimate));
    check(rows, bundles, &timed);
    let times: Vec<String> = timed.iter().map(|timed| format!("{:.2}", timed.mean())).collect();
    let layouts = number(MOST_ITEMS, bundles);
    let (counted, parts) = parts_reached(&timed);
    println!("| {name} | {bundles} | {layouts} | {} | {counted} | {parts} |", times.join(" | "));
}

/// Stopped cuts must be as the plain walk has them, full ones as the pruned walk has them.
fn check(rows: &[Row], bundles: usize, timed: &[Timed<Estimate>]) {
    for ((_, allowance), timed) in ALLOWANCES.into_iter().zip(timed) {
        for (row, answer) in rows.iter().zip(&timed.answers) {
            let due = match allowance {
                GREATEST_ALLOWANCE => pruned::estimate(row, bundles, allowance),
                _ => plain::estimate(row, bundles, allowance),
            };
            assert_eq!(*answer, due, "{row:?} in {bundles} piles with {allowance}");
        }
    }
}

/// The number of rows with a share above 0, and for each allowance that may stop a cut the part of the
/// share that is reached.
fn parts_reached(timed: &[Timed<Estimate>]) -> (usize, String) {
    let [stopped @ .., full] = timed else {
        panic!("there is an allowance");
    };
    let shares: Vec<u64> = full.answers.iter().map(|answer| answer.best.share).collect();
    let counted = shares.iter().filter(|share| **share > 0).count();
    let part = |timed: &Timed<Estimate>| {
        let reached = timed.answers.iter().zip(&shares).filter(|(_, share)| **share > 0);
        let parts = reached.map(|(answer, share)| answer.best.share as f64 / *share as f64);
        format!("{:.3}", parts.sum::<f64>() / counted as f64)
    };
    (counted, stopped.iter().map(part).collect::<Vec<String>>().join(" | "))
}
