//! Times the library's search for an exact division, the same search in Rust and plain backtracking, side by
//! side, in Markdown tables. The run fails if two of them answer differently, or if one shows a division in
//! which a piece is not in one pile or a pile is worth less than its yard's share.

mod backtracking;
mod by_sets;
mod groups;
mod instance;
mod none;
mod overview;
mod times;

use backtracking::MOST_NODES;
use groups::Group;
pub use instance::{Bundles, Instance};
use times::Times;

pub fn print_tables() {
    println!("\nSearching for an exact division: microseconds per table, backtracking stopped after {MOST_NODES} nodes");
    let mut times = print_lines("Rows of a family", groups::of_families());
    times.extend(print_lines("Equal rows", groups::of_equal_rows()));
    times.extend(print_lines("No exact division", none::groups()));
    overview::print_table(&times);
}

/// One line for each group.
fn print_lines(title: &str, groups: Vec<Group>) -> Vec<Times> {
    println!("\n{title}\n");
    println!("{}", times::HEAD);
    let line = |group| {
        let times = Times::of(group);
        println!("{times}");
        times
    };
    groups.into_iter().map(line).collect()
}

#[cfg(test)]
mod tests {
    use super::backtracking::{self, Answer};
    use super::{by_sets, groups};

    #[test]
    fn both_searches_in_rust_find_exact_divisions() {
        let groups = groups::of_families().into_iter().chain(groups::of_equal_rows());
        for group in groups.filter(|group| group.size().0 == 3) {
            for instance in &group.instances {
                let shares = instance.shares();
                let by_sets = by_sets::search(instance).expect("there is an exact division");
                let Answer::Found(bundles) = backtracking::search(instance) else {
                    panic!("backtracking finds no exact division: {instance:?}");
                };
                assert!(instance.is_exact(&shares, &by_sets), "{by_sets:?}: {instance:?}");
                assert!(instance.is_exact(&shares, &bundles), "{bundles:?}: {instance:?}");
            }
        }
    }
}
