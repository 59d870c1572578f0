//! The library's cut in Rust: first the share, by a walk over the marks sorted falling, and then the first
//! layout that reaches it, by a walk in the given order. Where there are more growth layouts than the
//! allowance, one walk in the given order finds the best. One bundle has one layout, and needs no walk.

mod walk;

use std::cmp::Reverse;

use crate::cut::{Cut, Estimate, Mark, GREATEST_ALLOWANCE, MOST_BUNDLES, MOST_ITEMS};
use crate::growth::{counts, Counts};
use walk::Walk;

/// The maximin share, and the first layout that reaches it.
#[cfg(feature = "division")]
pub fn cut(marks: &[Mark], bundles: usize) -> Cut {
    estimate(marks, bundles, GREATEST_ALLOWANCE).best
}

/// The allowance is above 0.
pub fn estimate(marks: &[Mark], bundles: usize, allowance: u32) -> Estimate {
    if bundles == 1 {
        return in_one(marks);
    }
    let counts = counts(marks.len(), bundles);
    let number = counts[marks.len()][0];
    let mut walk = Walk::over(marks, bundles, &counts, allowance);
    if allowance < number {
        walk.find(0, mean(marks, bundles));
    } else {
        let share = share(marks, bundles, &counts);
        walk.find(share, share);
    }
    Estimate {
        stopped: allowance < number,
        best: Cut { share: walk.goal - 1, layout: walk.best },
        count: allowance - walk.allowance,
    }
}

/// All items in one bundle.
fn in_one(marks: &[Mark]) -> Estimate {
    let mut layout = [0; MOST_ITEMS];
    layout[..marks.len()].fill(1);
    Estimate { stopped: false, best: Cut { share: mean(marks, 1), layout }, count: 1 }
}

/// The maximin share, which is at least the least bundle of the deal and at most the mean.
fn share(marks: &[Mark], bundles: usize, counts: &Counts) -> u64 {
    let mut sorted = [0; MOST_ITEMS];
    let sorted = &mut sorted[..marks.len()];
    sorted.copy_from_slice(marks);
    sorted.sort_unstable_by_key(|mark| Reverse(*mark));
    let mut walk = Walk::over(sorted, bundles, counts, GREATEST_ALLOWANCE);
    walk.find(least_dealt(sorted, bundles) + 1, mean(sorted, bundles));
    walk.goal - 1
}

/// The least bundle after each mark in turn went to the least.
fn least_dealt(marks: &[Mark], bundles: usize) -> u64 {
    let mut loads = [0; MOST_BUNDLES];
    let loads = &mut loads[..bundles];
    for mark in marks {
        *loads.iter_mut().min().expect("there is a bundle") += u64::from(*mark);
    }
    *loads.iter().min().expect("there is a bundle")
}

/// What each bundle would have of equal ones, rounded down.
fn mean(marks: &[Mark], bundles: usize) -> u64 {
    marks.iter().copied().map(u64::from).sum::<u64>() / bundles as u64
}

#[cfg(test)]
mod tests {
    use crate::cut::{GREATEST_ALLOWANCE, MOST_BUNDLES, MOST_ITEMS};
    use crate::families::{rows, FAMILIES};
    use crate::growth::allowances;
    use crate::{plain, pruned, share_first};

    #[test]
    fn it_agrees_with_the_plain_walk() {
        for (name, rule) in FAMILIES {
            for row in rows(rule) {
                for bundles in 1..=3 {
                    for allowance in allowances(row.len(), bundles) {
                        let answer = share_first::estimate(&row, bundles, allowance);
                        let plain = plain::estimate(&row, bundles, allowance);
                        assert_eq!(answer, plain, "{name}: {row:?}, {bundles} piles, {allowance}");
                    }
                }
            }
        }
    }

    #[test]
    fn full_cuts_of_any_number_of_items_agree_with_the_pruned_walk() {
        for (name, rule) in FAMILIES {
            for row in rows(rule) {
                for marks in (0..=MOST_ITEMS).map(|items| &row[..items]) {
                    for bundles in 1..=MOST_BUNDLES {
                        let answer = share_first::estimate(marks, bundles, GREATEST_ALLOWANCE);
                        let pruned = pruned::estimate(marks, bundles, GREATEST_ALLOWANCE);
                        assert_eq!(answer, pruned, "{name}: {marks:?}, {bundles} piles");
                    }
                }
            }
        }
    }
}
