//! The pruned walk, which the library had before, as a yardstick: growth layouts in dictionary order, depth
//! first, leaving a branch as soon as the items still to lay cannot bring every bundle to the goal, one more
//! than the best so far. A branch that is left takes the number of its growth layouts from the allowance.

use crate::cut::{Cut, Estimate, Mark, MOST_BUNDLES, MOST_ITEMS};
use crate::growth::{counts, Counts};
use crate::reach::is_out_of_reach;

struct Walk<'a> {
    marks: &'a [Mark],
    bundles: usize,
    counts: Counts,
    allowance: u32,
    loads: [u64; MOST_BUNDLES],
    layout: [u8; MOST_ITEMS],
    /// 0 before the first layout.
    goal: u64,
    best: [u8; MOST_ITEMS],
}

/// The allowance is above 0.
pub fn estimate(marks: &[Mark], bundles: usize, allowance: u32) -> Estimate {
    let mut walk = Walk {
        marks,
        bundles,
        counts: counts(marks.len(), bundles),
        allowance,
        loads: [0; MOST_BUNDLES],
        layout: [0; MOST_ITEMS],
        goal: 0,
        best: [0; MOST_ITEMS],
    };
    walk.lay(0, 0);
    Estimate {
        stopped: walk.counts[marks.len()][0] > allowance,
        best: Cut { share: walk.goal - 1, layout: walk.best },
        count: allowance - walk.allowance,
    }
}

impl Walk<'_> {
    /// Lays the items from this one on, when this many bundles are in use.
    fn lay(&mut self, item: usize, used: usize) {
        if self.allowance == 0 {
            return;
        }
        let Some(mark) = self.marks.get(item).copied().map(u64::from) else {
            return self.look();
        };
        if is_out_of_reach(self.goal, &self.loads[..self.bundles], &self.marks[item..]) {
            let passed = self.counts[self.marks.len() - item][used];
            self.allowance = self.allowance.saturating_sub(passed);
            return;
        }
        for bundle in 0..self.bundles.min(used + 1) {
            self.layout[item] = bundle as u8 + 1;
            self.loads[bundle] += mark;
            self.lay(item + 1, used.max(bundle + 1));
            self.loads[bundle] -= mark;
        }
    }

    fn look(&mut self) {
        self.allowance -= 1;
        let share = *self.loads[..self.bundles].iter().min().expect("there is a bundle");
        if self.goal <= share {
            self.goal = share + 1;
            self.best = self.layout;
        }
    }
}

#[cfg(test)]
mod tests {
    use crate::families::{rows, FAMILIES};
    use crate::growth::allowances;
    use crate::{plain, pruned};

    #[test]
    fn the_two_walks_agree() {
        for (name, rule) in FAMILIES {
            for row in rows(rule) {
                for bundles in 1..=3 {
                    for allowance in allowances(row.len(), bundles) {
                        let pruned = pruned::estimate(&row, bundles, allowance);
                        let plain = plain::estimate(&row, bundles, allowance);
                        assert_eq!(pruned, plain, "{name}: {row:?}, {bundles} piles, {allowance}");
                    }
                }
            }
        }
    }
}
