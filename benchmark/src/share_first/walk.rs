//! A walk over growth layouts in dictionary order, depth first, between a goal and a ceiling. The goal is
//! one more than the best so far; a branch in which no layout reaches it is left, and takes the number of
//! its growth layouts from the allowance.

use crate::cut::{Mark, MOST_BUNDLES, MOST_ITEMS};
use crate::growth::Counts;
use crate::reach::is_out_of_reach;

pub struct Walk<'a> {
    marks: &'a [Mark],
    bundles: usize,
    counts: &'a Counts,
    pub allowance: u32,
    /// By item the greatest mark from it on, or 1 where that is 0.
    greatest: [u64; MOST_ITEMS],
    loads: [u64; MOST_BUNDLES],
    layout: [u8; MOST_ITEMS],
    ceiling: u64,
    pub goal: u64,
    /// The layout that raised the goal last.
    pub best: [u8; MOST_ITEMS],
}

impl<'a> Walk<'a> {
    pub fn over(marks: &'a [Mark], bundles: usize, counts: &'a Counts, allowance: u32) -> Walk<'a> {
        Walk {
            marks,
            bundles,
            counts,
            allowance,
            greatest: greatest_from_each(marks),
            loads: [0; MOST_BUNDLES],
            layout: [0; MOST_ITEMS],
            ceiling: 0,
            goal: 0,
            best: [0; MOST_ITEMS],
        }
    }

    /// Looks for layouts that reach the goal, which rises with each, until it is above the ceiling.
    pub fn find(&mut self, goal: u64, ceiling: u64) {
        self.goal = goal;
        self.ceiling = ceiling;
        self.lay(0, 0);
    }

    /// Lays the items from this one on, when this many bundles are in use.
    fn lay(&mut self, item: usize, used: usize) {
        if self.allowance == 0 {
            return;
        }
        let Some(mark) = self.marks.get(item).copied().map(u64::from) else {
            return self.look();
        };
        if self.can_be_left(item) {
            return self.pass_over(item, used);
        }
        for bundle in 0..self.bundles.min(used + 1) {
            let used_then = used.max(bundle + 1);
            // The first bundle can have the item instead, and this one still reaches the goal.
            if bundle > 0 && bundle < used && self.goal <= self.loads[bundle] {
                self.pass_over(item + 1, used_then);
                continue;
            }
            self.layout[item] = bundle as u8 + 1;
            self.loads[bundle] += mark;
            self.lay(item + 1, used_then);
            self.loads[bundle] -= mark;
        }
    }

    fn look(&mut self) {
        self.allowance -= 1;
        let share = *self.loads().iter().min().expect("there is a bundle");
        if self.goal <= share {
            self.goal = share + 1;
            self.best = self.layout;
        }
    }

    /// Takes the layouts of the items from this one on from the allowance.
    fn pass_over(&mut self, item: usize, used: usize) {
        let passed = self.counts[self.marks.len() - item][used];
        self.allowance = self.allowance.saturating_sub(passed);
    }

    /// Whether the goal is above the ceiling, or no layout of the items from this one on reaches it.
    fn can_be_left(&self, item: usize) -> bool {
        self.ceiling < self.goal
            || self.items_are_too_few(item)
            || is_out_of_reach(self.goal, self.loads(), &self.marks[item..])
    }

    /// Whether the bundles would need more items than are left if each had the greatest mark.
    fn items_are_too_few(&self, item: usize) -> bool {
        let needed = |load: &u64| self.goal.saturating_sub(*load).div_ceil(self.greatest[item]);
        let left = self.marks.len() - item;
        self.loads().iter().map(needed).sum::<u64>() > left as u64
    }

    fn loads(&self) -> &[u64] {
        &self.loads[..self.bundles]
    }
}

fn greatest_from_each(marks: &[Mark]) -> [u64; MOST_ITEMS] {
    let mut greatest = [1; MOST_ITEMS];
    let mut so_far = 1;
    for (place, mark) in greatest.iter_mut().zip(marks).rev() {
        so_far = so_far.max(u64::from(*mark));
        *place = so_far;
    }
    greatest
}
