//! A table with the counts in use, its maximin shares, and what an exact division of it is.

use crate::cut::{Row, ALL_ITEMS, MOST_ITEMS};
use crate::division::{worth, Table, MOST_AGENTS};
use crate::share_first;

/// A table of which the first rows and the first places of each row are in use.
#[derive(Clone, Debug)]
pub struct Instance {
    pub table: Table,
    pub agents: usize,
    pub items: usize,
}

/// A set of items for each agent, 0 after the last: bit k stands for item k.
pub type Bundles = [u16; MOST_AGENTS];

impl Instance {
    /// The set of all items in use.
    pub fn all_items(&self) -> u16 {
        ALL_ITEMS >> (MOST_ITEMS - self.items)
    }

    /// The rows in use.
    pub fn rows(&self) -> &[Row] {
        &self.table[..self.agents]
    }

    /// The maximin share of each agent, cut in the library's way.
    pub fn shares(&self) -> Vec<u64> {
        let share = |row: &Row| share_first::cut(&row[..self.items], self.agents).share;
        self.rows().iter().map(share).collect()
    }

    /// Whether each item in use is in one bundle, and each bundle worth its agent's share.
    pub fn is_exact(&self, shares: &[u64], bundles: &Bundles) -> bool {
        let (held, others) = bundles.split_at(self.agents);
        let each_once = (0..u16::BITS).all(|item| {
            let holders = held.iter().filter(|bundle| *bundle >> item & 1 == 1).count();
            holders == usize::from(self.all_items() >> item & 1)
        });
        let reached = |agent: usize| worth(&self.table[agent], bundles[agent]) >= shares[agent];
        each_once && others.iter().all(|bundle| *bundle == 0) && (0..self.agents).all(reached)
    }
}

#[cfg(test)]
mod tests {
    use super::Instance;
    use crate::division::MOST_AGENTS;

    /// Two agents, three items; the places not in use would alter every share.
    fn instance() -> Instance {
        let mut table = [[9; 12]; MOST_AGENTS];
        table[0][..3].copy_from_slice(&[5, 3, 4]);
        table[1][..3].copy_from_slice(&[6, 2, 2]);
        Instance { table, agents: 2, items: 3 }
    }

    #[test]
    fn shares_are_of_the_items_in_use() {
        assert_eq!(instance().shares(), [5, 4]);
    }

    #[test]
    fn an_exact_division_is_told_from_others() {
        let judge = |bundles| instance().is_exact(&[5, 4], &bundles);
        assert!(judge([0b110, 0b001, 0, 0, 0, 0]));
        assert!(judge([0b001, 0b110, 0, 0, 0, 0]));
        assert!(!judge([0b010, 0b101, 0, 0, 0, 0]), "agent 1 below its share");
        assert!(!judge([0b101, 0b010, 0, 0, 0, 0]), "agent 2 below its share");
        assert!(!judge([0b100, 0b001, 0, 0, 0, 0]), "an item left over");
        assert!(!judge([0b111, 0b001, 0, 0, 0, 0]), "an item twice");
        assert!(!judge([0b1110, 0b001, 0, 0, 0, 0]), "an item not in use");
        assert!(!judge([0b010, 0b001, 0b100, 0, 0, 0]), "an agent not in use");
    }
}
