//! Plain backtracking: item after item to each agent, leaving a branch only where the marks still to be
//! given cannot lift some agent to its share. It stops after so many nodes.

use super::{Bundles, Instance};
use crate::cut::MOST_ITEMS;
use crate::division::MOST_AGENTS;

pub const MOST_NODES: usize = 20_000_000;

#[derive(Debug, PartialEq)]
pub enum Answer {
    None,
    Found(Bundles),
    Stopped,
}

struct Walk<'a> {
    instance: &'a Instance,
    shares: Vec<u64>,
    /// The sum of an agent's marks from an item on.
    to_come: [[u64; MOST_ITEMS + 1]; MOST_AGENTS],
    loads: [u64; MOST_AGENTS],
    bundles: Bundles,
    nodes: usize,
}

pub fn search(instance: &Instance) -> Answer {
    let mut walk = Walk {
        instance,
        shares: instance.shares(),
        to_come: sums_to_come(instance),
        loads: [0; MOST_AGENTS],
        bundles: [0; MOST_AGENTS],
        nodes: 0,
    };
    match walk.give(0) {
        Some(true) => Answer::Found(walk.bundles),
        Some(false) => Answer::None,
        None => Answer::Stopped,
    }
}

fn sums_to_come(instance: &Instance) -> [[u64; MOST_ITEMS + 1]; MOST_AGENTS] {
    let mut sums = [[0; MOST_ITEMS + 1]; MOST_AGENTS];
    for (sums, row) in sums.iter_mut().zip(instance.rows()) {
        for item in (0..instance.items).rev() {
            sums[item] = sums[item + 1] + u64::from(row[item]);
        }
    }
    sums
}

impl Walk<'_> {
    /// Gives the items from this one on; whether each agent got its share, nothing where it stops.
    fn give(&mut self, item: usize) -> Option<bool> {
        self.nodes += 1;
        if self.nodes > MOST_NODES {
            return None;
        }
        if (0..self.instance.agents).any(|agent| self.is_out_of_reach(agent, item)) {
            return Some(false);
        }
        if item == self.instance.items {
            return Some(true);
        }
        for agent in 0..self.instance.agents {
            let mark = u64::from(self.instance.table[agent][item]);
            self.loads[agent] += mark;
            self.bundles[agent] |= 1 << item;
            if self.give(item + 1)? {
                return Some(true);
            }
            self.loads[agent] -= mark;
            self.bundles[agent] ^= 1 << item;
        }
        Some(false)
    }

    fn is_out_of_reach(&self, agent: usize, item: usize) -> bool {
        self.loads[agent] + self.to_come[agent][item] < self.shares[agent]
    }
}
