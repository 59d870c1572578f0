//! The library's search with state that changes in place: agent after agent, the most that the agent can keep
//! of each set of items, found item by item, and so whether the agents up to it can be served from the set.

use super::{Bundles, Instance};
use crate::cut::{Mark, MOST_ITEMS};
use crate::division::{worth, MOST_AGENTS};

const SETS: usize = 1 << MOST_ITEMS;

/// Added where those before can be served from what is left to them: above the value of every set.
const SERVED: u64 = 1 << 40;

struct Search {
    /// The most, over the parts of the set, of the present agent's value of the rest, with `SERVED` more
    /// where those before can be served from the part.
    kept: [u64; SETS],
    /// How many of the first agents can be served from the set.
    levels: [u8; SETS],
}

pub fn search(instance: &Instance) -> Option<Bundles> {
    let shares = instance.shares();
    let mut search = Search { kept: [0; SETS], levels: [0; SETS] };
    for (before, row) in instance.rows().iter().enumerate() {
        search.pass(&row[..instance.items], shares[before], before as u8);
    }
    let level = search.levels[usize::from(instance.all_items())];
    let exists = usize::from(level) == instance.agents;
    exists.then(|| search.read_off(instance, &shares))
}

impl Search {
    /// The sets of the items with these marks from which an agent and those before can be served.
    fn pass(&mut self, marks: &[Mark], share: u64, before: u8) {
        let sets = 1 << marks.len();
        let (kept, levels) = (&mut self.kept[..sets], &mut self.levels[..sets]);
        for (kept, level) in kept.iter_mut().zip(levels.iter()) {
            *kept = if *level >= before { SERVED } else { 0 };
        }
        for (item, mark) in marks.iter().enumerate() {
            keep_item(kept, 1 << item, u64::from(*mark));
        }
        for (level, kept) in levels.iter_mut().zip(kept.iter()) {
            if SERVED + share <= *kept {
                *level = before + 1;
            }
        }
    }

    /// From the last agent down, each leaves to those before the first part from which they can be served
    /// and without which it has its share.
    fn read_off(&self, instance: &Instance, shares: &[u64]) -> Bundles {
        let mut bundles = [0; MOST_AGENTS];
        let mut left = instance.all_items();
        for agent in (1..instance.agents).rev() {
            let part = parts(left)
                .find(|part| {
                    usize::from(self.levels[usize::from(*part)]) >= agent
                        && worth(&instance.table[agent], left - part) >= shares[agent]
                })
                .expect("those before can be served from some part");
            bundles[agent] = left - part;
            left = part;
        }
        bundles[0] = left;
        bundles
    }
}

/// One item more may be kept: in a block the second half have the item, the first half are these without it.
fn keep_item(kept: &mut [u64], bit: usize, mark: u64) {
    for block in kept.chunks_exact_mut(2 * bit) {
        let (without, with) = block.split_at_mut(bit);
        for (with, without) in with.iter_mut().zip(without) {
            *with = (*with).max(*without + mark);
        }
    }
}

/// The parts of a set, rising as numbers.
fn parts(set: u16) -> impl Iterator<Item = u16> {
    let next = move |part: &u16| (*part != set).then(|| part.wrapping_sub(set) & set);
    std::iter::successors(Some(0), next)
}

#[cfg(test)]
mod tests {
    use super::{keep_item, parts};

    #[test]
    fn most_is_kept_over_all_parts() {
        let marks = [5, 3, 4];
        let start = [0, 20, 0, 0, 22, 0, 24, 26];
        let value =
            |set: u16| (0..3).map(|item| marks[item] * u64::from(set >> item & 1)).sum::<u64>();
        let most = |set| parts(set).map(|part| start[usize::from(part)] + value(set - part)).max();
        let mut kept = start;
        for (item, mark) in marks.into_iter().enumerate() {
            keep_item(&mut kept, 1 << item, mark);
        }
        assert_eq!(kept.map(Some), std::array::from_fn(|set| most(set as u16)));
    }

    #[test]
    fn parts_rise() {
        assert_eq!(parts(0b1010).collect::<Vec<u16>>(), [0, 0b10, 0b1000, 0b1010]);
        assert_eq!(parts(0).collect::<Vec<u16>>(), [0]);
    }
}
