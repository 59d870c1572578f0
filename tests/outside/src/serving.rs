//! Who waits, and who is served with what (document 01, "Rounds"). Both are found over sets of
//! bundles.

use std::collections::{BTreeMap, BTreeSet};

use crate::sets::members;

/// For each agent the set of the bundles that suit it.
pub type Suitable = BTreeMap<usize, usize>;

/// All largest sets of agents "for which at most as many piles suit some yard of the set as the set
/// has yards", in dictionary order. The agents that no bundle outside a set of bundles suits may
/// wait if they are as many as the set has bundles, and each largest set arises in this way.
pub fn largest_waiting_sets(others: &Suitable, bundles: usize) -> Vec<Vec<usize>> {
    let mut sets = BTreeSet::new();
    for set in 0..1usize << bundles {
        let within = others.iter().filter(|(_, suitable)| *suitable & !set == 0);
        let agents: Vec<usize> = within.map(|(agent, _)| *agent).collect();
        if set.count_ones() as usize <= agents.len() {
            sets.insert(agents);
        }
    }
    let largest = sets.iter().map(Vec::len).max().expect("the empty set may wait");
    sets.into_iter().filter(|agents| agents.len() == largest).collect()
}

/// "each gets one pile that suits it, no pile twice": the first in dictionary order of the bundles
/// of the served agents. Agent by agent, the first serving is kept for each set of bundles used.
pub fn first_serving(served: &Suitable, free: usize) -> Option<Vec<usize>> {
    let mut servings = BTreeMap::from([(0, Vec::new())]);
    for suitable in served.values() {
        let mut longer: BTreeMap<usize, Vec<usize>> = BTreeMap::new();
        for (used, serving) in servings {
            for bundle in members(suitable & free & !used) {
                let next = [&serving[..], &[bundle]].concat();
                let first = longer.entry(used | 1 << bundle).or_insert_with(|| next.clone());
                *first = next.min(first.clone());
            }
        }
        servings = longer;
    }
    servings.into_values().min()
}

#[cfg(test)]
mod tests {
    use super::{first_serving, largest_waiting_sets, Suitable};
    use crate::generator::Generator;
    use crate::sets::members;

    /// All sets of agents, larger ones first, those of one size in dictionary order.
    fn waiting_by_definition(others: &Suitable) -> Vec<Vec<usize>> {
        let agents: Vec<usize> = others.keys().copied().collect();
        let chosen = |set: usize| members(set).map(|place| agents[place]).collect();
        let mut sets: Vec<Vec<usize>> = (0..1 << agents.len()).map(chosen).collect();
        sets.retain(|set| {
            let suiting = set.iter().fold(0, |union, agent| union | others[agent]);
            suiting.count_ones() as usize <= set.len()
        });
        sets.sort_by(|a, b| b.len().cmp(&a.len()).then(a.cmp(b)));
        let largest = sets[0].len();
        sets.into_iter().take_while(|set| set.len() == largest).collect()
    }

    /// All lists of bundles in dictionary order.
    fn serving_by_definition(served: &Suitable, free: usize, bundles: usize) -> Option<Vec<usize>> {
        let places = served.len() as u32;
        let list = |number: usize| {
            let entries = (0..places).rev().map(|place| number / bundles.pow(place) % bundles);
            entries.collect::<Vec<usize>>()
        };
        let serves = |list: &Vec<usize>| {
            let mut suited = list.iter().zip(served.values());
            let distinct = (1..list.len()).all(|place| !list[..place].contains(&list[place]));
            distinct && suited.all(|(bundle, suitable)| (suitable & free) >> bundle & 1 == 1)
        };
        (0..bundles.pow(places)).map(list).find(serves)
    }

    /// Agents 1, 3, 5 .. with up to two, or any number of bundles that suit them.
    fn random(generator: &mut Generator, agents: usize, bundles: usize) -> Suitable {
        let few = generator.below(2) == 0;
        let mut suitable = |agent| {
            let set = match few {
                true => {
                    (0..generator.index(3)).fold(0, |set, _| set | 1 << generator.index(bundles))
                }
                false => generator.index(1 << bundles),
            };
            (2 * agent + 1, set)
        };
        (0..agents).map(&mut suitable).collect()
    }

    #[test]
    fn waiting_sets_equal_the_definition() {
        let mut generator = Generator::new(3);
        let mut tied = 0;
        for round in 0..60_000 {
            let others = random(&mut generator, round % 6, 1 + round % 6);
            let sets = largest_waiting_sets(&others, 1 + round % 6);
            assert_eq!(sets, waiting_by_definition(&others), "{others:?}");
            tied += usize::from(sets.len() > 1);
        }
        assert!(tied > 100, "{tied}");
    }

    #[test]
    fn servings_equal_the_definition() {
        let mut generator = Generator::new(4);
        let mut found = 0;
        for round in 0..3_000 {
            let (agents, bundles) = (1 + round / 6 % 5, 1 + round % 6);
            let served = random(&mut generator, agents, bundles);
            let free = generator.index(1 << bundles) | generator.index(1 << bundles);
            let serving = first_serving(&served, free);
            assert_eq!(serving, serving_by_definition(&served, free, bundles), "{served:?}");
            found += usize::from(serving.is_some());
        }
        assert!((300..2_700).contains(&found), "{found}");
    }

    #[test]
    fn the_first_suitable_bundle_is_not_always_taken() {
        let served = Suitable::from([(0, 0b011), (1, 0b001), (2, 0b110)]);
        assert_eq!(first_serving(&served, 0b111), Some(vec![1, 0, 2]));
    }
}
