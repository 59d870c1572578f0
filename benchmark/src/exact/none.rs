//! Tables without an exact division: the three players of document 000, section 2, tables built as theirs
//! are, and three agents with nine items.

use super::groups::Group;
use super::{by_sets, Instance};
use crate::cut::{Mark, Row, MOST_ITEMS};
use crate::division::MOST_AGENTS;
use crate::families::ROWS;
use crate::generator::Generator;

const PLAYERS: usize = 3;

/// "the oscillation Matrix", row by row.
const OSCILLATION: [i64; MOST_ITEMS] = [17, 25, 12, 1, 2, 22, 3, 28, 11, 0, 21, 23];

/// "three epsilon matrices", row by row.
const EPSILON: [[i64; MOST_ITEMS]; PLAYERS] = [
    [3, -1, -1, -1, 0, 0, 0, 0, 0, 0, 0, 0],
    [3, -1, 0, 0, -1, 0, 0, 0, -1, 0, 0, 0],
    [3, 0, -1, 0, 0, 0, -1, 0, 0, 0, 0, -1],
];

/// Nine items are enough for three agents.
const NINE_ITEMS: [[Mark; 9]; PLAYERS] = [
    [1, 16, 23, 26, 4, 10, 12, 19, 9],
    [1, 16, 22, 26, 4, 9, 13, 20, 9],
    [1, 15, 23, 25, 4, 10, 13, 20, 9],
];

/// What the base, the oscillation and the epsilon matrix are multiplied by before they are added.
struct Weights {
    base: i64,
    oscillation: i64,
    epsilon: i64,
}

impl Weights {
    /// "10^6 · B + 10^3 · O + E"
    const OF_SECTION_2: Weights = Weights { base: 1_000_000, oscillation: 1_000, epsilon: 1 };

    /// Others for which the proof of section 2 holds: three items are worth less than the share, and so are
    /// four whose oscillations add up to less than 55.
    fn generate(generator: &mut Generator) -> Weights {
        let epsilon = 1 + i64::from(generator.mark() % 1_000);
        let oscillation = 4 * epsilon + i64::from(generator.mark());
        let base = 22 * oscillation + i64::from(generator.mark() << 15);
        Weights { base, oscillation, epsilon }
    }

    /// The marks of a player.
    fn row(&self, player: usize) -> Row {
        std::array::from_fn(|item| {
            let [oscillation, epsilon] = [OSCILLATION[item], EPSILON[player][item]];
            let mark = self.base + self.oscillation * oscillation + self.epsilon * epsilon;
            Mark::try_from(mark).expect("the mark has 32 bits")
        })
    }
}

pub fn groups() -> Vec<Group> {
    let three_players = instance(players(&Weights::OF_SECTION_2));
    let nine_items = instance(NINE_ITEMS);
    vec![
        group("three players, in other orders", |generator| reordered(&three_players, generator)),
        group("three players, with other weights", reweighted),
        group("three players, with marks altered", altered),
        group("nine pieces, in other orders", |generator| reordered(&nine_items, generator)),
    ]
}

/// The first tables made that have no exact division.
fn group(name: &'static str, mut make: impl FnMut(&mut Generator) -> Instance) -> Group {
    let mut generator = Generator::new(0);
    let made = std::iter::repeat_with(|| make(&mut generator));
    let none = made.filter(|instance| by_sets::search(instance).is_none());
    Group { name, instances: none.take(ROWS).collect() }
}

/// The marks of the three players.
fn players(weights: &Weights) -> [Row; PLAYERS] {
    std::array::from_fn(|player| weights.row(player))
}

fn instance<const ITEMS: usize>(rows: [[Mark; ITEMS]; PLAYERS]) -> Instance {
    let mut table = [[0; MOST_ITEMS]; MOST_AGENTS];
    for (place, row) in table.iter_mut().zip(rows) {
        place[..ITEMS].copy_from_slice(&row);
    }
    Instance { table, agents: PLAYERS, items: ITEMS }
}

/// The table with its agents and its items in another order.
fn reordered(instance: &Instance, generator: &mut Generator) -> Instance {
    let agents = order(instance.agents, generator);
    let items = order(instance.items, generator);
    let mut reordered = instance.clone();
    for (agent, from) in agents.iter().enumerate() {
        for (item, of) in items.iter().enumerate() {
            reordered.table[agent][item] = instance.table[*from][*of];
        }
    }
    reordered
}

/// The numbers below `count` in some order.
fn order(count: usize, generator: &mut Generator) -> Vec<usize> {
    let mut order: Vec<usize> = (0..count).collect();
    for place in (1..count).rev() {
        order.swap(place, generator.mark() as usize % (place + 1));
    }
    order
}

/// Each player with weights of its own.
fn reweighted(generator: &mut Generator) -> Instance {
    instance(std::array::from_fn(|player| Weights::generate(generator).row(player)))
}

/// A little added to each mark; many of these tables have an exact division.
fn altered(generator: &mut Generator) -> Instance {
    let rows = players(&Weights { epsilon: 16, ..Weights::OF_SECTION_2 });
    instance(rows.map(|row| row.map(|mark| mark + generator.mark() % 16)))
}

#[cfg(test)]
mod tests {
    use super::{groups, players, Weights};
    use crate::cut::Mark;
    use crate::exact::backtracking::{search, Answer};

    #[test]
    fn the_three_players_are_those_of_the_sample_sheet() {
        let sample = include_str!("../../../samples/three_players.sheet");
        let marks = |line: &str| -> Vec<Mark> {
            let numbers = line.split(|c: char| !c.is_ascii_digit()).filter(|word| !word.is_empty());
            numbers.skip(1).map(|number| number.parse().expect("a mark")).collect()
        };
        let lines = sample.lines().filter(|line| line.starts_with("(yard "));
        let rows: Vec<Vec<Mark>> = lines.map(marks).collect();
        assert_eq!(rows, players(&Weights::OF_SECTION_2));
    }

    #[test]
    fn backtracking_finds_no_exact_division_either() {
        for group in groups() {
            for instance in &group.instances {
                assert_eq!(search(instance), Answer::None, "{}: {instance:?}", group.name);
            }
        }
    }
}
