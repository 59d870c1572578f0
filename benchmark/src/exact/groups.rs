//! Groups of tables with the same counts: the rows of a family, and a row of a family for every agent.

use super::Instance;
use crate::cut::MOST_ITEMS;
use crate::division::{Table, MOST_AGENTS};
use crate::families::{rows, tables, Rule, FAMILIES};

/// Tables of one size that are timed together.
pub struct Group {
    pub name: &'static str,
    pub instances: Vec<Instance>,
}

impl Group {
    /// The number of agents and of items.
    pub fn size(&self) -> (usize, usize) {
        (self.instances[0].agents, self.instances[0].items)
    }
}

/// The numbers of agents that are timed.
const AGENTS: [usize; 3] = [MOST_AGENTS, 4, 3];

/// The families whose tables are searched: the first eight.
fn families() -> &'static [(&'static str, Rule)] {
    &FAMILIES[..8]
}

/// The tables of each family.
pub fn of_families() -> Vec<Group> {
    families().iter().flat_map(|(name, rule)| with_each_count(name, &tables(*rule))).collect()
}

/// For each row of each family the table whose rows are all that row.
pub fn of_equal_rows() -> Vec<Group> {
    let equal = |rule| rows(rule).into_iter().map(|row| [row; MOST_AGENTS]).collect::<Vec<Table>>();
    families().iter().flat_map(|(name, rule)| with_each_count(name, &equal(*rule))).collect()
}

/// The same tables with each number of agents; the rows after the last agent are not in use.
fn with_each_count(name: &'static str, tables: &[Table]) -> Vec<Group> {
    let of = |agents| move |table: &Table| Instance { table: *table, agents, items: MOST_ITEMS };
    let group = |agents| Group { name, instances: tables.iter().map(of(agents)).collect() };
    AGENTS.into_iter().map(group).collect()
}
