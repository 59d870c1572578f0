//! Texts of a table of six yards and twelve pieces: its sheet in the strict layout, the same without the
//! line `(end)`, and its printed division as Rust works it out.

use crate::cut::{ALL_ITEMS, MOST_ITEMS};
use crate::division::{bundles_of, divide, items, worth, Table, MOST_AGENTS};
use crate::share_first;

/// The sheet in the strict layout.
pub fn sheet(table: &Table) -> String {
    lines_to_the_last(table) + "(end)\n"
}

/// The sheet with another last line: refusal 7, given only after all yard lines are read.
pub fn sheet_without_end(table: &Table) -> String {
    lines_to_the_last(table) + "(and)\n"
}

fn lines_to_the_last(table: &Table) -> String {
    let mut text = format!("(sheet (yards {MOST_AGENTS}) (pieces {MOST_ITEMS}))\n");
    for (agent, row) in table.iter().enumerate() {
        text += &format!("(yard {} {})\n", agent + 1, group(Some("marks"), row.iter()));
    }
    text
}

/// The printed division.
pub fn division(table: &Table) -> String {
    let division = divide(table);
    let counts = format!("(yards {MOST_AGENTS}) (pieces {MOST_ITEMS})");
    let mut text = format!("(division {counts} (grade {}))\n", division.grade);
    for (agent, row) in table.iter().enumerate() {
        let cut = share_first::cut(row, MOST_AGENTS);
        let pile = division.bundles[agent];
        let piles = bundles_of(&cut, ALL_ITEMS, MOST_AGENTS);
        text += &format!(
            "(yard {} {} (worth {}) (share {}) {})\n",
            agent + 1,
            group(Some("pile"), pieces(pile)),
            worth(row, pile),
            cut.share,
            group(Some("cut"), piles.into_iter().map(|pile| group(None, pieces(pile)))),
        );
    }
    let cutters = division.cutters.iter().filter(|cutter| **cutter != 0);
    text + &group(Some("cutters"), cutters) + "\n(end)\n"
}

fn pieces(set: u16) -> impl Iterator<Item = usize> {
    items(set).map(|item| item + 1)
}

/// A bracketed group: its word, if it has one, and its members.
fn group(word: Option<&str>, members: impl Iterator<Item = impl ToString>) -> String {
    let members = members.map(|member| member.to_string());
    let words: Vec<String> = word.map(str::to_string).into_iter().chain(members).collect();
    format!("({})", words.join(" "))
}
