//! The sample sheets of document 01, two that are even, one where two thirds for every number of yards goes
//! astray, the three players of document 000, sheets as yards type them, and the texts of sample j, read from
//! the folder `samples`.

macro_rules! sample {
    ($name:literal) => {
        include_str!(concat!("../../../samples/", $name, ".sheet"))
    };
}

pub const SHEET_A: &str = sample!("a");

/// Name, text, and the figures where they are given: shares, piles, cutters, grade. Those of a to i are
/// the document's, with the grades of order 2, and the shares of the three players are order 3's.
pub const SHEETS: [(&str, &str, &str); 13] = [
    ("a", SHEET_A, "[5, 4] [[1], [2, 3]] [1] 3"),
    ("b", sample!("b"), "[1, 6, 2] [[3], [1, 2], [4]] [1, 2] 3"),
    ("c", sample!("c"), "[1, 4, 1] [[1, 2], [3], [4]] [1] 4"),
    ("d", sample!("d"), "[1, 8, 1] [[3], [1, 2], [4]] [1, 2] 3"),
    ("e", sample!("e"), "[0, 0] [[1], []] [1] 3"),
    ("f", sample!("f"), "[0, 0] [[1, 2], []] [1] 1"),
    ("g as three equal rows", sample!("g"), ""),
    ("h as two equal rows", sample!("h"), ""),
    ("i", sample!("i"), "[12] [[1, 2, 3]] [1] 1"),
    ("even", sample!("even"), "[1, 1, 1] [[1], [2], [3]] [1] 2"),
    (
        "even, two rounds",
        sample!("even_rounds"),
        "[9, 7, 9, 6] [[3], [1, 2], [5, 6], [4]] [1, 2] 2",
    ),
    ("c with yard 2 at 9 9 6 3", sample!("two_thirds"), "[1, 9, 1] [[3], [1, 2], [4]] [1, 2] 3"),
    (
        "three players",
        sample!("three_players"),
        "[4055000, 4055000, 4055000] [[1, 2, 3, 4], [5, 6, 7, 8], [9, 10, 11, 12]] [1] 4",
    ),
];

/// Order 1: name, text, and the strict text of its sheet or the refusal's number.
pub const TYPED: [(&str, &str, Result<&str, u8>); 3] = [
    ("typed", SHEET_AS_TYPED, Ok(SHEET_A)),
    ("typed_larger", sample!("typed_larger"), Ok(LARGER)),
    ("typed_refused", sample!("typed_refused"), Err(6)),
];

/// Sheet a with spaces, remarks and blank lines.
pub const SHEET_AS_TYPED: &str = sample!("typed");

const LARGER: &str = "(sheet (yards 3) (pieces 12))\n\
    (yard 1 (marks 1200 950 875 400 400 380 60 60 60 45 45 0))\n\
    (yard 2 (marks 1100 1000 900 420 380 300 75 75 50 50 50 10))\n\
    (yard 3 (marks 1300 900 900 350 350 350 80 40 40 40 40 40))\n\
    (end)\n";

/// The texts of sample j as order 3 moved it, each with its refusal's number, or 0 if it passes.
pub const TEXTS_OF_J: [(&str, u8); 13] = [
    (sample!("j/6_yards"), 0),
    (sample!("j/0_yards"), 4),
    (sample!("j/7_yards"), 4),
    (sample!("j/12_pieces"), 0),
    (sample!("j/0_pieces"), 5),
    (sample!("j/13_pieces"), 5),
    (sample!("j/mark_4294967295"), 0),
    (sample!("j/mark_4294967296"), 8),
    (sample!("j/mark_9999999999"), 8),
    (sample!("j/mark_10000000000"), 6),
    (sample!("j/mark_05"), 6),
    (sample!("j/7_yards_and_a_large_mark"), 4),
    (sample!("j/4097_bytes"), 1),
];

#[cfg(test)]
mod tests {
    use super::TYPED;
    use crate::exact::players::{players, OF_THE_PAPER};
    use crate::reader::read;

    #[test]
    fn the_three_players_are_those_of_document_000() {
        let sheet = read(sample!("three_players").as_bytes()).unwrap();
        assert_eq!(sheet.marks, players(OF_THE_PAPER));
    }

    #[test]
    fn every_typed_sample_is_listed() {
        let folder = concat!(env!("CARGO_MANIFEST_DIR"), "/../../samples");
        let files = std::fs::read_dir(folder).unwrap().map(|file| file.unwrap().file_name());
        let names = files.filter_map(|file| file.into_string().ok());
        let typed = names.filter(|name| name.starts_with("typed"));
        let mut listed: Vec<String> = typed.collect();
        listed.sort();
        assert_eq!(listed, TYPED.map(|(name, _, _)| format!("{name}.sheet")));
    }
}
