//! Wrong boxes that print sums kept in too few bits, each of which the comparison must find.

mod allowances;

use super::{parts, Harness, Met};
use crate::damage::renumbered;
use crate::families::FAMILIES;
use crate::harness::filled;
use crate::printer::shareout;
use crate::tables::of_family;

/// A word, and what a box prints for the number behind it.
type Misprint = (&'static str, fn(u64) -> u64);

fn misprinted(text: &[u8], (word, other): Misprint) -> Vec<u8> {
    let groups = text.split_inclusive(|byte| *byte == b'(');
    let group = |group: &[u8]| match group.starts_with(word.as_bytes()) {
        true => renumbered(group, other),
        false => group.to_vec(),
    };
    groups.flat_map(group).collect()
}

/// A table of every family for every count of yards and pieces.
fn random_tables_pass(misprint: Misprint) -> bool {
    let entry = |text: &[u8], buffer: &mut [u8], length: &mut usize| {
        filled(shareout(text).map(|printed| misprinted(&printed, misprint)), buffer, length)
    };
    let mut harness = Harness::<Met>::new(&entry);
    let tables = (0..FAMILIES.len()).flat_map(|family| of_family(family, 1));
    parts::sheets(&mut harness, tables, 5).is_ok()
}

#[test]
fn right_sums_pass() {
    assert!(random_tables_pass(("worth", |sum| sum)));
}

#[test]
fn narrow_sums_are_found() {
    for word in ["worth", "share"] {
        assert!(!random_tables_pass((word, |sum| sum & u64::from(u32::MAX))), "{word}");
        assert!(!random_tables_pass((word, |sum| sum.min(u64::from(u32::MAX)))), "{word}");
    }
}
