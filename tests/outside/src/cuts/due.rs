//! What the solver says that a cut answers.

use super::{Answer, Given, Partition, Places, Row, BEFORE, STOPPED};
use crate::allowance::{Looked, Walk};
use crate::growth::number;
use crate::limits::{MOST_PIECES, MOST_YARDS};
use crate::sets::members;
use crate::share::{cut, Cut};

/// By the method over subsets where the allowance is enough, by the walk where it is not.
pub fn due(given: &Given) -> Answer {
    if let Some(refusal) = refusal(given) {
        return (refusal, BEFORE);
    }
    let marks = marks_of(&given.row, given.set);
    match number(marks.len(), given.piles) {
        count if count <= given.allowance => found(&cut(&marks, given.piles), count),
        _ => looked(&Walk::new(&marks, given.piles).answer(given.allowance)),
    }
}

/// 4, 5 and 14, each tried before the following one.
pub fn refusal(given: &Given) -> Option<u8> {
    if !(1..=MOST_YARDS).contains(&given.piles) {
        Some(4)
    } else if members(usize::from(given.set)).any(|piece| piece >= MOST_PIECES) {
        Some(5)
    } else {
        (given.allowance == 0).then_some(14)
    }
}

/// The answer of a walk.
pub fn looked(looked: &Looked) -> Answer {
    let (_, places) = found(&looked.best, looked.count);
    (if looked.stopped { STOPPED } else { 0 }, places)
}

/// The share with a cut that reaches it and the number of growth layouts; places not in use are 0.
pub fn found(cut: &Cut, count: u32) -> Answer {
    (0, Places { figure: cut.share, partition: partition_of(&cut.layout), count })
}

pub fn partition_of(layout: &[usize]) -> Partition {
    let mut partition = [0; MOST_PIECES];
    partition.iter_mut().zip(layout).for_each(|(place, pile)| *place = *pile as u8);
    partition
}

/// The marks of the set's pieces, rising.
pub fn marks_of(row: &Row, set: u16) -> Vec<u64> {
    members(usize::from(set)).map(|piece| u64::from(row[piece])).collect()
}
