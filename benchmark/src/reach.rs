//! The test that both pruned walks have.

use crate::cut::Mark;

/// With some bundle's lack of the goal as threshold: the marks still to lay, each counted up to the
/// threshold, add up to less than the lacks, each counted up to the threshold.
pub fn is_out_of_reach(goal: u64, loads: &[u64], to_lay: &[Mark]) -> bool {
    loads.iter().filter(|load| **load < goal).any(|load| {
        let threshold = goal - load;
        let to_lay: u64 = to_lay.iter().map(|mark| threshold.min(u64::from(*mark))).sum();
        let lacking: u64 = loads.iter().map(|load| threshold.min(goal.saturating_sub(*load))).sum();
        to_lay < lacking
    })
}
