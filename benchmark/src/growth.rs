//! The numbers of growth layouts of the items still to be laid.

use std::array::from_fn;

use crate::cut::{MOST_BUNDLES, MOST_ITEMS};

/// By the number of items to be laid and the number of bundles in use.
pub type Counts = [[u32; MOST_BUNDLES + 1]; MOST_ITEMS + 1];

/// An item goes to one of the bundles in use, or to the next new one where there is one.
pub fn counts(items: usize, bundles: usize) -> Counts {
    let mut counts = [[1; MOST_BUNDLES + 1]; MOST_ITEMS + 1];
    for left in 1..=items {
        let fewer = counts[left - 1];
        counts[left] = from_fn(|used| {
            let new = if used < bundles { fewer[used + 1] } else { 0 };
            used as u32 * fewer[used] + new
        });
    }
    counts
}

/// The number of growth layouts.
pub fn number(items: usize, bundles: usize) -> u32 {
    counts(items, bundles)[items][0]
}

/// For tests: the powers of two below the number of growth layouts, and allowances about that number.
#[cfg(test)]
pub fn allowances(items: usize, bundles: usize) -> impl Iterator<Item = u32> {
    use crate::cut::GREATEST_ALLOWANCE;
    let number = number(items, bundles);
    let below = (0..32).map(|bit| 1 << bit).chain([number - 1]).filter(move |a| *a < number);
    below.filter(|allowance| *allowance > 0).chain([number, number + 1, GREATEST_ALLOWANCE])
}

#[cfg(test)]
mod tests {
    use super::number;

    #[test]
    fn twelve_pieces() {
        let numbers = [1, 2_048, 88_574, 700_075, 2_079_475, 3_403_127];
        assert_eq!([1, 2, 3, 4, 5, 6].map(|bundles| number(12, bundles)), numbers);
    }
}
