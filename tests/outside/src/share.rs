//! Maximin share and cut of one row of marks (document 01, "Share and cut").
//! Both are found by dynamic programming over subsets of the items, a subset being a number
//! whose bit k stands for item k. The marks handed in are those of the set's items, rising.

/// The maximin share, and the cut: for each item its bundle, counted from 1.
#[derive(Clone, Debug, PartialEq)]
pub struct Cut {
    pub share: u64,
    pub layout: Vec<usize>,
}

impl Cut {
    /// The items of each of so many bundles, rising.
    pub fn bundles(&self, count: usize) -> Vec<Vec<usize>> {
        let mut bundles = vec![Vec::new(); count];
        self.layout.iter().enumerate().for_each(|(item, bundle)| bundles[bundle - 1].push(item));
        bundles
    }
}

pub fn cut(marks: &[u64], bundles: usize) -> Cut {
    let share = maximin_share(marks, bundles);
    Cut { share, layout: first_layout(marks, bundles, share) }
}

/// "The maximin share is the greatest least pile over all layouts": of the k bundles of a subset,
/// k / 2 lie on a part of it and the others on the rest.
pub fn maximin_share(marks: &[u64], bundles: usize) -> u64 {
    let all = (1 << marks.len()) - 1;
    // shares[k - 1][subset]: the maximin share of the subset among k bundles.
    let mut shares = vec![worths(marks)];
    for k in 2..=bundles.div_ceil(2) {
        let (some, others) = (&shares[k / 2 - 1], &shares[k - k / 2 - 1]);
        let of_k = (0..=all).map(|subset| best_split(some, others, subset)).collect();
        shares.push(of_k);
    }
    match bundles {
        1 => shares[0][all],
        _ => best_split(&shares[bundles / 2 - 1], &shares[bundles - bundles / 2 - 1], all),
    }
}

/// The worth of each subset: a subset below 2^(k + 1) that holds item k is one below 2^k with it.
fn worths(marks: &[u64]) -> Vec<u64> {
    let mut worths = vec![0];
    for mark in marks {
        let with_item: Vec<u64> = worths.iter().map(|worth| worth + mark).collect();
        worths.extend(with_item);
    }
    worths
}

/// The greatest, over the parts of the subset, of the lesser of the part's and the rest's share.
/// Bundles may change names, so only parts with the subset's first item are tried.
fn best_split(of_part: &[u64], of_rest: &[u64], subset: usize) -> u64 {
    let first = subset & subset.wrapping_neg();
    let others = subset ^ first;
    let mut best = 0;
    let mut rest = others;
    loop {
        best = best.max(of_part[subset ^ rest].min(of_rest[rest]));
        if rest == 0 {
            return best;
        }
        rest = (rest - 1) & others;
    }
}

/// "The cut is a layout that reaches it", the first in dictionary order: for each item the lowest
/// bundle after which the items that follow can still fill every bundle up to the share.
fn first_layout(marks: &[u64], bundles: usize, share: u64) -> Vec<usize> {
    let mut lacks = vec![share; bundles];
    let mut layout = Vec::new();
    for (item, mark) in marks.iter().enumerate() {
        let with = |bundle: usize| {
            let mut after = lacks.clone();
            after[bundle] = after[bundle].saturating_sub(*mark);
            after
        };
        let bundle = (0..bundles)
            .find(|bundle| can_cover(&marks[item + 1..], &with(*bundle)))
            .expect("some layout reaches the maximin share");
        lacks = with(bundle);
        layout.push(bundle + 1);
    }
    layout
}

/// Whether the items can be parted so that each lack gets at least its amount.
/// Lacks are covered in their order; for each subset of items only the furthest state is kept
/// (lacks covered, worth laid towards the following one), since a further state never does worse.
pub fn can_cover(marks: &[u64], lacks: &[u64]) -> bool {
    let lacks: Vec<u64> = lacks.iter().copied().filter(|lack| *lack > 0).collect();
    if marks.iter().sum::<u64>() < lacks.iter().sum() {
        return false;
    }
    let subsets = 1usize << marks.len();
    let mut furthest = vec![(0, 0); subsets];
    for subset in 1..subsets {
        furthest[subset] = (0..marks.len())
            .filter(|item| subset >> item & 1 == 1)
            .map(|item| lay(furthest[subset ^ 1 << item], marks[item], &lacks))
            .fold((0, 0), std::cmp::max);
    }
    furthest[subsets - 1].0 == lacks.len()
}

/// The state after one more item; what exceeds a lack is of no use to the following one.
fn lay((covered, laid): (usize, u64), mark: u64, lacks: &[u64]) -> (usize, u64) {
    match lacks.get(covered) {
        None => (covered, 0),
        Some(lack) if laid + mark >= *lack => (covered + 1, 0),
        Some(_) => (covered, laid + mark),
    }
}

#[cfg(test)]
pub mod definition;

#[cfg(test)]
mod tests {
    use super::definition::by_definition;
    use super::{can_cover, cut};
    use crate::generator::Generator;

    #[test]
    fn samples_g_and_h() {
        let g = cut(&[1, 2, 3, 4, 5, 6, 7], 3);
        assert_eq!((g.share, g.layout), (9, vec![1, 1, 2, 3, 3, 1, 2]));
        let h = cut(&[2, 2, 2, 2], 2);
        assert_eq!((h.share, h.layout), (4, vec![1, 1, 2, 2]));
    }

    #[test]
    fn three_three_two_two_two_in_two_piles_gives_six() {
        assert_eq!(cut(&[3, 3, 2, 2, 2], 2).share, 6);
    }

    #[test]
    fn the_empty_set_has_share_zero() {
        let empty = cut(&[], 4);
        assert_eq!((empty.share, empty.layout), (0, vec![]));
    }

    #[test]
    fn cuts_equal_the_definition() {
        let mut generator = Generator::new(1);
        for round in 0..600 {
            let (bundles, items) = (1 + round % 6, round / 6 % 7);
            let bound = [2, 4, 12, 65_536, 1 << 32][round % 5];
            let marks: Vec<u64> = (0..items).map(|_| generator.below(bound)).collect();
            let due = by_definition(&marks, bundles, |worth, mark| worth + mark);
            assert_eq!(cut(&marks, bundles), due, "{marks:?}");
        }
    }

    /// The covering of lacks and the splitting of subsets are two methods; they agree on twelve items.
    #[test]
    fn no_layout_exceeds_the_share() {
        let mut generator = Generator::new(2);
        for round in 0..60 {
            let bundles = 1 + round % 6;
            let bound = [65_536, 1 << 32][round / 6 % 2];
            let marks: Vec<u64> = (0..12).map(|_| generator.below(bound)).collect();
            let share = cut(&marks, bundles).share;
            assert!(can_cover(&marks, &vec![share; bundles]));
            assert!(!can_cover(&marks, &vec![share + 1; bundles]));
        }
    }
}
