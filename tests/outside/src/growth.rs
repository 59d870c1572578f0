//! Growth layouts (order 7), each made from the one before it in dictionary order: no formula, and none
//! left out. A layout has for each item its bundle, counted from 1.

use std::array::from_fn;
use std::sync::LazyLock;

use crate::limits::{MOST_PIECES, MOST_YARDS};

/// The first growth layout.
pub fn first(items: usize) -> Vec<usize> {
    vec![1; items]
}

/// Makes a growth layout the next one into so many bundles; whether there is one. The last item that may
/// lie in a later bundle does, and the items after it lie in the first.
pub fn step(layout: &mut [usize], bundles: usize) -> bool {
    let may_rise = |item: &usize| layout[*item] < last_bundle(&layout[..*item], bundles);
    let Some(item) = (0..layout.len()).rev().find(may_rise) else {
        return false;
    };
    layout[item] += 1;
    layout[item + 1..].fill(1);
    true
}

/// "in a pile in use or in the next new one, up to n piles", the last of these after the items before.
fn last_bundle(before: &[usize], bundles: usize) -> usize {
    let in_use = before.iter().copied().max().unwrap_or(0);
    bundles.min(in_use + 1)
}

/// The number of growth layouts, all of which were made.
pub fn number(items: usize, bundles: usize) -> u32 {
    NUMBERS[items][bundles - 1]
}

/// For each number of items from 0, and of bundles from 1.
static NUMBERS: LazyLock<[[u32; MOST_YARDS]; MOST_PIECES + 1]> =
    LazyLock::new(|| from_fn(|items| from_fn(|bundle| counted(items, bundle + 1))));

fn counted(items: usize, bundles: usize) -> u32 {
    let mut layout = first(items);
    let mut number = 1;
    while step(&mut layout, bundles) {
        number += 1;
    }
    number
}

#[cfg(test)]
mod tests {
    use super::{first, number, step};
    use crate::limits::{MOST_PIECES, MOST_YARDS};
    use crate::share::definition::growth_layouts;

    #[test]
    fn the_steps_make_the_growth_layouts_of_the_definition() {
        for items in 0..=6 {
            for bundles in 1..=MOST_YARDS {
                let mut layouts = vec![first(items)];
                let mut layout = first(items);
                while step(&mut layout, bundles) {
                    layouts.push(layout.clone());
                }
                assert_eq!(layouts, growth_layouts(items, bundles), "{items} in {bundles}");
                assert_eq!(number(items, bundles) as usize, layouts.len());
            }
        }
    }

    #[test]
    fn the_last_layout_stays() {
        let lasts = [(3, 1, vec![1; 3]), (4, 2, vec![1, 2, 2, 2]), (4, 3, vec![1, 2, 3, 3])];
        for (items, bundles, last) in lasts {
            let mut layout = first(items);
            while step(&mut layout, bundles) {}
            assert_eq!(layout, last);
            assert!(!step(&mut layout, bundles));
            assert_eq!(layout, last);
        }
    }

    #[test]
    fn the_empty_set_has_one() {
        assert!((1..=MOST_YARDS).all(|bundles| number(0, bundles) == 1));
    }

    #[test]
    fn twelve_pieces() {
        let numbers = [1, 2_048, 88_574, 700_075, 2_079_475, 3_403_127];
        assert_eq!([1, 2, 3, 4, 5, 6].map(|bundles| number(MOST_PIECES, bundles)), numbers);
    }
}
