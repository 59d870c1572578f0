//! Cuts with other piles: true ones, those of another yard, and with one pile for all pieces, more piles or
//! fewer.

use super::pieces::{each_pile, Of, Partition};
use super::{pairs, Texts};
use crate::generator::Generator;
use crate::judging::source::{other_cut, Source};

/// Each yard with another cut, where this gives one.
fn each_cut(source: &Source, mut other: impl FnMut(usize) -> Vec<Vec<usize>>) -> Texts {
    let mut texts = Vec::new();
    for (yard, cut) in source.stated.cuts.iter().enumerate() {
        let other = other(yard);
        if other != *cut {
            texts.push(source.changed(|stated| stated.cuts[yard] = other));
        }
    }
    texts
}

/// Cuts that reach the share.
pub fn others(generator: &mut Generator, source: &Source) -> Texts {
    let Source { sheet, stated } = source;
    each_cut(source, |yard| {
        other_cut(generator, &sheet.marks[yard], &stated.cuts[yard], stated.shares[yard])
    })
}

/// All pieces in one pile, which is true only of one yard or a share of 0.
pub fn all_in_one_pile(generator: &mut Generator, source: &Source) -> Texts {
    each_cut(source, |_| {
        let mut piles = vec![Vec::new(); source.sheet.yards];
        piles[generator.index(source.sheet.yards)] = (0..source.sheet.pieces).collect();
        piles
    })
}

/// The cuts of two yards, unlike ones.
pub fn swapped(source: &Source) -> Texts {
    let cuts = &source.stated.cuts;
    let unlike = pairs(cuts.len()).filter(|(yard, other)| cuts[*yard] != cuts[*other]);
    unlike.map(|(yard, other)| source.changed(|stated| stated.cuts.swap(yard, other))).collect()
}

/// An empty pile among those of a cut.
pub fn pile_put_in(generator: &mut Generator, source: &Source) -> Texts {
    let place = generator.index(source.sheet.yards + 1);
    each_cut(source, |yard| {
        let mut piles = source.stated.cuts[yard].clone();
        piles.insert(place, Vec::new());
        piles
    })
}

/// Each pile of a cut left out, its pieces put to those of the following one, if there is one.
pub fn pile_left_out(source: &Source) -> Texts {
    let text = |(partition, number, pile): (Partition, usize, Vec<usize>)| {
        partition.changed(source, |piles| {
            piles.remove(number);
            if let Some(other) = piles.get_mut(number) {
                other.extend(pile);
                other.sort();
            }
        })
    };
    each_pile(source, Of::Cuts).into_iter().map(text).collect()
}
