//! Piles, of the division or of a cut, with pieces moved, doubled, dropped, out of order or unknown.

use super::{pairs, Texts};
use crate::generator::Generator;
use crate::judging::source::{move_piece, Source};
use crate::stated::{worths, Stated};

/// Whose piles are changed: those of the division, or those of each cut in turn.
#[derive(Clone, Copy)]
pub enum Of {
    Division,
    Cuts,
}

/// The piles of the division, or of one yard's cut.
#[derive(Clone, Copy)]
pub enum Partition {
    Division,
    Cut(usize),
}

impl Partition {
    fn all(source: &Source, of: Of) -> Vec<Partition> {
        match of {
            Of::Division => vec![Partition::Division],
            Of::Cuts => (0..source.sheet.yards).map(Partition::Cut).collect(),
        }
    }

    fn piles(self, stated: &mut Stated) -> &mut Vec<Vec<usize>> {
        match self {
            Partition::Division => &mut stated.bundles,
            Partition::Cut(yard) => &mut stated.cuts[yard],
        }
    }

    pub fn changed(self, source: &Source, change: impl FnOnce(&mut Vec<Vec<usize>>)) -> Vec<u8> {
        source.changed(|stated| change(self.piles(stated)))
    }
}

/// Each pile of the partitions, with its number.
pub fn each_pile(source: &Source, of: Of) -> Vec<(Partition, usize, Vec<usize>)> {
    let mut piles = Vec::new();
    for partition in Partition::all(source, of) {
        let all = partition.piles(&mut source.stated.clone()).clone();
        piles.extend(all.into_iter().enumerate().map(|(number, pile)| (partition, number, pile)));
    }
    piles
}

/// Each piece of each pile of the partitions, with the pile's number.
fn each_piece(source: &Source, of: Of) -> Vec<(Partition, usize, usize)> {
    let of_pile = |(partition, number, pile): (Partition, usize, Vec<usize>)| {
        pile.into_iter().map(move |piece| (partition, number, piece))
    };
    each_pile(source, of).into_iter().flat_map(of_pile).collect()
}

/// Each piece with a pile that it is not in, where there is one.
fn each_with_other(
    generator: &mut Generator,
    source: &Source,
    of: Of,
) -> Vec<(Partition, usize, usize)> {
    let yards = source.sheet.yards;
    let mut other = |pile: usize| (pile + 1 + generator.index(yards - 1)) % yards;
    let pieces = each_piece(source, of).into_iter().filter(|_| yards > 1);
    pieces.map(|(partition, pile, piece)| (partition, other(pile), piece)).collect()
}

pub fn moved(generator: &mut Generator, source: &Source, of: Of) -> Texts {
    let pieces = each_with_other(generator, source, of).into_iter();
    let text = |(partition, to, piece): (Partition, usize, usize)| {
        partition.changed(source, |piles| move_piece(piles, piece, to))
    };
    pieces.map(text).collect()
}

/// The worths are those of the new piles, so that only the grade can be false.
pub fn moved_with_worths(generator: &mut Generator, source: &Source) -> Texts {
    let pieces = each_with_other(generator, source, Of::Division).into_iter();
    let text = |(_, to, piece): (Partition, usize, usize)| {
        source.changed(|stated| {
            move_piece(&mut stated.bundles, piece, to);
            stated.worths = worths(&source.sheet, &stated.bundles);
        })
    };
    pieces.map(text).collect()
}

pub fn doubled(generator: &mut Generator, source: &Source, of: Of) -> Texts {
    let pieces = each_with_other(generator, source, of).into_iter();
    let text = |(partition, to, piece): (Partition, usize, usize)| {
        partition.changed(source, |piles| {
            piles[to].push(piece);
            piles[to].sort();
        })
    };
    pieces.map(text).collect()
}

pub fn dropped(source: &Source, of: Of) -> Texts {
    let text = |(partition, pile, piece): (Partition, usize, usize)| {
        partition.changed(source, |piles| piles[pile].retain(|other| *other != piece))
    };
    each_piece(source, of).into_iter().map(text).collect()
}

/// The same piece twice in one pile.
pub fn twice(source: &Source, of: Of) -> Texts {
    let text = |(partition, pile, piece): (Partition, usize, usize)| {
        partition.changed(source, |piles| {
            piles[pile].push(piece);
            piles[pile].sort();
        })
    };
    each_piece(source, of).into_iter().map(text).collect()
}

/// Each two neighbours in a pile in the other order.
pub fn not_rising(source: &Source, of: Of) -> Texts {
    let texts = |(partition, number, pile): (Partition, usize, Vec<usize>)| {
        let text =
            move |place| partition.changed(source, |piles| piles[number].swap(place - 1, place));
        (1..pile.len()).map(text)
    };
    each_pile(source, of).into_iter().flat_map(texts).collect()
}

/// Pieces just beyond those of the sheet, and beyond them in eight bits, at the end of each pile.
pub fn unknown(source: &Source, of: Of) -> Texts {
    let pieces = source.sheet.pieces;
    let texts = |(partition, number, _): (Partition, usize, Vec<usize>)| {
        let text = move |piece| partition.changed(source, |piles| piles[number].push(piece));
        [pieces, 255 + pieces].into_iter().map(text)
    };
    each_pile(source, of).into_iter().flat_map(texts).collect()
}

/// The piles of two yards, unlike ones, with the figures left as they are.
pub fn piles_swapped(source: &Source) -> Texts {
    let piles = &source.stated.bundles;
    let unlike = pairs(piles.len()).filter(|(yard, other)| piles[*yard] != piles[*other]);
    unlike.map(|(yard, other)| source.changed(|stated| stated.bundles.swap(yard, other))).collect()
}
