//! True divisions of a sheet, by several means, of which the texts of a comparison are made.

use super::judge::reaches;
use crate::division::{divide, Division};
use crate::exact::search::exact_division;
use crate::generator::Generator;
use crate::printer::lines;
use crate::reader::Sheet;
use crate::stated::Stated;
use crate::strict::strict_text;

/// A sheet and what a true division of it states.
#[derive(Clone)]
pub struct Source {
    pub sheet: Sheet,
    pub stated: Stated,
}

/// Piles by some means, with the box's division at hand.
type Means = fn(&mut Generator, &Sheet, &Division) -> Option<Vec<Vec<usize>>>;

pub const MEANS: [(&str, Means); 5] = [
    ("the box", |_, _, division| Some(division.bundles.clone())),
    ("the exact search", |_, sheet, division| exact_division(sheet, &division.shares())),
    ("chance", |generator, sheet, _| Some(by_chance(generator, sheet))),
    ("all pieces to one yard", |generator, sheet, _| Some(all_to_one(generator, sheet))),
    ("the box, some pieces moved", |generator, _, division| {
        Some(some_moved(generator, &division.bundles))
    }),
];

/// A true division of the sheet by each means, where there is one.
pub fn sources(generator: &mut Generator, sheet: &Sheet) -> Vec<(&'static str, Source)> {
    let division = divide(sheet);
    let mut sources = Vec::new();
    for (name, means) in MEANS {
        if let Some(bundles) = means(generator, sheet, &division) {
            let stated = Stated::of(sheet, &bundles, &division.cuts);
            sources.push((name, Source { sheet: sheet.clone(), stated }));
        }
    }
    sources
}

fn by_chance(generator: &mut Generator, sheet: &Sheet) -> Vec<Vec<usize>> {
    let mut piles = vec![Vec::new(); sheet.yards];
    (0..sheet.pieces).for_each(|piece| piles[generator.index(sheet.yards)].push(piece));
    piles
}

fn all_to_one(generator: &mut Generator, sheet: &Sheet) -> Vec<Vec<usize>> {
    let mut piles = vec![Vec::new(); sheet.yards];
    piles[generator.index(sheet.yards)] = (0..sheet.pieces).collect();
    piles
}

fn some_moved(generator: &mut Generator, bundles: &[Vec<usize>]) -> Vec<Vec<usize>> {
    let mut piles = bundles.to_vec();
    let pieces = piles.concat();
    for _ in 0..generator.between(1, 2) {
        let piece = generator.choose(&pieces);
        let to = generator.index(piles.len());
        move_piece(&mut piles, piece, to);
    }
    piles
}

/// The pieces of each pile still rise.
pub fn move_piece(piles: &mut [Vec<usize>], piece: usize, to: usize) {
    piles.iter_mut().for_each(|pile| pile.retain(|other| *other != piece));
    piles[to].push(piece);
    piles[to].sort();
}

/// A cut that reaches the share, by piles in another order and pieces moved.
pub fn other_cut(
    generator: &mut Generator,
    row: &[u64],
    cut: &[Vec<usize>],
    share: u64,
) -> Vec<Vec<usize>> {
    let mut other = cut.to_vec();
    generator.shuffle(&mut other);
    for piece in 0..row.len() {
        let mut moved = other.clone();
        move_piece(&mut moved, piece, generator.index(cut.len()));
        if reaches(row, &moved, share) {
            other = moved;
        }
    }
    other
}

impl Source {
    pub fn text(&self) -> Vec<u8> {
        self.with_lines(&self.lines())
    }

    /// The lines of the division through its end.
    pub fn lines(&self) -> Vec<String> {
        [lines(&self.sheet, &self.stated), vec!["(end)\n".to_owned()]].concat()
    }

    /// The sheet with other lines for the division.
    pub fn with_lines(&self, lines: &[String]) -> Vec<u8> {
        [strict_text(&self.sheet), lines.concat().into_bytes()].concat()
    }

    /// The text of a division with this change.
    pub fn changed(&self, change: impl FnOnce(&mut Stated)) -> Vec<u8> {
        let mut other = self.clone();
        change(&mut other.stated);
        other.text()
    }

    /// The same division with other cuts that reach their shares.
    pub fn with_other_cuts(mut self, generator: &mut Generator) -> Source {
        let Stated { cuts, shares, .. } = &mut self.stated;
        for (row, (cut, share)) in self.sheet.marks.iter().zip(cuts.iter_mut().zip(shares)) {
            *cut = other_cut(generator, row, cut, *share);
        }
        self
    }
}

#[cfg(test)]
mod tests {
    use super::{other_cut, sources, MEANS};
    use crate::generator::Generator;
    use crate::judging::judge::{judge, reaches};
    use crate::reader::Sheet;
    use crate::tables::any;

    #[test]
    fn every_source_is_true() {
        let mut generator = Generator::new(0);
        let mut with_a_negative = 0;
        for _ in 0..300 {
            let sheet = any(&mut generator);
            for (name, source) in sources(&mut generator, &sheet) {
                let source = source.with_other_cuts(&mut generator);
                let printed = judge(&source.text()).expect(name);
                with_a_negative += usize::from(printed.contains(&b'-'));
            }
        }
        assert!(with_a_negative > 200, "{with_a_negative}");
    }

    #[test]
    fn all_means_are_met_but_an_exact_division_where_there_is_none() {
        let names = |sheet: &Sheet| -> Vec<&str> {
            let sources = sources(&mut Generator::new(0), sheet);
            sources.into_iter().map(|(name, _)| name).collect()
        };
        let all = MEANS.map(|(name, _)| name);
        assert_eq!(names(&Sheet::of(vec![vec![5, 3, 4], vec![6, 2, 2]])), all);
        let without = names(&Sheet::of(crate::exact::without::nine_pieces()));
        assert_eq!(without, [all[0], all[2], all[3], all[4]]);
    }

    #[test]
    fn other_cuts_reach_the_share() {
        let mut generator = Generator::new(0);
        let (row, cut) = ([4, 4, 3, 1], vec![vec![0], vec![1], vec![2, 3]]);
        let mut met: Vec<Vec<Vec<usize>>> = Vec::new();
        for _ in 0..200 {
            let other = other_cut(&mut generator, &row, &cut, 4);
            assert!(reaches(&row, &other, 4));
            met.push(other);
        }
        met.sort();
        met.dedup();
        assert_eq!(met.len(), 6);
    }
}
