//! Order 4: "a division in which every yard has its whole maximin share", or none, found piece by piece.
//! A branch is left when some yard, or all yards together, can no longer have what they still lack.

use crate::reader::Sheet;

/// Worths of several yards are added in this unit to a yard's share, so that they weigh alike.
const SHARE_UNIT: u64 = 1 << 60;

/// Each yard's pile, its pieces rising, in some division that gives each yard its share.
pub fn exact_division(sheet: &Sheet, shares: &[u64]) -> Option<Vec<Vec<usize>>> {
    let mut search = Search::new(sheet, shares);
    let mut lacks = shares.to_vec();
    search.give(0, &mut lacks).then(|| search.piles())
}

struct Search<'a> {
    marks: &'a [Vec<u64>],
    /// What one mark of each yard weighs.
    weights: Vec<u64>,
    /// The pieces, those that weigh most first.
    order: Vec<usize>,
    /// The yard that each piece is given to.
    owners: Vec<usize>,
}

impl<'a> Search<'a> {
    fn new(sheet: &'a Sheet, shares: &[u64]) -> Search<'a> {
        let weights: Vec<u64> =
            shares.iter().map(|share| SHARE_UNIT.checked_div(*share).unwrap_or(0)).collect();
        let weight = |piece: usize| -> u64 {
            let of_yard = |yard: usize| weights[yard] * sheet.marks[yard][piece].min(shares[yard]);
            (0..sheet.yards).map(of_yard).sum()
        };
        let mut order: Vec<usize> = (0..sheet.pieces).collect();
        order.sort_by_key(|piece| std::cmp::Reverse(weight(*piece)));
        Search { marks: &sheet.marks, weights, order, owners: vec![0; sheet.pieces] }
    }

    /// Gives the pieces from this place of the order on; whether every lack can be made up.
    fn give(&mut self, place: usize, lacks: &mut [u64]) -> bool {
        if lacks.iter().all(|lack| *lack == 0) {
            return true;
        }
        if !self.is_open(place, lacks) {
            return false;
        }
        let piece = self.order[place];
        for yard in self.candidates(piece, lacks) {
            let lack = lacks[yard];
            lacks[yard] = lack.saturating_sub(self.marks[yard][piece]);
            self.owners[piece] = yard;
            if self.give(place + 1, lacks) {
                return true;
            }
            lacks[yard] = lack;
        }
        self.owners[piece] = 0;
        false
    }

    /// What the piece makes up of a yard's lack, weighed.
    fn made_up(&self, yard: usize, piece: usize, lacks: &[u64]) -> u64 {
        self.weights[yard] * self.marks[yard][piece].min(lacks[yard])
    }

    /// Each yard lacks no more than the pieces left are worth to it, and all yards together lack no
    /// more than the pieces left can make up, each of them to one yard.
    fn is_open(&self, place: usize, lacks: &[u64]) -> bool {
        let left = &self.order[place..];
        let yards = 0..lacks.len();
        let worth = |yard: usize| left.iter().map(|piece| self.marks[yard][*piece]).sum();
        let most = |piece: &usize| {
            yards.clone().map(|yard| self.made_up(yard, *piece, lacks)).max().unwrap_or(0)
        };
        let lacking: u64 = yards.clone().map(|yard| self.weights[yard] * lacks[yard]).sum();
        yards.clone().all(|yard| lacks[yard] <= worth(yard))
            && lacking <= left.iter().map(most).sum()
    }

    /// The yards that lack something to which the piece adds, those to which it adds most first. Yards
    /// that are alike in marks and lack are tried once. Where it adds to none, any yard may have it.
    fn candidates(&self, piece: usize, lacks: &[u64]) -> Vec<usize> {
        let alike = |a: usize, b: usize| lacks[a] == lacks[b] && self.marks[a] == self.marks[b];
        let adds = |yard: &usize| lacks[*yard] > 0 && self.marks[*yard][piece] > 0;
        let mut yards: Vec<usize> = (0..lacks.len())
            .filter(|yard| adds(yard) && !(0..*yard).any(|other| alike(other, *yard)))
            .collect();
        yards.sort_by_key(|yard| std::cmp::Reverse(self.made_up(*yard, piece, lacks)));
        match yards.is_empty() {
            true => vec![0],
            false => yards,
        }
    }

    fn piles(&self) -> Vec<Vec<usize>> {
        let pile = |yard: usize| {
            (0..self.owners.len()).filter(|piece| self.owners[*piece] == yard).collect()
        };
        (0..self.marks.len()).map(pile).collect()
    }
}

#[cfg(test)]
mod tests {
    use super::exact_division;
    use crate::exact::judge::judge;
    use crate::exact::layouts::exact_ways;
    use crate::exact::players::{players, OF_THE_PAPER};
    use crate::exact::without::nine_pieces;
    use crate::families::FAMILIES;
    use crate::generator::Generator;
    use crate::reader::Sheet;
    use crate::share::definition::by_definition;
    use crate::share::maximin_share;
    use crate::tables::{all_small, of_family};

    fn shares(sheet: &Sheet) -> Vec<u64> {
        sheet.marks.iter().map(|row| maximin_share(row, sheet.yards)).collect()
    }

    /// Whether a division with these shares is found; search and ways must agree, and the judge.
    fn is_found(sheet: &Sheet, shares: &[u64]) -> bool {
        let found = exact_division(sheet, shares);
        let ways = exact_ways(sheet, shares);
        assert!(ways.is_none_or(|ways| (ways > 0) == found.is_some()), "{sheet:?} {shares:?}");
        if let Some(piles) = &found {
            assert_eq!(judge(sheet, shares, piles), Ok(()), "{sheet:?} {shares:?}");
        }
        found.is_some()
    }

    #[test]
    fn search_and_ways_agree_on_small_tables() {
        for sheet in all_small() {
            let definition =
                |row: &Vec<u64>| by_definition(row, sheet.yards, |worth, mark| worth + mark).share;
            let shares: Vec<u64> = sheet.marks.iter().map(definition).collect();
            assert!(is_found(&sheet, &shares), "{sheet:?}");
        }
    }

    /// With demands about the shares, each side is met often.
    #[test]
    fn search_and_ways_agree_on_random_tables_with_other_demands() {
        let mut generator = Generator::new(5);
        let (mut found, mut none) = (0, 0);
        for family in 0..FAMILIES.len() {
            for sheet in
                of_family(family, 1).filter(|sheet| sheet.yards.pow(sheet.pieces as u32) <= 20_000)
            {
                let mut demand = |share: u64| match generator.below(4) {
                    0 => share,
                    1 => share + 1,
                    2 => share + share / 3,
                    _ => share.saturating_sub(1),
                };
                let demands: Vec<u64> = shares(&sheet).into_iter().map(&mut demand).collect();
                match is_found(&sheet, &demands) {
                    true => found += 1,
                    false => none += 1,
                }
            }
        }
        assert!(found > 100 && none > 100, "{found} {none}");
    }

    /// "The three players of section 2 must give none."
    #[test]
    fn three_players_and_nine_pieces_give_none() {
        for marks in [players(OF_THE_PAPER), nine_pieces()] {
            let sheet = Sheet::of(marks);
            assert!(!is_found(&sheet, &shares(&sheet)));
            let one_less = |yard: usize| {
                let mut demands = shares(&sheet);
                demands[yard] -= 1;
                demands
            };
            assert!((0..3).all(|yard| is_found(&sheet, &one_less(yard))));
        }
    }

    #[test]
    fn a_demand_beyond_all_pieces_gives_none() {
        let sheet = Sheet::of(vec![vec![3, 0, 9]]);
        assert_eq!(exact_division(&sheet, &[12]), Some(vec![vec![0, 1, 2]]));
        assert_eq!(exact_division(&sheet, &[13]), None);
    }
}
