//! Boxes that go over all sets of pieces, yard after yard, and keep for each set how many of the first
//! yards can have their shares from it; each but the first with a slip.

use super::{passes, shares, showing};
use crate::exact::line::Shown;
use crate::exact::search::exact_division;
use crate::families::FAMILIES;
use crate::generator::Generator;
use crate::reader::Sheet;
use crate::sets::members;
use crate::tables::of_family;

#[derive(Clone, Copy, Debug, PartialEq)]
enum Slip {
    Nothing,
    ShareExceeded,
    AnyYardsServed,
    OnePieceTakenOut,
    CostsOfTheYardBefore,
    MissingCostOf32Bits,
    WorthOf32Bits,
    LastYardUnserved,
    SetOfAllPassedOver,
    EmptySetPassedOver,
    FirstShareForAll,
    ShownWithoutShare,
    ShownWithoutTheOthers,
}

const SLIPS: [Slip; 12] = [
    Slip::ShareExceeded,
    Slip::AnyYardsServed,
    Slip::OnePieceTakenOut,
    Slip::CostsOfTheYardBefore,
    Slip::MissingCostOf32Bits,
    Slip::WorthOf32Bits,
    Slip::LastYardUnserved,
    Slip::SetOfAllPassedOver,
    Slip::EmptySetPassedOver,
    Slip::FirstShareForAll,
    Slip::ShownWithoutShare,
    Slip::ShownWithoutTheOthers,
];

struct OverSets<'a> {
    sheet: &'a Sheet,
    shares: Vec<u64>,
    slip: Slip,
    /// For each set, how many of the first yards can have their shares from it.
    served: Vec<usize>,
    /// For each set, what the cheapest part costs a yard that serves the yards before it.
    costs: Vec<u64>,
}

fn show(sheet: &Sheet, slip: Slip) -> Shown {
    show_by(sheet, shares(sheet), slip)
}

fn show_by(sheet: &Sheet, shares: Vec<u64>, slip: Slip) -> Shown {
    let sets = 1 << sheet.pieces;
    let (served, costs) = (vec![0; sets], vec![0; sets]);
    let mut search = OverSets { sheet, shares, slip, served, costs };
    (0..sheet.yards).for_each(|yard| search.serve(yard));
    let least = sheet.yards - usize::from(slip == Slip::LastYardUnserved);
    (search.served[sets - 1] >= least).then(|| search.read_off())
}

impl OverSets<'_> {
    fn worth(&self, yard: usize, set: usize) -> u64 {
        let worth = members(set).map(|piece| self.sheet.marks[yard][piece]).sum();
        match self.slip {
            Slip::WorthOf32Bits => worth & u64::from(u32::MAX),
            _ => worth,
        }
    }

    fn share(&self, yard: usize) -> u64 {
        match self.slip {
            Slip::FirstShareForAll => self.shares[0],
            _ => self.shares[yard],
        }
    }

    /// Whether the yards before this one can have their shares from the set.
    fn serves_before(&self, yard: usize, set: usize) -> bool {
        match self.slip {
            Slip::AnyYardsServed => yard == 0 || self.served[set] > 0,
            Slip::EmptySetPassedOver => set > 0 && self.served[set] >= yard,
            _ => self.served[set] >= yard,
        }
    }

    fn cost(&self, yard: usize, set: usize) -> u64 {
        let missing = match self.slip {
            Slip::MissingCostOf32Bits => u64::from(u32::MAX),
            _ => 1 << 40,
        };
        let whole = |set: usize| match self.serves_before(yard, set) {
            true => self.worth(yard, set),
            false => missing,
        };
        let without = |piece: usize| match self.slip {
            Slip::OnePieceTakenOut => whole(set ^ 1 << piece),
            _ => self.costs[set ^ 1 << piece],
        };
        members(set).map(without).fold(whole(set), u64::min)
    }

    fn serve(&mut self, yard: usize) {
        if self.slip != Slip::CostsOfTheYardBefore || yard < 2 {
            (0..self.costs.len()).for_each(|set| self.costs[set] = self.cost(yard, set));
        }
        let all = self.served.len() - 1;
        let slip = |slip: Slip| usize::from(self.slip == slip);
        let (least, sets) =
            (slip(Slip::ShareExceeded) as u64, all + 1 - slip(Slip::SetOfAllPassedOver));
        for set in 0..sets {
            if self.share(yard) + self.costs[set] + least <= self.worth(yard, set) {
                self.served[set] = yard + 1;
            }
        }
    }

    /// From the last yard to the second: what is left but for the first part that serves the yards before.
    fn read_off(&self) -> Vec<Vec<usize>> {
        let mut left = self.served.len() - 1;
        let mut piles = vec![Vec::new(); self.sheet.yards];
        for yard in (1..self.sheet.yards).rev() {
            let has_share = |part: usize| {
                self.slip == Slip::ShownWithoutShare
                    || self.worth(yard, left ^ part) >= self.share(yard)
            };
            let serves = |part: usize| {
                self.slip == Slip::ShownWithoutTheOthers || self.serves_before(yard, part)
            };
            let mut parts = (0..=left).filter(|part| part & !left == 0);
            let part = parts.find(|part| serves(*part) && has_share(*part)).unwrap_or(0);
            piles[yard] = members(left ^ part).collect();
            left = part;
        }
        piles[0] = members(left).collect();
        piles
    }
}

fn passes_with(slip: Slip) -> bool {
    passes(&showing(|sheet| show(sheet, slip)))
}

#[test]
fn a_box_without_a_slip_passes() {
    assert!(passes_with(Slip::Nothing));
}

#[test]
fn slips_are_found() {
    for slip in SLIPS {
        assert!(!passes_with(slip), "{slip:?}");
    }
}

/// Piece by piece and over sets, on tables too large to look at all ways, with demands about the shares.
#[test]
fn the_two_searches_agree_on_large_tables() {
    let mut generator = Generator::new(6);
    let mut outcomes = [[0; 2]; 7];
    for family in 0..FAMILIES.len() {
        for sheet in of_family(family, 1).filter(|sheet| sheet.yards > 2 && sheet.pieces > 8) {
            let mut demand = |share: u64| share + share / generator.choose(&[4, 8, 16, 99]);
            let demands: Vec<u64> = shares(&sheet).into_iter().map(&mut demand).collect();
            let found = exact_division(&sheet, &demands).is_some();
            assert_eq!(show_by(&sheet, demands, Slip::Nothing).is_some(), found, "{sheet:?}");
            outcomes[sheet.yards][usize::from(found)] += 1;
        }
    }
    assert!(outcomes[3..].iter().flatten().all(|met| *met > 5), "{outcomes:?}");
}
