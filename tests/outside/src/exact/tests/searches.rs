//! Boxes that search in a wrong way.

use super::{passes, right, shares, sheets, showing, Show};
use crate::division::divide;
use crate::exact::line::Shown;
use crate::exact::search::exact_division;
use crate::reader::Sheet;
use crate::sets::members;
use crate::share::maximin_share;

/// Shows by these demands in place of the shares.
fn by_demands(sheet: &Sheet, demand: impl Fn(usize, u64) -> u64) -> Shown {
    let demands = shares(sheet).into_iter().enumerate().map(|(yard, share)| demand(yard, share));
    exact_division(sheet, &demands.collect::<Vec<u64>>())
}

/// Shows as is right for other marks.
fn by_marks(sheet: &Sheet, kept: impl Fn(u64) -> u64) -> Shown {
    let row = |row: &Vec<u64>| row.iter().copied().map(&kept).collect();
    right(&Sheet::of(sheet.marks.iter().map(row).collect()))
}

/// Shares in another number of piles.
fn by_piles(sheet: &Sheet, piles: usize) -> Shown {
    by_demands(sheet, |yard, _| maximin_share(&sheet.marks[yard], piles))
}

/// Yard after yard takes the first set that has its share of the pieces left among the yards left.
fn shares_of_the_pieces_left(sheet: &Sheet) -> Shown {
    let mut left: Vec<usize> = (0..sheet.pieces).collect();
    let mut piles = Vec::new();
    for (yard, row) in sheet.marks.iter().enumerate() {
        let marks: Vec<u64> = left.iter().map(|piece| row[*piece]).collect();
        let share = maximin_share(&marks, sheet.yards - yard);
        let worth = |set: &usize| members(*set).map(|place| marks[place]).sum::<u64>();
        let all = (1 << left.len()) - 1;
        let last = yard + 1 == sheet.yards;
        let set = if last { all } else { (0..=all).find(|set| worth(set) >= share)? };
        let taken: Vec<usize> = members(set).map(|place| left[place]).collect();
        left.retain(|piece| !taken.contains(piece));
        piles.push(taken);
    }
    Some(piles)
}

/// Each piece goes to the yard that lacks most of its share, and is not taken back.
fn without_going_back(sheet: &Sheet) -> Shown {
    let shares = shares(sheet);
    let mut lacks = shares.clone();
    let mut piles = vec![Vec::new(); sheet.yards];
    for piece in 0..sheet.pieces {
        let yard = (0..sheet.yards).max_by_key(|yard| lacks[*yard])?;
        lacks[yard] = lacks[yard].saturating_sub(sheet.marks[yard][piece]);
        piles[yard].push(piece);
    }
    lacks.iter().all(|lack| *lack == 0).then_some(piles)
}

/// The first pile that can spare a piece loses it.
fn piece_left_over(sheet: &Sheet) -> Shown {
    let (shares, mut piles) = (shares(sheet), right(sheet)?);
    for (yard, pile) in piles.iter_mut().enumerate() {
        let worth: u64 = pile.iter().map(|piece| sheet.marks[yard][*piece]).sum();
        let spare = |piece: &usize| worth - sheet.marks[yard][*piece] >= shares[yard];
        if let Some(place) = pile.iter().position(spare) {
            pile.remove(place);
            break;
        }
    }
    Some(piles)
}

/// The first way, where there are few, that gives each yard its share by worths kept in 32 bits.
fn by_narrow_worths(sheet: &Sheet) -> Shown {
    let ways = sheet.yards.pow(sheet.pieces as u32);
    if ways > 3_000 {
        return right(sheet);
    }
    let yard_of = |way: usize, piece: usize| way / sheet.yards.pow(piece as u32) % sheet.yards;
    let pile = |way: usize, yard: usize| -> Vec<usize> {
        (0..sheet.pieces).filter(|piece| yard_of(way, *piece) == yard).collect()
    };
    let worth = |way: usize, yard: usize| -> u64 {
        pile(way, yard).iter().map(|piece| sheet.marks[yard][*piece]).sum()
    };
    let narrow = |way: usize, yard: usize| worth(way, yard) & u64::from(u32::MAX);
    let shares = shares(sheet);
    let whole = |way: &usize| (0..sheet.yards).all(|yard| narrow(*way, yard) >= shares[yard]);
    let way = (0..ways).find(whole)?;
    Some((0..sheet.yards).map(|yard| pile(way, yard)).collect())
}

/// Changes piles that are right.
fn altered(sheet: &Sheet, alter: impl Fn(&mut Vec<Vec<usize>>)) -> Shown {
    let mut piles = right(sheet)?;
    alter(&mut piles);
    Some(piles)
}

const WRONG: [(&str, Show); 24] = [
    ("always none", |_| None),
    ("none where the box has grade 4", |sheet| {
        Some(divide(sheet)).filter(|division| division.grade < 4).map(|division| division.bundles)
    }),
    ("none where nothing is found without going back", without_going_back),
    ("none where a pile would be empty", |sheet| {
        right(sheet).filter(|piles| piles.iter().all(|pile| !pile.is_empty()))
    }),
    ("none with fewer pieces than yards", |sheet| {
        right(sheet).filter(|_| sheet.pieces >= sheet.yards)
    }),
    ("none where some share is 0", |sheet| {
        right(sheet).filter(|_| shares(sheet).iter().all(|share| *share > 0))
    }),
    ("never none: the division of the box", |sheet| {
        right(sheet).or_else(|| Some(divide(sheet).bundles))
    }),
    ("one less than the share for every yard", |sheet| {
        by_demands(sheet, |_, share| share.saturating_sub(1))
    }),
    ("one less than the share for the last yard", |sheet| {
        by_demands(sheet, |yard, share| share.saturating_sub(u64::from(yard + 1 == sheet.yards)))
    }),
    ("one more than a share above 0", |sheet| by_demands(sheet, |_, share| share + share.min(1))),
    ("no share for the first yard", |sheet| {
        by_demands(sheet, |yard, share| if yard == 0 { 0 } else { share })
    }),
    ("an even part in place of the share", |sheet| {
        let total = |yard: usize| sheet.marks[yard].iter().sum::<u64>();
        by_demands(sheet, |yard, _| total(yard).div_ceil(sheet.yards as u64))
    }),
    ("shares in one pile more", |sheet| by_piles(sheet, sheet.yards + 1)),
    ("shares of the pieces left", shares_of_the_pieces_left),
    ("a piece given twice", |sheet| {
        altered(sheet, |piles| {
            let piece = piles[0].first().copied();
            piles.last_mut().into_iter().for_each(|pile| pile.extend(piece));
        })
    }),
    ("a piece left over", piece_left_over),
    ("a piece beyond the sheet", |sheet| {
        altered(sheet, |piles| piles[0].extend((sheet.pieces < 12).then_some(sheet.pieces)))
    }),
    ("yards from the last to the first", |sheet| altered(sheet, |piles| piles.reverse())),
    ("a mark cut off to 16 bits", |sheet| by_marks(sheet, |mark| mark & 0xffff)),
    ("a mark cut off to 31 bits", |sheet| by_marks(sheet, |mark| mark & 0x7fff_ffff)),
    ("a mark of 24 bits", |sheet| by_marks(sheet, |mark| u64::from(mark as f32 as u32))),
    ("a worth cut off to 32 bits", by_narrow_worths),
    ("a share cut off to 32 bits", |sheet| {
        by_demands(sheet, |_, share| share & u64::from(u32::MAX))
    }),
    ("a share no greater than 32 bits", |sheet| {
        by_demands(sheet, |_, share| share.min(u64::from(u32::MAX)))
    }),
];

#[test]
fn wrong_searches_are_found() {
    for (name, show) in WRONG {
        assert!(!passes(&showing(show)), "{name}");
    }
}

/// Another exact division than the solver's is as good.
#[test]
fn other_divisions_pass() {
    let surplus_to_the_last: Show = |sheet| {
        let (shares, mut piles) = (shares(sheet), right(sheet)?);
        for yard in 0..sheet.yards - 1 {
            let row = &sheet.marks[yard];
            let worth: u64 = piles[yard].iter().map(|piece| row[*piece]).sum();
            let spare = |piece: &usize| worth - row[*piece] >= shares[yard];
            if let Some(place) = piles[yard].iter().position(spare) {
                let piece = piles[yard].remove(place);
                piles[sheet.yards - 1].push(piece);
            }
        }
        Some(piles)
    };
    let differs = |sheet: &Sheet| surplus_to_the_last(sheet) != right(sheet);
    assert!(sheets().filter(differs).count() > 100);
    assert!(passes(&showing(surplus_to_the_last)));
}
