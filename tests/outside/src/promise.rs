//! What a division promises, checked from the marks: every piece in exactly one pile, and every
//! pile worth at least top / bottom of its yard's maximin share.

use crate::division::{worth, Division};
use crate::piles::each_piece_once;
use crate::ratio::top_and_bottom;
use crate::reader::Sheet;

pub fn keeps_promise(sheet: &Sheet, division: &Division) -> bool {
    each_piece_once(&division.bundles, sheet.pieces)
        && division.bundles.len() == sheet.yards
        && (0..sheet.yards).all(|agent| holds_its_part(sheet, division, agent))
}

fn holds_its_part(sheet: &Sheet, division: &Division, agent: usize) -> bool {
    let (top, bottom) = top_and_bottom(sheet.yards);
    bottom * worth(&sheet.marks[agent], &division.bundles[agent])
        >= top * division.cuts[agent].share
}
