//! What a division states: its grade, and each yard's pile, worth, share and cut (document 01, "The
//! printed division").

use crate::division::worth;
use crate::grades::{grade, tests_of};
use crate::reader::Sheet;
use crate::share::Cut;

#[derive(Clone, Debug, Default, PartialEq)]
pub struct Stated {
    pub grade: u64,
    /// Each agent's bundle: its items, rising if it is as it should be.
    pub bundles: Vec<Vec<usize>>,
    pub worths: Vec<u64>,
    pub shares: Vec<u64>,
    /// The bundles of each agent's cut.
    pub cuts: Vec<Vec<Vec<usize>>>,
}

impl Stated {
    /// What is true of these bundles, with these shares and cuts.
    pub fn of(sheet: &Sheet, bundles: &[Vec<usize>], cuts: &[Cut]) -> Stated {
        let shares: Vec<u64> = cuts.iter().map(|cut| cut.share).collect();
        Stated {
            grade: grade(tests_of(sheet, bundles, &shares)).into(),
            worths: worths(sheet, bundles),
            bundles: bundles.to_vec(),
            shares,
            cuts: cuts.iter().map(|cut| cut.bundles(sheet.yards)).collect(),
        }
    }
}

/// The worth of each bundle by its agent's marks.
pub fn worths(sheet: &Sheet, bundles: &[Vec<usize>]) -> Vec<u64> {
    sheet.marks.iter().zip(bundles).map(|(row, bundle)| worth(row, bundle)).collect()
}
