//! What order 4 makes due for a sheet, by the solver, and the kinds of sheets and answers that a comparison
//! has met.

use std::collections::BTreeSet;

use super::judge::judge;
use super::layouts::exact_ways;
use super::line::Shown;
use super::search::exact_division;
use crate::division::{divide, Division};
use crate::kinds::Kinds;
use crate::limits::{MOST_PIECES, MOST_YARDS};
use crate::reader::Sheet;
use crate::widths::{count_row, count_sum, rows_met, sums_met, WIDE_SHARE};

/// So many tables must have no exact division, all of them distinct.
const FEWEST_WITHOUT: usize = 100;

/// Kinds by the number of yards, of pieces, by the grade of the box's division, or by another number.
const NONE_YARDS: &str = "none, yards";
const NONE_PIECES: &str = "none, pieces";
const NONE_GRADE: &str = "none, grade of the box";
const FOUND_YARDS: &str = "found, yards";
const FOUND_PIECES: &str = "found, pieces";
const FOUND_GRADE: &str = "found, grade of the box";
const BETTER_YARDS: &str = "found where the box has grade 4, yards";
const EMPTY_PILES: &str = "found, empty piles shown";
/// 0, 1, or 2 where there are several.
const WAYS: &str = "exact divisions, all ways looked at";

/// What the solver says of a sheet.
pub struct Solution {
    pub shares: Vec<u64>,
    pub division: Shown,
}

#[derive(Default)]
pub struct Met {
    pub tables: usize,
    pub kinds: Kinds,
    without: BTreeSet<Vec<Vec<u64>>>,
}

impl Met {
    /// The solver's answer, counted. An error is a fault of the solver, or a table on which what order 4
    /// has to say of grades does not hold.
    pub fn solve(&mut self, sheet: &Sheet) -> Result<Solution, String> {
        let box_division = divide(sheet);
        let shares = box_division.shares();
        let division = exact_division(sheet, &shares);
        let ways = exact_ways(sheet, &shares);
        let solution = Solution { shares, division };
        let fault = |fault: &str| format!("the solver, {fault}: {:?}", sheet.marks);
        if let Some(piles) = &solution.division {
            judge(sheet, &solution.shares, piles).map_err(|wrong| fault(&wrong))?;
        }
        if ways.is_some_and(|ways| (ways > 0) != solution.division.is_some()) {
            return Err(fault("search and ways differ"));
        }
        let whole = judge(sheet, &solution.shares, &box_division.bundles).is_ok();
        if whole != (box_division.grade < 4) {
            return Err(fault("grade and shares differ"));
        }
        if whole && solution.division.is_none() {
            return Err(fault("the box has an exact division"));
        }
        self.count(sheet, &box_division, &solution, ways);
        Ok(solution)
    }

    /// What is shown for a sheet must be none where none is due, and else any exact division. An exact one
    /// where the solver has none is a fault of the solver.
    pub fn judge(&mut self, sheet: &Sheet, due: &Solution, came: &Shown) -> Result<(), String> {
        let Some(piles) = came else {
            return match &due.division {
                Some(piles) => Err(format!("none came, though there is {piles:?}")),
                None => Ok(()),
            };
        };
        judge(sheet, &due.shares, piles)?;
        let empty = piles.iter().filter(|pile| pile.is_empty()).count();
        self.kinds.count(EMPTY_PILES, empty);
        match due.division {
            Some(_) => Ok(()),
            None => Err(format!("the solver has none, though there is {piles:?}")),
        }
    }

    fn count(&mut self, sheet: &Sheet, by_box: &Division, due: &Solution, ways: Option<usize>) {
        self.tables += 1;
        let kinds = &mut self.kinds;
        let grade = usize::from(by_box.grade);
        let (of_yards, of_pieces, of_grade) = match due.division {
            Some(_) => (FOUND_YARDS, FOUND_PIECES, FOUND_GRADE),
            None => (NONE_YARDS, NONE_PIECES, NONE_GRADE),
        };
        kinds.count(of_yards, sheet.yards);
        kinds.count(of_pieces, sheet.pieces);
        kinds.count(of_grade, grade);
        if due.division.is_some() && grade == 4 {
            kinds.count(BETTER_YARDS, sheet.yards);
        }
        if let Some(ways) = ways {
            kinds.count(WAYS, ways.min(2));
        }
        for (row, share) in sheet.marks.iter().zip(&due.shares) {
            count_row(kinds, row);
            count_sum(kinds, WIDE_SHARE, sheet.yards, *share);
        }
        if due.division.is_none() {
            self.without.insert(sheet.marks.clone());
        }
    }

    pub fn print(&self) {
        println!("tables {}, distinct ones with none {}", self.tables, self.without.len());
        self.kinds.print();
    }

    /// Found with every count of yards and pieces, every grade and up to five empty piles; none with three
    /// and four yards and nine pieces or more; one exact division only, and several; wide marks and shares.
    pub fn all_met(&self) -> Result<(), String> {
        let kinds = &self.kinds;
        kinds.all_met(FOUND_YARDS, 1..=MOST_YARDS)?;
        kinds.all_met(FOUND_PIECES, 1..=MOST_PIECES)?;
        kinds.all_met(FOUND_GRADE, 1..=4)?;
        kinds.all_met(BETTER_YARDS, 3..=MOST_YARDS)?;
        kinds.all_met(EMPTY_PILES, 0..MOST_YARDS)?;
        kinds.all_met(WAYS, 0..=2)?;
        kinds.all_met(NONE_GRADE, [4])?;
        kinds.all_met(NONE_YARDS, 3..=4)?;
        kinds.all_met(NONE_PIECES, 9..=MOST_PIECES)?;
        rows_met(kinds)?;
        sums_met(kinds, WIDE_SHARE)?;
        match self.without.len() < FEWEST_WITHOUT {
            true => Err(format!("distinct tables with none: {}", self.without.len())),
            false => Ok(()),
        }
    }
}

#[cfg(test)]
mod tests {
    use super::*;
    use crate::exact::without::{nine_pieces, NINE_PIECES};

    /// All kinds but those of none, counted without a table.
    fn met_but_none() -> Met {
        let mut met = Met::default();
        let due = [
            (FOUND_YARDS, 1..7),
            (FOUND_PIECES, 1..13),
            (FOUND_GRADE, 1..5),
            (BETTER_YARDS, 3..7),
            (EMPTY_PILES, 0..6),
            (WAYS, 0..3),
        ];
        for (name, numbers) in due {
            numbers.for_each(|number| met.kinds.count(name, number));
        }
        (1..=6).for_each(|yards| count_sum(&mut met.kinds, WIDE_SHARE, yards, 1 << 32));
        for digits in 1..10 {
            count_row(&mut met.kinds, &[4 * 10u64.pow(digits), 4 * 10u64.pow(digits) + 1]);
        }
        count_row(&mut met.kinds, &[65_536]);
        met
    }

    fn unmet(met: &Met) -> String {
        met.all_met().err().unwrap_or_default()
    }

    #[test]
    fn only_what_is_due_may_be_shown() {
        let sheet = Sheet::of(vec![vec![5, 3, 4], vec![6, 2, 2]]);
        let exact = Some(vec![vec![0], vec![1, 2]]);
        let fault = |division: &Shown, came: &Shown| {
            let due = Solution { shares: vec![5, 4], division: division.clone() };
            Met::default().judge(&sheet, &due, came).err().unwrap_or_default()
        };
        assert_eq!(fault(&exact, &exact), "");
        assert_eq!(fault(&exact, &Some(vec![vec![1, 2], vec![0]])), "");
        assert_eq!(fault(&None, &None), "");
        assert_eq!(fault(&exact, &None), "none came, though there is [[0], [1, 2]]");
        assert_eq!(fault(&None, &exact), "the solver has none, though there is [[0], [1, 2]]");
        assert_eq!(fault(&exact, &Some(vec![vec![2], vec![0, 1]])), "yard 1 has 4 of its 5");
    }

    #[test]
    fn too_few_tables_without_an_exact_division_are_found() {
        assert_eq!(unmet(&Met::default()), "never met: found, yards 1");
        let mut met = met_but_none();
        assert_eq!(unmet(&met), "never met: none, grade of the box 4");
        let mut nine = nine_pieces();
        met.solve(&Sheet::of(nine.clone())).unwrap();
        assert_eq!(unmet(&met), "never met: none, yards 4");
        met.kinds.count(NONE_YARDS, 4);
        assert_eq!(unmet(&met), "never met: none, pieces 10");
        (10..=12).for_each(|pieces| met.kinds.count(NONE_PIECES, pieces));
        assert_eq!(unmet(&met), "distinct tables with none: 1");
        for distinct in 2..=FEWEST_WITHOUT {
            nine[0].iter_mut().zip(NINE_PIECES[0]).for_each(|(mark, once)| *mark += once);
            met.solve(&Sheet::of(nine.clone())).unwrap();
            met.solve(&Sheet::of(nine.clone())).unwrap();
            assert_eq!(met.all_met().is_ok(), distinct == FEWEST_WITHOUT);
        }
    }
}
