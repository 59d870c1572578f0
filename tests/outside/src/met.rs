//! The kinds of divisions that a comparison has met, and whether it has met all it must.

use crate::division::{divide, worth, Division};
use crate::grades::{grade, tests, tests_before_order_2};
use crate::harness::{Due, Solver};
use crate::kinds::Kinds;
use crate::printer::print;
use crate::promise::keeps_promise;
use crate::reader::{read, Sheet};
use crate::ties;
use crate::widths::{count_row, count_sum, rows_met, sums_met, WIDE_SHARE, WIDE_WORTH};

/// So many divisions must have several largest waiting sets in some round.
const FEWEST_TIES: usize = 500;

/// The kind of divisions whose grade order 2 changed.
const REGRADED: &str = "grade 2 before order 2, now";

#[derive(Default)]
pub struct Met {
    pub divisions: usize,
    /// Divisions with several largest waiting sets in some round.
    tied: usize,
    kinds: Kinds,
}

impl Met {
    /// The solver's division, counted; it must keep the promise, and whatever passes the test for a
    /// grade must pass those after it.
    pub fn divide(&mut self, sheet: &Sheet) -> Result<Division, String> {
        let division = divide(sheet);
        if !keeps_promise(sheet, &division) {
            return Err(format!("the solver's division breaks the promise: {:?}", sheet.marks));
        }
        if !tests(sheet, &division).is_sorted() {
            return Err(format!("passes a test and not a later one: {:?}", sheet.marks));
        }
        match (grade(tests_before_order_2(sheet, &division)), division.grade) {
            (before, now) if before == now => (),
            (2, 3) => self.kinds.count(REGRADED, 3),
            (before, now) => return Err(format!("grade {before} became {now}: {:?}", sheet.marks)),
        }
        self.count(sheet, &division);
        Ok(division)
    }

    fn count(&mut self, sheet: &Sheet, division: &Division) {
        self.divisions += 1;
        self.tied += usize::from(!division.tied_rounds.is_empty());
        self.kinds.count("grade", division.grade as usize);
        self.kinds.count("rounds", division.cutters.len());
        for left in &division.tied_rounds {
            self.kinds.count(&tie_of(sheet.yards), *left);
        }
        for (agent, row) in sheet.marks.iter().enumerate() {
            let (kinds, yards) = (&mut self.kinds, sheet.yards);
            count_row(kinds, row);
            count_sum(kinds, WIDE_SHARE, yards, division.cuts[agent].share);
            count_sum(kinds, WIDE_WORTH, yards, worth(row, &division.bundles[agent]));
        }
    }

    pub fn print(&self) {
        println!("divisions {}, with a tie of waiting sets {}", self.divisions, self.tied);
        self.kinds.print();
    }

    /// Grades 1 to 4, divisions whose grade order 2 changed, one to six rounds, the marks and sums that
    /// order 3 is about, and ties, enough and at all their counts of yards.
    pub fn all_met(&self) -> Result<(), String> {
        self.kinds.all_met("grade", 1..=4)?;
        self.kinds.all_met(REGRADED, [3])?;
        self.kinds.all_met("rounds", 1..=6)?;
        rows_met(&self.kinds)?;
        sums_met(&self.kinds, WIDE_SHARE)?;
        sums_met(&self.kinds, WIDE_WORTH)?;
        for (yards, left) in ties::COUNTS {
            self.kinds.all_met(&tie_of(yards), [left])?;
        }
        match self.tied < FEWEST_TIES {
            true => Err(format!("divisions with a tie of waiting sets: {}", self.tied)),
            false => Ok(()),
        }
    }
}

impl Solver for Met {
    const GIVES_ITSELF: bool = false;

    fn solve(&mut self, text: &[u8]) -> Result<Due, String> {
        match read(text) {
            Ok(sheet) => Ok(Due::Text(print(&sheet, &self.divide(&sheet)?))),
            Err(refusal) => Ok(Due::Refused(refusal)),
        }
    }
}

/// The name of a tie; its number is the number of yards left in the round.
fn tie_of(yards: usize) -> String {
    format!("tie in a sheet of {yards} yards, left")
}

#[cfg(test)]
mod tests {
    use super::{Met, REGRADED};
    use crate::families::FAMILIES;
    use crate::reader::Sheet;
    use crate::tables::of_family;
    use crate::ties;
    use crate::widths::{count_sum, WIDE_SHARE};

    #[test]
    fn narrow_marks_and_sums_are_found() {
        let mut met = Met::default();
        (1..=4).for_each(|grade| met.kinds.count("grade", grade));
        met.kinds.count(REGRADED, 3);
        (1..=6).for_each(|rounds| met.kinds.count("rounds", rounds));
        let result = |met: &Met| met.all_met().err().unwrap_or_default();
        assert_eq!(result(&met), "never met: mark above 65,535, digits 5");
        let bases = (1..10).map(|digits| 4 * 10u64.pow(digits)).chain([65_536]);
        for base in bases {
            assert!(met.divide(&Sheet::of(vec![vec![base, base + 1]])).is_ok());
        }
        assert_eq!(result(&met), "never met: share above 4,294,967,295, piles 2");
        (2..=6).for_each(|piles| count_sum(&mut met.kinds, WIDE_SHARE, piles, 1 << 32));
        assert_eq!(result(&met), "never met: worth above 4,294,967,295, yards 2");
    }

    #[test]
    fn no_change_of_grade_is_found() {
        let mut met = Met::default();
        (1..=4).for_each(|grade| met.kinds.count("grade", grade));
        let result = |met: &Met| met.all_met().err().unwrap_or_default();
        assert_eq!(result(&met), "never met: grade 2 before order 2, now 3");
        assert!(met.divide(&Sheet::of(vec![vec![1; 3], vec![1; 3], vec![5, 1, 3]])).is_ok());
        assert_eq!(result(&met), "never met: grade 2 before order 2, now 3");
        assert!(met.divide(&Sheet::of(vec![vec![1; 3], vec![1; 3], vec![5, 2, 3]])).is_ok());
        assert_eq!(result(&met), "never met: rounds 2");
    }

    #[test]
    fn few_ties_are_found() {
        let mut met = Met::default();
        let result = |met: &Met| met.all_met().err().unwrap_or_default();
        assert_eq!(result(&met), "never met: grade 1");
        for (family, _) in FAMILIES.iter().enumerate() {
            of_family(family, 1).for_each(|table| assert!(met.divide(&table).is_ok()));
        }
        assert_eq!(result(&met), "never met: tie in a sheet of 5 yards, left 5");
        ties::tables().iter().for_each(|table| assert!(met.divide(table).is_ok()));
        assert_eq!(result(&met), "");
        met.tied = 499;
        assert_eq!(result(&met), "divisions with a tie of waiting sets: 499");
    }
}
