//! The solver's judgement of each text, and the kinds of accepted divisions that a comparison has met.

use super::judge::{judge_with, printed, Accepted, Shares};
use crate::harness::{Due, Solver};
use crate::kinds::Kinds;
use crate::limits::MOST_YARDS;
use crate::widths::{count_sum, sums_met, WIDE_SHARE, WIDE_WORTH};

/// Kinds by the number of yards.
const NEGATIVE: &str = "accepted, some margin below zero, yards";
const ZERO: &str = "accepted, some margin of zero, yards";
const POSITIVE: &str = "accepted, all margins above zero, yards";
/// Kinds by the grade, and by the number of a margin's digits.
const GRADE: &str = "accepted, grade";
const DIGITS_BELOW: &str = "margin below zero, digits";
const DIGITS_ABOVE: &str = "margin above zero, digits";
/// A margin of more digits is rare, or above what any division has.
const MOST_DIGITS: usize = 11;

#[derive(Default)]
pub struct Met {
    pub accepted: usize,
    pub kinds: Kinds,
    shares: Shares,
}

impl Met {
    fn count(&mut self, Accepted { sheet, stated, margins }: &Accepted) {
        self.accepted += 1;
        let (kinds, yards) = (&mut self.kinds, sheet.yards);
        kinds.count(GRADE, stated.grade as usize);
        let signs = [
            (NEGATIVE, margins.iter().any(|margin| *margin < 0)),
            (ZERO, margins.contains(&0)),
            (POSITIVE, margins.iter().all(|margin| *margin > 0)),
        ];
        for (name, _) in signs.iter().filter(|(_, met)| *met) {
            kinds.count(name, yards);
        }
        for margin in margins.iter().filter(|margin| **margin != 0) {
            let name = if *margin < 0 { DIGITS_BELOW } else { DIGITS_ABOVE };
            kinds.count(name, margin.unsigned_abs().ilog10() as usize + 1);
        }
        for (worth, share) in stated.worths.iter().zip(&stated.shares) {
            count_sum(kinds, WIDE_WORTH, yards, *worth);
            count_sum(kinds, WIDE_SHARE, yards, *share);
        }
    }

    /// Every grade; margins below and above zero of every number of digits, some or all of them, and of zero,
    /// with every number of yards that can have them; sums above 32 bits.
    pub fn all_met(&self) -> Result<(), String> {
        let kinds = &self.kinds;
        kinds.all_met(GRADE, 1..=5)?;
        kinds.all_met(NEGATIVE, 2..=MOST_YARDS)?;
        kinds.all_met(ZERO, 1..=MOST_YARDS)?;
        kinds.all_met(POSITIVE, 2..=MOST_YARDS)?;
        kinds.all_met(DIGITS_BELOW, 1..=MOST_DIGITS)?;
        kinds.all_met(DIGITS_ABOVE, 1..=MOST_DIGITS)?;
        sums_met(kinds, WIDE_WORTH)?;
        sums_met(kinds, WIDE_SHARE)
    }
}

impl Solver for Met {
    const GIVES_ITSELF: bool = false;

    /// An accepted division is graded 5 exactly where some margin is below zero.
    fn solve(&mut self, text: &[u8]) -> Result<Due, String> {
        let accepted = match judge_with(&mut self.shares, text) {
            Ok(accepted) => accepted,
            Err(refusal) => return Ok(Due::Refused(refusal)),
        };
        let falls_short = accepted.margins.iter().any(|margin| *margin < 0);
        if falls_short != (accepted.stated.grade == 5) {
            return Err(format!("grade and margins differ: {}", text.escape_ascii()));
        }
        self.count(&accepted);
        Ok(Due::Text(printed(&accepted)))
    }
}

#[cfg(test)]
mod tests {
    use super::{Met, NEGATIVE, POSITIVE, ZERO};
    use crate::harness::Solver;
    use crate::judging::samples::JUDGED;

    #[test]
    fn margins_are_counted_by_their_sign() {
        let mut met = Met::default();
        for (name, text, _) in JUDGED {
            assert!(met.solve(text.as_bytes()).is_ok(), "{name}");
        }
        assert_eq!(met.accepted, 10);
        assert_eq!([2, 3].map(|yards| met.kinds.times(NEGATIVE, yards)), [0, 1]);
        assert_eq!([2, 3].map(|yards| met.kinds.times(ZERO, yards)), [4, 2]);
        assert_eq!([2, 3].map(|yards| met.kinds.times(POSITIVE, yards)), [0, 3]);
        assert_eq!(met.all_met(), Err("never met: accepted, grade 2".to_owned()));
    }
}
