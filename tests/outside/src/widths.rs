//! The kinds of marks and sums that order 3 is about: marks above 16 bits, sums above 32 bits, and rows
//! whose marks are alike but for the last digit.

use crate::kinds::Kinds;
use crate::limits::{GREATEST_MARK_BEFORE, MARK_DIGITS, MOST_YARDS};

/// The number of these two is the number of digits of the row's greatest mark.
const WIDE_MARK: &str = "mark above 65,535, digits";
const LAST_DIGIT: &str = "alike but for the last digit, digits";

/// Kinds of sums; the number is the number of piles or yards.
pub const WIDE_SHARE: &str = "share above 4,294,967,295, piles";
pub const WIDE_WORTH: &str = "worth above 4,294,967,295, yards";

pub fn count_row(kinds: &mut Kinds, row: &[u64]) {
    let greatest = row.iter().copied().max().unwrap_or(0);
    if greatest > GREATEST_MARK_BEFORE {
        kinds.count(WIDE_MARK, digits(greatest));
    }
    if alike_but_for_the_last_digit(row) {
        kinds.count(LAST_DIGIT, digits(greatest));
    }
}

pub fn count_sum(kinds: &mut Kinds, name: &str, number: usize, sum: u64) {
    if sum > u64::from(u32::MAX) {
        kinds.count(name, number);
    }
}

/// Marks above 65,535 of each number of digits, and rows alike but for the last digit of each.
pub fn rows_met(kinds: &Kinds) -> Result<(), String> {
    kinds.all_met(WIDE_MARK, 5..=MARK_DIGITS)?;
    kinds.all_met(LAST_DIGIT, 2..=MARK_DIGITS)
}

/// Sums of this kind for every number of piles or yards.
pub fn sums_met(kinds: &Kinds, name: &str) -> Result<(), String> {
    kinds.all_met(name, 1..=MOST_YARDS)
}

fn digits(mark: u64) -> usize {
    mark.max(1).ilog10() as usize + 1
}

/// Marks of two digits or more, some of them distinct.
fn alike_but_for_the_last_digit(row: &[u64]) -> bool {
    let alike = |pair: &[u64]| pair[0] >= 10 && pair[0] / 10 == pair[1] / 10;
    row.windows(2).all(alike) && row.windows(2).any(|pair| pair[0] != pair[1])
}

#[cfg(test)]
mod tests {
    use super::{count_row, count_sum, rows_met, sums_met, WIDE_SHARE, WIDE_WORTH};
    use crate::kinds::Kinds;

    /// The first kind of rows that these rows leave unmet.
    fn unmet(rows: &[Vec<u64>]) -> String {
        let mut kinds = Kinds::default();
        rows.iter().for_each(|row| count_row(&mut kinds, row));
        rows_met(&kinds).err().unwrap_or_default()
    }

    #[test]
    fn rows_without_a_wide_mark_are_found() {
        assert_eq!(unmet(&[vec![], vec![65_535, 0]]), "never met: mark above 65,535, digits 5");
        let mut rows: Vec<Vec<u64>> = (5..10).map(|digits| vec![10u64.pow(digits), 0]).collect();
        rows.push(vec![99_999]);
        assert_eq!(unmet(&rows), "never met: alike but for the last digit, digits 2");
        rows.pop();
        assert_eq!(unmet(&rows), "never met: mark above 65,535, digits 5");
    }

    #[test]
    fn rows_that_differ_in_another_digit_do_not_count() {
        let of_digits =
            |digits: u32| vec![7 * 10u64.pow(digits - 1) + 9, 7 * 10u64.pow(digits - 1)];
        let rows: Vec<Vec<u64>> = (2..=10).map(of_digits).collect();
        assert_eq!(unmet(&rows), "");
        for (place, row) in rows.iter().enumerate() {
            for other in [vec![row[0] + 1, row[1]], vec![row[0]; 2], vec![row[0]]] {
                let mut others = rows.clone();
                others[place] = other;
                let due = format!("never met: alike but for the last digit, digits {}", place + 2);
                assert_eq!(unmet(&others), due);
            }
        }
    }

    #[test]
    fn sums_of_32_bits_do_not_count() {
        let mut kinds = Kinds::default();
        (1..=6).for_each(|piles| count_sum(&mut kinds, WIDE_SHARE, piles, u32::MAX.into()));
        assert!(sums_met(&kinds, WIDE_SHARE).is_err());
        (1..=6).for_each(|piles| count_sum(&mut kinds, WIDE_SHARE, piles, 1 << 32));
        assert_eq!(sums_met(&kinds, WIDE_SHARE), Ok(()));
        let due = "never met: worth above 4,294,967,295, yards 1";
        assert_eq!(sums_met(&kinds, WIDE_WORTH), Err(due.to_owned()));
    }
}
