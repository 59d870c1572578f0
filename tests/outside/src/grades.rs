//! Grades a division: "The loft's custom, from the whole division; the first that fits", with the even
//! test of order 2, and with the one before it, and the fifth grade of order 5.

use crate::division::{worth, Division};
use crate::ratio::margin;
use crate::reader::Sheet;

/// Whether a division passes the tests for grades 1 to 4.
pub type Tests = [bool; 4];

/// Order 2: "a division is even when N times the worth of each pile is at least its yard's total",
/// which is when the worth is at least the total divided by N, the quotient rounded up.
pub fn tests(sheet: &Sheet, division: &Division) -> Tests {
    tests_of(sheet, &division.bundles, &division.shares())
}

/// The same of any bundles, with the agents' maximin shares.
pub fn tests_of(sheet: &Sheet, bundles: &[Vec<usize>], shares: &[u64]) -> Tests {
    tests_by(sheet, bundles, shares, u64::div_ceil)
}

/// Before order 2 the quotient was rounded down.
pub fn tests_before_order_2(sheet: &Sheet, division: &Division) -> Tests {
    tests_by(sheet, &division.bundles, &division.shares(), |total, yards| total / yards)
}

/// Order 5: "4 now needs every margin to be zero or more, and 5 is the rest".
pub fn grade(tests: Tests) -> u8 {
    tests.iter().position(|passed| *passed).map_or(5, |place| place as u8 + 1)
}

fn tests_by(
    sheet: &Sheet,
    bundles: &[Vec<usize>],
    shares: &[u64],
    quotient: impl Fn(u64, u64) -> u64,
) -> Tests {
    let yards = sheet.yards;
    let own = |agent: usize| worth(&sheet.marks[agent], &bundles[agent]);
    let total = |agent: usize| sheet.marks[agent].iter().sum();
    let envies =
        |agent: usize, bundle: &Vec<usize>| worth(&sheet.marks[agent], bundle) > own(agent);
    [
        (0..yards).all(|agent| !bundles.iter().any(|bundle| envies(agent, bundle))),
        (0..yards).all(|agent| own(agent) >= quotient(total(agent), yards as u64)),
        (0..yards).all(|agent| own(agent) >= shares[agent]),
        (0..yards).all(|agent| margin(yards, own(agent), shares[agent]) >= 0),
    ]
}

#[cfg(test)]
mod tests {
    use super::{grade, tests, tests_before_order_2, tests_of};
    use crate::division::divide;
    use crate::reader::Sheet;

    /// Of three yards the first two hold 1 of 3, and the third the last mark of its row and no less
    /// than its share, but envies the first.
    fn grades(row: [u64; 3]) -> [u8; 2] {
        let sheet = Sheet::of(vec![vec![1; 3], vec![1; 3], row.to_vec()]);
        let division = divide(&sheet);
        assert_eq!(division.bundles, [[0], [1], [2]]);
        [tests_before_order_2(&sheet, &division), tests(&sheet, &division)].map(grade)
    }

    #[test]
    fn even_means_even() {
        assert_eq!(grades([5, 1, 3]), [2, 2]);
        assert_eq!(grades([5, 2, 3]), [2, 3]);
        assert_eq!(grades([6, 2, 3]), [2, 3]);
        assert_eq!(grades([7, 2, 3]), [3, 3]);
        assert_eq!(grades([5, 1, 4]), [2, 2]);
    }

    /// Of sheet c: yard 2 with the third piece has a margin of 0, with the fourth one of less.
    #[test]
    fn a_margin_below_zero_is_grade_5() {
        let sheet = Sheet::of(vec![vec![1; 4], vec![4, 4, 3, 1], vec![1; 4]]);
        let graded = |piles: [&[usize]; 3]| {
            grade(tests_of(&sheet, &piles.map(|pile| pile.to_vec()), &[1, 4, 1]))
        };
        assert_eq!(graded([&[0, 1], &[2], &[3]]), 4);
        assert_eq!(graded([&[0, 1], &[3], &[2]]), 5);
        assert_eq!(graded([&[], &[], &[0, 1, 2, 3]]), 5);
        assert_eq!(graded([&[2], &[0, 1], &[3]]), 3);
    }
}
