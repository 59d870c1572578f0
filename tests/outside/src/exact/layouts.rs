//! Order 4: "judged over all ways of giving each piece to a yard". Each way is looked at in turn, with no
//! bound at all.

use crate::reader::Sheet;

/// Where there are more ways, they are not looked at.
const MOST_WAYS: usize = 100_000;

/// In how many ways each yard has its share, if there are not too many ways of giving the pieces.
pub fn exact_ways(sheet: &Sheet, shares: &[u64]) -> Option<usize> {
    let ways = sheet.yards.checked_pow(sheet.pieces as u32).filter(|ways| *ways <= MOST_WAYS)?;
    Some((0..ways).filter(|way| is_exact(sheet, shares, *way)).count())
}

/// Digit k of the way, in the base of the number of yards, is the yard that has piece k.
fn is_exact(sheet: &Sheet, shares: &[u64], way: usize) -> bool {
    let (mut worths, mut digits) = (vec![0; sheet.yards], way);
    for piece in 0..sheet.pieces {
        let yard = digits % sheet.yards;
        worths[yard] += sheet.marks[yard][piece];
        digits /= sheet.yards;
    }
    worths.iter().zip(shares).all(|(worth, share)| worth >= share)
}

#[cfg(test)]
mod tests {
    use super::exact_ways;
    use crate::reader::Sheet;

    #[test]
    fn each_way_is_counted_once() {
        let ways = |marks: &[[u64; 3]], shares: &[u64]| {
            let rows = marks.iter().map(|row| row.to_vec()).collect();
            exact_ways(&Sheet::of(rows), shares)
        };
        assert_eq!(ways(&[[1; 3]; 2], &[0, 0]), Some(8));
        assert_eq!(ways(&[[1; 3]; 2], &[1, 1]), Some(6));
        assert_eq!(ways(&[[1; 3]; 2], &[1, 2]), Some(3));
        assert_eq!(ways(&[[5, 3, 4], [6, 2, 2]], &[5, 4]), Some(2));
        assert_eq!(ways(&[[5, 3, 4], [6, 2, 2]], &[8, 4]), Some(0));
        assert_eq!(ways(&[[5, 3, 4], [6, 2, 2]], &[7, 6]), Some(1));
    }

    #[test]
    fn too_many_ways_are_not_counted() {
        let of_ones = |yards, pieces| Sheet::of(vec![vec![1; pieces]; yards]);
        assert_eq!(exact_ways(&of_ones(3, 10), &[0; 3]), Some(59_049));
        assert_eq!(exact_ways(&of_ones(3, 11), &[0; 3]), None);
        assert_eq!(exact_ways(&of_ones(6, 12), &[0; 6]), None);
    }
}
