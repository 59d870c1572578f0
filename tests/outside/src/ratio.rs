//! The part of its maximin share that each yard is promised (document 01, "Rounds").

/// "With K the largest odd number not above N, top is 2K and bottom is 3K - 1."
pub fn top_and_bottom(yards: usize) -> (u64, u64) {
    let k = if yards % 2 == 1 { yards } else { yards - 1 } as u64;
    (2 * k, 3 * k - 1)
}

/// Order 5: "its margin, bottom × worth minus top × share".
pub fn margin(yards: usize, worth: u64, share: u64) -> i128 {
    let (top, bottom) = top_and_bottom(yards);
    i128::from(bottom) * i128::from(worth) - i128::from(top) * i128::from(share)
}

#[cfg(test)]
mod tests {
    use super::{margin, top_and_bottom};

    #[test]
    fn the_formula_gives_the_table() {
        let pairs = [(2, 2), (2, 2), (6, 8), (6, 8), (10, 14), (10, 14)];
        assert_eq!([1, 2, 3, 4, 5, 6].map(top_and_bottom), pairs);
    }

    #[test]
    fn margins_of_sheet_c() {
        assert_eq!(
            [(2, 1), (3, 4), (1, 1)].map(|(worth, share)| margin(3, worth, share)),
            [10, 0, 2]
        );
        assert_eq!(margin(3, 0, 4), -24);
        assert_eq!(margin(6, 0, 1 << 33), -10 * (1 << 33));
    }
}
