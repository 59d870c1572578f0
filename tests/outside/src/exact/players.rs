//! The three players of document 000, section 2, for whom there is no exact division. Items are counted
//! row by row in the matrices.

/// The oscillation matrix.
const OSCILLATION: [i64; 12] = [17, 25, 12, 1, 2, 22, 3, 28, 11, 0, 21, 23];

/// The epsilon matrices.
const EPSILON: [[i64; 12]; 3] = [
    [3, -1, -1, -1, 0, 0, 0, 0, 0, 0, 0, 0],
    [3, -1, 0, 0, -1, 0, 0, 0, -1, 0, 0, 0],
    [3, 0, -1, 0, 0, 0, -1, 0, 0, 0, 0, -1],
];

/// The factors of the base matrix, which is 1 everywhere, of the oscillation matrix and of the epsilon
/// matrices in a player's values; the last is less than the first.
pub type Factors = [u32; 3];

/// "10^6 B + 10^3 O + E"
pub const OF_THE_PAPER: Factors = [1_000_000, 1_000, 1];

pub fn players([base, oscillation, epsilon]: Factors) -> Vec<Vec<u64>> {
    let value = |(of_oscillation, of_epsilon): (&i64, &i64)| {
        let value = i64::from(base)
            + i64::from(oscillation) * of_oscillation
            + i64::from(epsilon) * of_epsilon;
        value.unsigned_abs()
    };
    let row = |row: &[i64; 12]| OSCILLATION.iter().zip(row).map(value).collect();
    EPSILON.iter().map(row).collect()
}
