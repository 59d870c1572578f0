//! A set of numbers from 0 is a number whose bit k stands for k.

/// The numbers in a set, rising.
pub fn members(set: usize) -> impl Iterator<Item = usize> {
    (0..usize::BITS as usize).filter(move |number| set >> number & 1 == 1)
}

pub fn set_of(members: impl IntoIterator<Item = usize>) -> usize {
    members.into_iter().fold(0, |set, number| set | 1 << number)
}

#[cfg(test)]
mod tests {
    use super::{members, set_of};

    #[test]
    fn members_and_set_of_are_inverse() {
        assert_eq!(members(0b100110).collect::<Vec<usize>>(), [1, 2, 5]);
        assert!((0..4_096).all(|set| set_of(members(set)) == set));
    }
}
