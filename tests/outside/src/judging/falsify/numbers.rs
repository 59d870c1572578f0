//! Every number of a division, lengthened or as another.

use super::Texts;
use crate::damage::numbers;
use crate::generator::Generator;
use crate::judging::source::Source;

/// Each number of the division as what this makes of it.
fn each_number(source: &Source, mut other: impl FnMut(u64) -> String) -> Texts {
    let division = source.lines().concat();
    let mut texts = Vec::new();
    for (start, end) in numbers(division.as_bytes()) {
        let number = division[start..end].parse().expect("a number of the division has 64 bits");
        let line = [&division[..start], &other(number), &division[end..]].concat();
        texts.push(source.with_lines(&[line]));
    }
    texts
}

pub fn leading_zeros(source: &Source) -> Texts {
    each_number(source, |number| format!("0{number}"))
}

/// Two digits more, a digit more in front, or a number that is equal in 8, 16, 32 or 64 bits.
pub fn lengthened(generator: &mut Generator, source: &Source) -> Texts {
    each_number(source, |number| match generator.below(3) {
        0 => format!("{number}{}", generator.between(10, 99)),
        1 => format!("{}{number}", generator.between(2, 9)),
        _ => (u128::from(number) + (1 << generator.choose(&[8, 16, 32, 64]))).to_string(),
    })
}

pub fn one_off(generator: &mut Generator, source: &Source) -> Texts {
    each_number(source, |number| match number.checked_sub(1) {
        Some(less) if generator.below(2) == 0 => less.to_string(),
        _ => (number + 1).to_string(),
    })
}
