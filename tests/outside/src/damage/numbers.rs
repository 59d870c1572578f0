//! Damage to the numbers of a text.

use super::bytes::byte_altered;
use crate::generator::Generator;

/// Start and end of each run of digits.
pub fn numbers(text: &[u8]) -> Vec<(usize, usize)> {
    let is_digit = |place: &usize| text.get(*place).is_some_and(u8::is_ascii_digit);
    let starts =
        (0..text.len()).filter(|place| is_digit(place) && (*place == 0 || !is_digit(&(place - 1))));
    starts.map(|start| (start, (start..).find(|place| !is_digit(place)).unwrap())).collect()
}

/// At a limit, just outside one, beyond a width of 8, 16, 32, 48 or 64 bits, or not a number at all.
const NUMBERS: &str =
    "0 1 2 3 6 7 12 13 99 255 256 258 999 1000 9999 65534 65535 65536 65537 70000 \
    99999 100000 131072 4294967294 4294967295 4294967296 4294967297 5000000000 8589934591 \
    9999999999 10000000000 99999999999 281474976710656 281479271677951 \
    18446744073709551615 18446744073709551617 00 01 02 05 000 065535 04294967295 -1 +1 x";

fn other_number(generator: &mut Generator) -> Vec<u8> {
    let numbers: Vec<&str> = NUMBERS.split(' ').collect();
    match generator.below(12) {
        0 => (0..generator.between(6, 60)).map(|_| b'0' + generator.below(10) as u8).collect(),
        1 => generator.below(100_000).to_string().into_bytes(),
        2 => generator.below(20_000_000_000).to_string().into_bytes(),
        3 => Vec::new(),
        _ => generator.choose(&numbers).as_bytes().to_vec(),
    }
}

/// The number in one of the first places is replaced.
fn replaced_among(generator: &mut Generator, text: &[u8], first: usize) -> Vec<u8> {
    let numbers = numbers(text);
    if numbers.is_empty() {
        return text.to_vec();
    }
    let (start, end) = numbers[generator.index(numbers.len().min(first))];
    [&text[..start], &other_number(generator), &text[end..]].concat()
}

pub fn number_replaced(generator: &mut Generator, text: &[u8]) -> Vec<u8> {
    replaced_among(generator, text, text.len())
}

pub fn count_replaced(generator: &mut Generator, text: &[u8]) -> Vec<u8> {
    replaced_among(generator, text, 2)
}

pub fn two_numbers_replaced(generator: &mut Generator, text: &[u8]) -> Vec<u8> {
    let once = number_replaced(generator, text);
    match generator.below(3) {
        0 => count_replaced(generator, &once),
        _ => number_replaced(generator, &once),
    }
}

pub fn number_and_byte_altered(generator: &mut Generator, text: &[u8]) -> Vec<u8> {
    let once = number_replaced(generator, text);
    byte_altered(generator, &once)
}

/// The text with another number for each that has no leading zero and at most 64 bits.
#[cfg(test)]
pub fn renumbered(text: &[u8], other: fn(u64) -> u64) -> Vec<u8> {
    let (mut made, mut from) = (Vec::new(), 0);
    for (start, end) in numbers(text) {
        let digits = String::from_utf8_lossy(&text[start..end]).into_owned();
        let number = digits.parse().ok().filter(|number: &u64| number.to_string() == digits);
        made.extend(&text[from..start]);
        made.extend(number.map_or(digits, |number| other(number).to_string()).bytes());
        from = end;
    }
    [&made, &text[from..]].concat()
}

#[cfg(test)]
mod tests {
    use super::{numbers, renumbered};

    #[test]
    fn runs_of_digits_are_found() {
        assert_eq!(numbers(b"12 a3(456"), [(0, 2), (4, 5), (6, 9)]);
        assert_eq!(numbers(b""), []);
    }

    #[test]
    fn numbers_get_others() {
        let doubled = renumbered(b"6 a07(8x00 99999999999999999999)", |number| 2 * number);
        assert_eq!(doubled, b"12 a07(16x00 99999999999999999999)");
    }
}
