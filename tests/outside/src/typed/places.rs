//! Places between the bytes of a text, and bytes put in or taken out there. Place k stands before
//! byte k, and the last place at the text's end.

use crate::generator::Generator;

/// The places that have such bytes before and behind them.
pub fn places(text: &[u8], due: impl Fn(Option<u8>, Option<u8>) -> bool) -> Vec<usize> {
    let behind = |place: usize| text.get(place).copied();
    let before = |place: usize| place.checked_sub(1).and_then(behind);
    (0..=text.len()).filter(|place| due(before(*place), behind(*place))).collect()
}

/// Every place.
pub fn all(text: &[u8]) -> Vec<usize> {
    places(text, |_, _| true)
}

/// The places before this byte.
pub fn before(text: &[u8], byte: u8) -> Vec<usize> {
    places(text, |_, behind| behind == Some(byte))
}

/// The places at which a line could begin.
pub fn line_starts(text: &[u8]) -> Vec<usize> {
    places(text, |before, _| matches!(before, None | Some(b'\n')))
}

pub fn is_bracket(byte: Option<u8>) -> bool {
    matches!(byte, Some(b'(' | b')'))
}

/// One of the places and each other one with one chance in four; rising, as they are handed in.
fn some_of(generator: &mut Generator, places: &[usize]) -> Vec<usize> {
    if places.is_empty() {
        return Vec::new();
    }
    let sure = generator.choose(places);
    let chosen = |place: &usize| *place == sure || generator.below(4) == 0;
    places.iter().copied().filter(chosen).collect()
}

/// Bytes put in at some of the places, new ones at each.
pub fn put_in(
    generator: &mut Generator,
    text: &[u8],
    places: &[usize],
    bytes: impl Fn(&mut Generator) -> Vec<u8>,
) -> Vec<u8> {
    let (mut typed, mut from) = (Vec::new(), 0);
    for place in some_of(generator, places) {
        typed.extend(&text[from..place]);
        typed.extend(bytes(generator));
        from = place;
    }
    [&typed, &text[from..]].concat()
}

/// The bytes behind some of the places taken out.
pub fn taken_out(generator: &mut Generator, text: &[u8], places: &[usize]) -> Vec<u8> {
    let out = some_of(generator, places);
    let kept = text.iter().enumerate().filter(|(place, _)| out.binary_search(place).is_err());
    kept.map(|(_, byte)| *byte).collect()
}

/// Bytes put in at one of the places, if there is one.
pub fn put_in_once(
    generator: &mut Generator,
    text: &[u8],
    places: &[usize],
    bytes: &[u8],
) -> Vec<u8> {
    match places {
        [] => text.to_vec(),
        _ => {
            let place = generator.choose(places);
            [&text[..place], bytes, &text[place..]].concat()
        }
    }
}

/// The byte behind one of the places taken out, if there is one.
pub fn taken_out_once(generator: &mut Generator, text: &[u8], places: &[usize]) -> Vec<u8> {
    match places {
        [] => text.to_vec(),
        _ => {
            let place = generator.choose(places);
            [&text[..place], &text[place + 1..]].concat()
        }
    }
}

#[cfg(test)]
mod tests {
    use super::{all, before, line_starts, put_in, put_in_once, taken_out, taken_out_once};
    use crate::generator::Generator;

    #[test]
    fn places_are_found() {
        assert_eq!(all(b"ab"), [0, 1, 2]);
        assert_eq!(before(b" a  ", b' '), [0, 2, 3]);
        assert_eq!(line_starts(b"a\n\nb"), [0, 2, 3]);
        assert_eq!(line_starts(b"a\n"), [0, 2]);
        assert_eq!(line_starts(b""), [0]);
    }

    #[test]
    fn bytes_are_put_in_and_taken_out_there() {
        let mut generator = Generator::new(0);
        let mut put = [0; 3];
        for _ in 0..200 {
            let text = put_in(&mut generator, b"abc", &[0, 3], |_| b"--".to_vec());
            let found = [b"--abc".to_vec(), b"abc--".to_vec(), b"--abc--".to_vec()]
                .iter()
                .position(|due| *due == text);
            put[found.expect("at one place or both")] += 1;
            let rest = taken_out(&mut generator, b"abc", &[0, 2]);
            assert!([&b"bc"[..], b"ab", b"b"].contains(&&rest[..]));
            let once = put_in_once(&mut generator, b"ab", &[1, 2], b"-");
            assert!([b"a-b", b"ab-"].contains(&&once[..].try_into().unwrap()));
            assert_eq!(taken_out_once(&mut generator, b"abc", &[1]), b"ac");
        }
        assert!(put.iter().all(|times| *times > 10), "{put:?}");
    }

    #[test]
    fn without_a_place_the_text_stays() {
        let mut generator = Generator::new(0);
        assert_eq!(put_in(&mut generator, b"ab", &[], |_| vec![0]), b"ab");
        assert_eq!(taken_out(&mut generator, b"ab", &[]), b"ab");
        assert_eq!(put_in_once(&mut generator, b"ab", &[], b"-"), b"ab");
        assert_eq!(taken_out_once(&mut generator, b"ab", &[]), b"ab");
    }
}
