//! One byte put in or taken out anywhere in a text that is typed freely, and other tails of it.

use super::free::typed_freely;
use super::places::{all, before, put_in_once, taken_out_once};
use super::remarks::remark;
use super::spaces::spaces;
use crate::generator::Generator;

fn byte_put_in(generator: &mut Generator, text: &[u8], bytes: &[u8]) -> Vec<u8> {
    let typed = typed_freely(generator, text);
    let byte = generator.choose(bytes);
    put_in_once(generator, &typed, &all(&typed), &[byte])
}

fn byte_taken_out(generator: &mut Generator, text: &[u8], byte: u8) -> Vec<u8> {
    let typed = typed_freely(generator, text);
    taken_out_once(generator, &typed, &before(&typed, byte))
}

pub fn space_put_in(generator: &mut Generator, text: &[u8]) -> Vec<u8> {
    byte_put_in(generator, text, b" ")
}

pub fn space_taken_out(generator: &mut Generator, text: &[u8]) -> Vec<u8> {
    byte_taken_out(generator, text, b' ')
}

pub fn line_feed_put_in(generator: &mut Generator, text: &[u8]) -> Vec<u8> {
    byte_put_in(generator, text, b"\n")
}

/// At times the line feed behind a remark, which then has the following line in it.
pub fn line_feed_taken_out(generator: &mut Generator, text: &[u8]) -> Vec<u8> {
    byte_taken_out(generator, text, b'\n')
}

pub fn semicolon_put_in(generator: &mut Generator, text: &[u8]) -> Vec<u8> {
    byte_put_in(generator, text, b";")
}

/// What was a remark is read then, if it was the first semicolon of its line.
pub fn semicolon_taken_out(generator: &mut Generator, text: &[u8]) -> Vec<u8> {
    byte_taken_out(generator, text, b';')
}

pub fn tab_or_return_put_in(generator: &mut Generator, text: &[u8]) -> Vec<u8> {
    byte_put_in(generator, text, b"\t\r")
}

/// Anywhere, or among the last bytes.
pub fn cut_short(generator: &mut Generator, text: &[u8]) -> Vec<u8> {
    let mut typed = typed_freely(generator, text);
    let last = generator.choose(&[5, 20, typed.len()]);
    typed.truncate(typed.len() - 1 - generator.index(last.min(typed.len())));
    typed
}

/// Spaces, remarks, line feeds and tokens behind the end.
pub fn with_a_tail(generator: &mut Generator, text: &[u8]) -> Vec<u8> {
    let mut typed = typed_freely(generator, text);
    for _ in 0..1 + generator.index(4) {
        typed.extend(match generator.below(5) {
            0 => spaces(generator),
            1 | 2 => remark(generator),
            3 => b"\n".to_vec(),
            _ => generator.choose(&["(end)", "x", ")", "0", "\t", "\0"]).as_bytes().to_vec(),
        });
    }
    typed
}

#[cfg(test)]
mod tests {
    use super::{byte_put_in, byte_taken_out, cut_short, with_a_tail};
    use crate::generator::Generator;
    use crate::typed::free::typed_freely;

    const TEXT: &[u8] = b"(a (b 1))\n(c)\n";

    #[test]
    fn one_byte_is_put_in_or_taken_out() {
        for seed in 0..300 {
            let typed = typed_freely(&mut Generator::new(seed), TEXT);
            let number = |text: &[u8], due: u8| text.iter().filter(|byte| **byte == due).count();
            let more = byte_put_in(&mut Generator::new(seed), TEXT, b"\t");
            assert_eq!(number(&more, b'\t'), number(&typed, b'\t') + 1);
            assert_eq!(more.len(), typed.len() + 1);
            let less = byte_taken_out(&mut Generator::new(seed), TEXT, b'\n');
            assert_eq!(number(&less, b'\n'), number(&typed, b'\n') - 1);
            assert_eq!(less.len(), typed.len() - 1);
        }
    }

    #[test]
    fn tails_are_cut_or_added() {
        for seed in 0..300 {
            let typed = typed_freely(&mut Generator::new(seed), TEXT);
            let cut = cut_short(&mut Generator::new(seed), TEXT);
            assert!(cut.len() < typed.len() && typed.starts_with(&cut));
            let longer = with_a_tail(&mut Generator::new(seed), TEXT);
            assert!(longer.len() > typed.len() && longer.starts_with(&typed));
        }
    }
}
