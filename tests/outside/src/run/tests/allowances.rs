//! Wrong boxes that take the allowance otherwise, each of which the comparison must find.

use crate::growth::number;
use crate::harness::filled;
use crate::kinds::Kinds;
use crate::parts::sample_texts;
use crate::printer::shareout;
use crate::reader::read;
use crate::run::allowances::{all_met, check, ANSWER, FEWEST};
use crate::run::Entry;

/// Whether the entry passes on the samples, the kinds met if it does.
fn samples_met(entry: Entry) -> Option<Kinds> {
    check(entry, sample_texts()).ok()
}

/// The division, or the refusal: those of reading, then 14.
fn solution(text: &[u8], allowance: u32) -> Result<Vec<u8>, u8> {
    let sheet = read(text)?;
    match number(sheet.pieces, sheet.yards) > allowance {
        true => Err(14),
        false => shareout(text),
    }
}

fn right(text: &[u8], allowance: u32, buffer: &mut [u8], length: &mut usize) -> u8 {
    filled(solution(text, allowance), buffer, length)
}

#[test]
fn right_answers_pass_and_rare_ones_are_found() {
    let mut kinds = samples_met(&right).expect("right answers pass");
    let unmet = |kinds: &Kinds| all_met(kinds).err().unwrap_or_default();
    for (answer, fewest) in FEWEST {
        let met = kinds.times(ANSWER, usize::from(answer));
        assert_eq!(unmet(&kinds), format!("too rare: {ANSWER}, {answer}: {met}"));
        (met..fewest).for_each(|_| kinds.count(ANSWER, usize::from(answer)));
    }
    for refusal in [3, 7] {
        assert_eq!(unmet(&kinds), format!("never met: {ANSWER} {refusal}"));
        kinds.count(ANSWER, refusal);
    }
    assert_eq!(unmet(&kinds), "");
}

#[test]
fn other_allowances_are_found() {
    let others: [fn(u32) -> u32; 4] = [
        |_| u32::MAX,
        |allowance| allowance.max(1),
        |allowance| allowance & 0xffff,
        |allowance| allowance.saturating_sub(1),
    ];
    for (number, other) in others.into_iter().enumerate() {
        let entry = |text: &[u8], allowance, buffer: &mut [u8], length: &mut usize| {
            right(text, other(allowance), buffer, length)
        };
        assert!(samples_met(&entry).is_none(), "{number}");
    }
}

#[test]
fn refusal_14_before_another_is_found() {
    for refusal in [1, 2, 4, 5, 6, 8] {
        let entry = |text: &[u8], allowance, buffer: &mut [u8], length: &mut usize| match right(
            text, allowance, buffer, length,
        ) {
            number if number == refusal && allowance == 0 => 14,
            number => number,
        };
        assert!(samples_met(&entry).is_none(), "{refusal}");
    }
}

#[test]
fn refusal_10_before_14_is_found() {
    let entry = |text: &[u8], allowance, buffer: &mut [u8], length: &mut usize| {
        let shorter = shareout(text).is_ok_and(|printed| printed.len() > buffer.len());
        if shorter {
            return 10;
        }
        right(text, allowance, buffer, length)
    };
    assert!(samples_met(&entry).is_none());
}
