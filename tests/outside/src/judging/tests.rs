//! The comparison without the library, and wrong boxes, each of which it must find.

use std::cell::RefCell;

use super::judge::{judge_with, printed, Accepted, Shares};
use super::{all_met, all_parts, Extent, Met};
use crate::damage::renumbered;
use crate::harness::{filled, Entry, Harness};
use crate::ratio::margin;
use crate::share::cut;

/// Meets every kind.
const SMALL: Extent = Extent {
    sheets: 11,
    falsified: 17,
    every_length: 5,
    reasons: 1_000,
    of_each_damage: 60,
    of_each_typing: 60,
    one_byte_away: false,
};

/// Meets every wrong box.
const SMALLER: Extent = Extent {
    sheets: 61,
    falsified: 6,
    reasons: 100,
    of_each_damage: 10,
    of_each_typing: 10,
    ..SMALL
};

/// What a box answers to a text.
type Answer = fn(&mut Shares, &[u8]) -> Result<Vec<u8>, u8>;

/// A box that answers this, and fills the buffer as it should.
fn answering(answer: Answer) -> impl Fn(&[u8], &mut [u8], &mut usize) -> u8 {
    let shares = RefCell::new(Shares::default());
    move |text, buffer, length| filled(answer(&mut shares.borrow_mut(), text), buffer, length)
}

fn right(shares: &mut Shares, text: &[u8]) -> Result<Vec<u8>, u8> {
    judge_with(shares, text).map(|accepted| printed(&accepted))
}

fn passes(entry: Entry) -> bool {
    all_parts(&mut Harness::<Met>::new(entry), SMALLER).is_ok()
}

#[test]
fn a_right_box_passes_and_meets_every_kind() {
    let entry = answering(right);
    let mut harness = Harness::<Met>::new(&entry);
    let texts = all_parts(&mut harness, SMALL);
    assert!(texts.as_ref().is_ok_and(|texts| *texts > 10_000), "{texts:?}");
    let kinds = &harness.counts.kinds;
    assert_eq!(kinds.all_met("refusal", (1..=8).chain(10..=13)), Ok(()));
    assert_eq!(all_met(kinds, 1), Ok(()));
    assert_eq!(harness.solver.all_met(), Ok(()));
    assert!(all_met(kinds, 1_000_000).is_err_and(|rare| rare.starts_with("too rare: the box, 0")));
}

/// The right answer to the text with every such part replaced.
fn replaced(shares: &mut Shares, text: &[u8], old: &str, new: &str) -> Result<Vec<u8>, u8> {
    let text: String = text.iter().map(|byte| char::from(*byte)).collect();
    right(shares, &text.replace(old, new).chars().map(|byte| byte as u8).collect::<Vec<u8>>())
}

/// The right answer with another number for a refusal.
fn renamed(shares: &mut Shares, text: &[u8], old: u8, new: u8) -> Result<Vec<u8>, u8> {
    right(shares, text).map_err(|number| if number == old { new } else { number })
}

/// An accepted division refused by 13 if this holds of it.
fn refused_if(
    shares: &mut Shares,
    text: &[u8],
    wrong: fn(&Accepted) -> bool,
) -> Result<Vec<u8>, u8> {
    match judge_with(shares, text)? {
        accepted if wrong(&accepted) => Err(13),
        accepted => Ok(printed(&accepted)),
    }
}

/// An accepted division with other margins, by yards, worth and share.
fn other_margins(
    shares: &mut Shares,
    text: &[u8],
    other: fn(usize, u64, u64) -> i128,
) -> Result<Vec<u8>, u8> {
    let mut accepted = judge_with(shares, text)?;
    let figures = accepted.stated.worths.iter().zip(&accepted.stated.shares);
    let margin = |(worth, share): (&u64, &u64)| other(accepted.sheet.yards, *worth, *share);
    accepted.margins = figures.map(margin).collect();
    Ok(printed(&accepted))
}

/// What a box that takes this for the text prints, where the right answer is a refusal by this number.
fn where_refused(
    shares: &mut Shares,
    text: &[u8],
    number: u8,
    (old, new): (&str, &str),
) -> Result<Vec<u8>, u8> {
    match right(shares, text) {
        Err(refusal) if refusal == number => replaced(shares, text, old, new),
        answer => answer,
    }
}

const WRONG: [(&str, Answer); 25] = [
    ("7 for a text behind the end", |shares, text| renamed(shares, text, 11, 7)),
    ("7 not looked for", |shares, text| renamed(shares, text, 7, 11)),
    ("8 behind 11", |shares, text| renamed(shares, text, 8, 11)),
    ("11 as 12", |shares, text| renamed(shares, text, 11, 12)),
    ("12 as 11", |shares, text| renamed(shares, text, 12, 11)),
    ("12 as 13", |shares, text| renamed(shares, text, 12, 13)),
    ("13 as 12", |shares, text| renamed(shares, text, 13, 12)),
    ("margins without their sign", |shares, text| {
        other_margins(shares, text, |yards, worth, share| margin(yards, worth, share).abs())
    }),
    ("margins not below zero", |shares, text| {
        other_margins(shares, text, |yards, worth, share| margin(yards, worth, share).max(0))
    }),
    ("margins of two thirds", |shares, text| {
        other_margins(shares, text, |_, worth, share| 3 * i128::from(worth) - 2 * i128::from(share))
    }),
    ("margins of 32 bits", |shares, text| {
        other_margins(shares, text, |yards, worth, share| {
            i128::from(margin(yards, worth, share) as i32)
        })
    }),
    ("no margin behind a negative one", |shares, text| {
        let mut accepted = judge_with(shares, text)?;
        let place = accepted.margins.iter().position(|margin| *margin < 0);
        accepted.margins.truncate(place.map_or(accepted.margins.len(), |place| place + 1));
        Ok(printed(&accepted))
    }),
    ("no line feed", |shares, text| {
        right(shares, text).map(|printed| printed[..printed.len() - 1].to_vec())
    }),
    ("grade 5 unknown", |shares, text| {
        refused_if(shares, text, |accepted| accepted.stated.grade == 5)
    }),
    ("grade 4 where a margin is below zero", |shares, text| {
        where_refused(shares, text, 13, ("(grade 4)", "(grade 5)"))
    }),
    ("grade 2 for grade 1", |shares, text| {
        where_refused(shares, text, 13, ("(grade 2)", "(grade 1)"))
    }),
    ("only the box's own cut", |shares, text| {
        refused_if(shares, text, |Accepted { sheet, stated, .. }| {
            let own = |yard: usize| cut(&sheet.marks[yard], sheet.yards).bundles(sheet.yards);
            (0..sheet.yards).any(|yard| stated.cuts[yard] != own(yard))
        })
    }),
    ("a negative margin refused", |shares, text| {
        refused_if(shares, text, |accepted| accepted.margins.iter().any(|margin| *margin < 0))
    }),
    ("an empty pile refused", |shares, text| {
        refused_if(shares, text, |accepted| accepted.stated.bundles.iter().any(Vec::is_empty))
    }),
    ("numbers read in 32 bits", |shares, text| {
        right(shares, &renumbered(text, |number| number & u64::from(u32::MAX)))
    }),
    ("pieces read in 8 bits", |shares, text| {
        let narrow = |number| if (257..=268).contains(&number) { number - 256 } else { number };
        match right(shares, text) {
            Err(11) => right(shares, &renumbered(text, narrow)),
            answer => answer,
        }
    }),
    ("the cutters line accepted", |shares, text| {
        where_refused(shares, text, 11, ("(cutters 1)\n", ""))
    }),
    ("a second end line accepted", |shares, text| {
        where_refused(shares, text, 11, ("(end)\n(end)\n", "(end)\n"))
    }),
    ("a leading zero of a share accepted", |shares, text| {
        where_refused(shares, text, 11, ("(share 0", "(share "))
    }),
    ("an end line without its line feed accepted", |shares, text| match right(shares, text) {
        Err(11) => right(shares, &[text, b"\n"].concat()),
        answer => answer,
    }),
];

#[test]
fn wrong_answers_are_found() {
    for (name, answer) in WRONG {
        assert!(!passes(&answering(answer)), "{name}");
    }
}

#[test]
fn a_buffer_looked_at_too_early_is_found() {
    let box_of = answering(right);
    assert!(passes(&box_of));
    assert!(!passes(&|text, buffer, length| match buffer.len() {
        0..=10 => 10,
        _ => box_of(text, buffer, length),
    }));
    assert!(!passes(&|text, buffer, length| match box_of(text, buffer, length) {
        13 => {
            *length = 0;
            13
        }
        number => number,
    }));
}
