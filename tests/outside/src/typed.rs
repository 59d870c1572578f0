//! Texts as yards type them (order 1). Each kind puts spaces, remarks and blank lines into the strict
//! text of a sheet or takes them out, or slips while typing; the solver decides what is accepted.

mod anywhere;
mod free;
mod lengths;
mod places;
mod remarks;
mod slips;
mod spaces;

use crate::generator::Generator;
use crate::kinds::Kinds;
use crate::strict::strict;

pub use free::typed_freely;

type Make = fn(&mut Generator, &[u8]) -> Vec<u8>;

/// What the texts of a kind come to.
#[derive(Clone, Copy)]
pub enum Outcome {
    /// The sheet that the strict text carries.
    SameSheet,
    /// One of these refusals.
    Refused(&'static [u8]),
    /// A sheet or a refusal.
    Either,
}

use Outcome::{Either, Refused, SameSheet};

pub const KINDS: [(&str, Outcome, Make); 32] = [
    ("spaces beside brackets", SameSheet, spaces::beside_brackets),
    ("spaces beside spaces", SameSheet, spaces::beside_spaces),
    ("spaces at either end of lines", SameSheet, spaces::at_line_ends),
    ("spaces beside brackets taken out", SameSheet, spaces::spare_taken_out),
    ("blank lines", SameSheet, spaces::blank_lines),
    ("unended spaces behind the end", SameSheet, spaces::behind_the_end),
    ("remarks at line ends", SameSheet, remarks::at_line_ends),
    ("lines of remarks", SameSheet, remarks::lines_of_remarks),
    ("unended remark behind the end", SameSheet, remarks::behind_the_end),
    ("typed freely", SameSheet, typed_freely),
    ("typed freely, some of it taken out", SameSheet, free::some_taken_out),
    ("4,096 bytes as typed", SameSheet, lengths::longest),
    ("4,097 bytes as typed", Refused(&[1]), lengths::too_long),
    ("nothing but spaces and remarks", Refused(&[3]), free::nothing_left),
    ("end line without its line feed", Refused(&[7]), slips::end_unended),
    ("words glued", Refused(&[3, 6]), slips::words_glued),
    ("word or number split", Refused(&[3, 6, 7]), slips::word_split),
    ("line feed within a line", Refused(&[3, 6, 7]), slips::line_broken),
    ("line feed of a line taken out", Refused(&[3, 6, 7]), slips::lines_joined),
    ("semicolon within a line", Refused(&[3, 6, 7]), slips::semicolon_within),
    ("marks glued and split in one row", Either, slips::glued_and_split),
    ("space put in anywhere", Either, anywhere::space_put_in),
    ("space taken out anywhere", Either, anywhere::space_taken_out),
    ("line feed put in anywhere", Either, anywhere::line_feed_put_in),
    ("line feed taken out anywhere", Either, anywhere::line_feed_taken_out),
    ("semicolon put in anywhere", Either, anywhere::semicolon_put_in),
    ("semicolon taken out anywhere", Either, anywhere::semicolon_taken_out),
    ("tab or carriage return anywhere", Either, anywhere::tab_or_return_put_in),
    ("typed freely and cut short", Either, anywhere::cut_short),
    ("typed freely with a tail", Either, anywhere::with_a_tail),
    ("damaged, then typed freely", Either, free::damaged_before),
    ("typed freely, then damaged", Either, free::damaged_after),
];

/// Whether the outcome is as the kind says, by the solver of this package.
pub fn holds(outcome: Outcome, source: &[u8], text: &[u8]) -> bool {
    match (outcome, strict(text)) {
        (SameSheet, answer) => answer.as_deref() == Ok(source),
        (Refused(numbers), answer) => answer.is_err_and(|refusal| numbers.contains(&refusal)),
        (Either, _) => true,
    }
}

/// Counted under a kind's name is the refusal's number of each text, 0 if it was accepted. An error
/// names the first kind that was met too rarely, or had too few of either outcome.
pub fn all_met(kinds: &Kinds, fewest: usize) -> Result<(), String> {
    for (name, outcome, _) in KINDS {
        let accepted = kinds.times(name, 0);
        let refused = kinds.met(name) - accepted;
        let (accepted_due, refused_due) = match outcome {
            SameSheet => (fewest, 0),
            Refused(_) => (0, fewest),
            Either => (fewest, fewest),
        };
        if accepted < accepted_due || refused < refused_due {
            return Err(format!("too rare: {name}, accepted {accepted}, refused {refused}"));
        }
    }
    Ok(())
}

#[cfg(test)]
mod tests {
    use super::{all_met, holds, Outcome, KINDS};
    use crate::generator::Generator;
    use crate::kinds::Kinds;
    use crate::samples::{SHEET_A, SHEET_AS_TYPED};
    use crate::strict::{strict, strict_text};
    use crate::tables::any;

    #[test]
    fn every_kind_alters_the_text_and_keeps_its_outcome() {
        for (number, (name, outcome, make)) in KINDS.into_iter().enumerate() {
            let mut generator = Generator::new(number as u64);
            let mut altered = 0;
            for _ in 0..500 {
                let source = strict_text(&any(&mut generator));
                let text = make(&mut generator, &source);
                assert!(holds(outcome, &source, &text), "{name}: {}", text.escape_ascii());
                altered += usize::from(text != source);
            }
            assert!(altered > 300, "{name}: {altered}");
        }
    }

    #[test]
    fn outcomes_hold_or_not() {
        let (strict, typed) = (SHEET_A.as_bytes(), SHEET_AS_TYPED.as_bytes());
        assert!(holds(Outcome::SameSheet, strict, typed));
        assert!(!holds(Outcome::SameSheet, b"(end)\n", typed));
        assert!(!holds(Outcome::SameSheet, strict, b" "));
        assert!(holds(Outcome::Refused(&[2, 3]), strict, b" "));
        assert!(!holds(Outcome::Refused(&[2]), strict, b" "));
        assert!(!holds(Outcome::Refused(&[3]), strict, typed));
    }

    #[test]
    fn a_rare_kind_is_found() {
        let due = |outcome: Outcome| match outcome {
            Outcome::SameSheet => vec![0; 2],
            Outcome::Refused(numbers) => vec![numbers[0]; 2],
            Outcome::Either => vec![0, 0, 3, 4],
        };
        let all_but = |left_out: Option<(usize, usize)>| {
            let mut kinds = Kinds::default();
            for (k, (name, outcome, _)) in KINDS.into_iter().enumerate() {
                let numbers = due(outcome).into_iter().enumerate();
                let kept = numbers.filter(|(place, _)| left_out != Some((k, *place)));
                kept.for_each(|(_, number)| kinds.count(name, usize::from(number)));
            }
            all_met(&kinds, 2)
        };
        assert_eq!(all_but(None), Ok(()));
        for (k, (name, outcome, _)) in KINDS.into_iter().enumerate() {
            for place in 0..due(outcome).len() {
                assert!(all_but(Some((k, place))).is_err_and(|error| error.contains(name)));
            }
        }
    }

    #[test]
    fn either_outcome_has_both() {
        for (name, _, make) in KINDS.iter().filter(|kind| matches!(kind.1, Outcome::Either)) {
            let mut generator = Generator::new(7);
            let mut text = || {
                let source = strict_text(&any(&mut generator));
                make(&mut generator, &source)
            };
            let accepted = (0..500).filter(|_| strict(&text()).is_ok()).count();
            assert!((10..490).contains(&accepted), "{name}: {accepted}");
        }
    }
}
