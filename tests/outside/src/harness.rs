//! Holds an entry of the library against a solver, one text at a time: the answer, the lent length,
//! and every byte of the lent buffer and of the memory on both sides of it.

mod difference;

use crate::kinds::Kinds;
use difference::difference;

/// Text, lent buffer and lent length; answers the refusal's number, or 0 with the printed length stored.
pub type Entry<'a> = &'a dyn Fn(&[u8], &mut [u8], &mut usize) -> u8;

/// What is due for a text: the text to be printed, or the refusal's number.
#[derive(Clone, Debug, PartialEq)]
pub enum Due {
    Text(Vec<u8>),
    Refused(u8),
}

impl Due {
    /// The refusal's number, or 0.
    pub fn number(&self) -> u8 {
        match self {
            Due::Text(_) => 0,
            Due::Refused(refusal) => *refusal,
        }
    }
}

/// Knows what is due for each text.
pub trait Solver {
    /// Whether a text that is due for some text is due for itself.
    const GIVES_ITSELF: bool;

    /// An error is a fault of the solver.
    fn solve(&mut self, text: &[u8]) -> Result<Due, String>;
}

/// The refusal's number or 0, and what the lent length and the memory about the buffer hold.
#[derive(Clone, PartialEq)]
struct Answer {
    number: u8,
    length: usize,
    memory: Vec<u8>,
}

/// What is printed of the greatest sheet is shorter than this.
pub const LARGE_BUFFER: usize = 2_048;
const MARGIN: usize = 64;
/// What the lent length holds before a call: no printed text is as long.
const UNPRINTED_LENGTH: usize = 7_777_777;

#[derive(Default)]
pub struct Counts {
    pub texts: usize,
    pub calls: usize,
    pub kinds: Kinds,
}

/// Which buffers to lend: a large one; or also one that just fits, some too short, and an empty one;
/// or one of every length from 0 to one more than what is printed.
#[derive(Clone, Copy)]
pub enum Buffers {
    Large,
    Several,
    Every,
}

impl Buffers {
    fn lengths(self, fitting: usize) -> Vec<usize> {
        match self {
            Buffers::Large => vec![LARGE_BUFFER],
            Buffers::Several => {
                vec![LARGE_BUFFER, fitting, fitting.saturating_sub(1), fitting / 2, 0]
            }
            Buffers::Every => (0..=fitting + 1).collect(),
        }
    }
}

pub struct Harness<'a, S> {
    entry: Entry<'a>,
    pub solver: S,
    pub counts: Counts,
}

impl<'a, S: Solver + Default> Harness<'a, S> {
    pub fn new(entry: Entry<'a>) -> Harness<'a, S> {
        Harness::with(entry, S::default())
    }
}

impl<'a, S: Solver> Harness<'a, S> {
    pub fn with(entry: Entry<'a>, solver: S) -> Harness<'a, S> {
        Harness { entry, solver, counts: Counts::default() }
    }

    /// Runs one text and gives what was due; an error shows the text with what was due and what came.
    pub fn check(&mut self, text: &[u8], buffers: Buffers) -> Result<Due, String> {
        let due = self.solver.solve(text)?;
        self.counts.texts += 1;
        let fitting = match &due {
            Due::Text(printed) => printed.len(),
            Due::Refused(refusal) => {
                self.counts.kinds.count("refusal", *refusal as usize);
                0
            }
        };
        for lent in buffers.lengths(fitting) {
            self.call(text, &due, lent)?;
        }
        match &due {
            Due::Text(printed) if S::GIVES_ITSELF => self.call(printed, &due, LARGE_BUFFER)?,
            _ => (),
        }
        Ok(due)
    }

    /// One call of the entry with a lent buffer of this length.
    fn call(&mut self, text: &[u8], due: &Due, lent: usize) -> Result<(), String> {
        let before = Answer {
            number: 0,
            length: UNPRINTED_LENGTH,
            memory: (0..lent + 2 * MARGIN).map(unprinted_byte).collect(),
        };
        let due = answer_due(before.clone(), due, lent);
        if due.number == 10 {
            self.counts.kinds.count("refusal", 10);
        }
        let mut came = before;
        let buffer = &mut came.memory[MARGIN..MARGIN + lent];
        came.number = (self.entry)(text, buffer, &mut came.length);
        self.counts.calls += 1;
        match came == due {
            true => Ok(()),
            false => Err(difference(text, lent, &due, &came)),
        }
    }
}

/// A refusal keeps what was there before; a printed text stands at the buffer's front.
fn answer_due(before: Answer, due: &Due, lent: usize) -> Answer {
    match due {
        Due::Refused(refusal) => Answer { number: *refusal, ..before },
        Due::Text(printed) if printed.len() > lent => Answer { number: 10, ..before },
        Due::Text(printed) => {
            let mut answer = Answer { length: printed.len(), ..before };
            answer.memory[MARGIN..MARGIN + printed.len()].copy_from_slice(printed);
            answer
        }
    }
}

/// A byte that no printed text has, another one at each of 127 places in turn.
fn unprinted_byte(place: usize) -> u8 {
    128 + (place % 127) as u8
}

/// Answers as a library should whose text, or refusal, is this one.
#[cfg(test)]
pub fn filled(solution: Result<Vec<u8>, u8>, buffer: &mut [u8], length: &mut usize) -> u8 {
    match solution {
        Err(refusal) => refusal,
        Ok(printed) if printed.len() > buffer.len() => 10,
        Ok(printed) => {
            buffer[..printed.len()].copy_from_slice(&printed);
            *length = printed.len();
            0
        }
    }
}

#[cfg(test)]
mod tests {
    use super::{filled, Buffers, Due, Entry, Harness, Solver, LARGE_BUFFER};
    use crate::limits::{GREATEST_MARK, MOST_PIECES, MOST_YARDS};
    use crate::met::Met;
    use crate::printer::shareout;
    use crate::reader::Sheet;
    use crate::samples::{SHEETS, TEXTS_OF_J};
    use crate::strict::strict_text;

    /// Answers as the library should.
    fn right(text: &[u8], buffer: &mut [u8], length: &mut usize) -> u8 {
        filled(shareout(text), buffer, length)
    }

    fn samples_pass(entry: Entry) -> bool {
        let mut harness = Harness::<Met>::new(entry);
        let sheets = SHEETS.iter().map(|(_, text, _)| text);
        let mut texts = sheets.chain(TEXTS_OF_J.iter().map(|(text, _)| text));
        texts.all(|text| harness.check(text.as_bytes(), Buffers::Several).is_ok())
    }

    /// Does as the library should, and then makes a change if the answer is this one.
    fn altered(
        answer: u8,
        change: fn(&mut [u8], &mut usize),
    ) -> impl Fn(&[u8], &mut [u8], &mut usize) -> u8 {
        move |text, buffer, length| {
            let number = right(text, buffer, length);
            if number == answer {
                change(buffer, length);
            }
            number
        }
    }

    /// Sets the byte at this place, if there is one.
    fn set_byte(buffer: &mut [u8], place: usize) {
        buffer.iter_mut().skip(place).take(1).for_each(|byte| *byte = 0);
    }

    #[test]
    fn right_answers_pass() {
        assert!(samples_pass(&right));
    }

    #[test]
    fn altered_bytes_are_found() {
        assert!(!samples_pass(&altered(0, |buffer, length| set_byte(buffer, *length))));
        assert!(!samples_pass(&altered(0, |buffer, _| set_byte(buffer, 0))));
        assert!(!samples_pass(&altered(10, |buffer, _| set_byte(buffer, 0))));
        assert!(!samples_pass(&altered(8, |buffer, _| set_byte(buffer, 2_047))));
    }

    #[test]
    fn altered_lengths_are_found() {
        assert!(!samples_pass(&altered(0, |_, length| *length += 1)));
        for refusal in [1, 4, 5, 6, 8, 10] {
            assert!(!samples_pass(&altered(refusal, |_, length| *length = 0)), "{refusal}");
        }
        assert!(samples_pass(&altered(9, |_, length| *length = 0)));
    }

    #[test]
    fn wrong_answers_are_found() {
        let replacing = |old: u8, new: u8| {
            move |text: &[u8], buffer: &mut [u8], length: &mut usize| match right(
                text, buffer, length,
            ) {
                number if number == old => new,
                number => number,
            }
        };
        for refusal in [1, 4, 5, 6, 8, 10] {
            assert!(!samples_pass(&replacing(refusal, 9)), "{refusal}");
        }
        assert!(samples_pass(&replacing(9, 0)));
        assert!(!samples_pass(&|_: &[u8], _: &mut [u8], _: &mut usize| 3));
    }

    #[test]
    fn the_buffers_have_the_lengths_they_are_named_for() {
        assert_eq!(Buffers::Several.lengths(9), [2_048, 9, 8, 4, 0]);
        assert_eq!(Buffers::Every.lengths(3), [0, 1, 2, 3, 4]);
        assert_eq!(Buffers::Every.lengths(0), [0, 1]);
    }

    #[test]
    fn the_large_buffer_holds_what_is_printed_of_the_greatest_sheet() {
        let greatest = Sheet::of(vec![vec![GREATEST_MARK; MOST_PIECES]; MOST_YARDS]);
        let text = strict_text(&greatest);
        assert_eq!(text.len(), 930);
        assert!(shareout(&text).unwrap().len() + 1 < LARGE_BUFFER);
    }

    /// The first letter of a text, or refusal 3.
    #[derive(Default)]
    struct FirstLetter;

    impl Solver for FirstLetter {
        const GIVES_ITSELF: bool = true;

        fn solve(&mut self, text: &[u8]) -> Result<Due, String> {
            Ok(text.first().map_or(Due::Refused(3), |letter| Due::Text(vec![*letter])))
        }
    }

    #[test]
    fn a_text_that_is_not_given_for_itself_is_found() {
        let first = |text: &[u8]| text.first().map(|letter| vec![*letter]).ok_or(3);
        let right = |text: &[u8], buffer: &mut [u8], length: &mut usize| {
            filled(first(text), buffer, length)
        };
        let wrong = |text: &[u8], buffer: &mut [u8], length: &mut usize| match text.len() {
            1 => 3,
            _ => right(text, buffer, length),
        };
        let check = |entry| Harness::<FirstLetter>::new(entry).check(b"ab", Buffers::Large);
        assert_eq!(check(&right), Ok(Due::Text(b"a".to_vec())));
        assert!(check(&wrong).is_err());
    }
}
