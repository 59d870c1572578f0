//! A true division falsified in one thing: each kind gives every text that it makes of one source, and has
//! the numbers to which its texts come, 0 where they are accepted.

mod cuts;
mod figures;
mod lines;
mod numbers;
mod pieces;
mod reasons;

use super::source::Source;
use crate::generator::Generator;
use pieces::Of::{Cuts, Division};

pub use reasons::several_reasons;

type Texts = Vec<Vec<u8>>;
type Make = fn(&mut Generator, &Source) -> Texts;

pub const KINDS: [(&str, &[u8], Make); 37] = [
    ("another true cut", &[0], cuts::others),
    ("worth", &[13], |_, source| figures::worths(source)),
    ("share", &[13], |_, source| figures::shares(source)),
    ("grade", &[13], |_, source| figures::grades(source)),
    ("worths of two yards", &[13], |_, source| figures::worths_swapped(source)),
    ("shares of two yards", &[13], |_, source| figures::shares_swapped(source)),
    ("figure of eleven digits", &[13], |_, source| figures::eleven_digits(source)),
    ("figure of more than eleven digits", &[11], figures::more_digits),
    ("piles of two yards", &[0, 13], |_, source| pieces::piles_swapped(source)),
    ("piece moved", &[0, 13], |generator, source| pieces::moved(generator, source, Division)),
    ("piece moved, true worths", &[0, 13], pieces::moved_with_worths),
    ("piece in two piles", &[12], |generator, source| pieces::doubled(generator, source, Division)),
    ("piece in no pile", &[12], |_, source| pieces::dropped(source, Division)),
    ("piece twice in its pile", &[11], |_, source| pieces::twice(source, Division)),
    ("pile not rising", &[11], |_, source| pieces::not_rising(source, Division)),
    ("piece not on the sheet", &[11], |_, source| pieces::unknown(source, Division)),
    ("piece of a cut moved", &[0, 13], |generator, source| pieces::moved(generator, source, Cuts)),
    ("piece in two piles of a cut", &[12], |generator, source| {
        pieces::doubled(generator, source, Cuts)
    }),
    ("piece in no pile of a cut", &[12], |_, source| pieces::dropped(source, Cuts)),
    ("piece twice in its pile of a cut", &[11], |_, source| pieces::twice(source, Cuts)),
    ("pile of a cut not rising", &[11], |_, source| pieces::not_rising(source, Cuts)),
    ("piece of a cut not on the sheet", &[11], |_, source| pieces::unknown(source, Cuts)),
    ("cuts of two yards", &[0, 13], |_, source| cuts::swapped(source)),
    ("all pieces in one pile of a cut", &[0, 13], cuts::all_in_one_pile),
    ("pile of a cut put in", &[11], cuts::pile_put_in),
    ("pile of a cut left out", &[11], |_, source| cuts::pile_left_out(source)),
    ("leading zero", &[11], |_, source| numbers::leading_zeros(source)),
    ("number lengthened", &[11, 13], numbers::lengthened),
    ("number one more or less", &[11, 12, 13], numbers::one_off),
    ("lines swapped", &[11], |_, source| lines::swapped(source)),
    ("line dropped", &[11], |_, source| lines::dropped(source)),
    ("line doubled", &[11], |_, source| lines::doubled(source)),
    ("groups of a yard line swapped", &[11], |_, source| lines::groups_swapped(source)),
    ("with a cutters line", &[11], |_, source| lines::with_cutters(source)),
    ("text behind the end", &[11], |_, source| lines::behind_the_end(source)),
    ("last line without its line feed", &[11], |_, source| lines::unended(source)),
    ("another end line of the sheet", &[7], |_, source| lines::other_end_of_the_sheet(source)),
];

/// Each two of so many numbers from 0.
fn pairs(count: usize) -> impl Iterator<Item = (usize, usize)> {
    (0..count).flat_map(|number| (0..number).map(move |other| (number, other)))
}

#[cfg(test)]
mod tests {
    use super::KINDS;
    use crate::generator::Generator;
    use crate::judging::judge::{judge_with, Shares};
    use crate::judging::source::sources;
    use crate::reader::read;
    use crate::samples::SHEETS;
    use crate::tables::any;

    /// Every text differs from its source, and each number of a kind is met.
    #[test]
    fn the_kinds_come_to_their_numbers() {
        let (mut generator, mut shares) = (Generator::new(0), Shares::default());
        let samples = SHEETS.map(|(name, text, _)| read(text.as_bytes()).expect(name));
        let random: Vec<_> = (0..20).map(|_| any(&mut generator)).collect();
        let sheets = samples.iter().chain(&random).filter(|sheet| sheet.pieces < 10);
        let sources: Vec<_> = sheets.flat_map(|sheet| sources(&mut generator, sheet)).collect();
        let sources = sources.into_iter().map(|(_, source)| source.with_other_cuts(&mut generator));
        let sources: Vec<_> = sources.collect();
        for (name, numbers, make) in KINDS {
            let mut met = Vec::new();
            for source in &sources {
                for text in make(&mut generator, source) {
                    assert_ne!(text, source.text(), "{name}");
                    let number = judge_with(&mut shares, &text).err().unwrap_or(0);
                    assert!(numbers.contains(&number), "{name}, {number}: {}", text.escape_ascii());
                    met.push(number);
                }
            }
            assert!(numbers.iter().all(|number| met.contains(number)), "{name}");
        }
    }
}
