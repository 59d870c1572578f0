//! False worths, shares and grades.

use super::{pairs, Texts};
use crate::generator::Generator;
use crate::judging::source::Source;
use crate::stated::Stated;

/// The figures of one kind, one a yard.
type Figures = fn(&mut Stated) -> &mut Vec<u64>;

const WORTHS: Figures = |stated| &mut stated.worths;
const SHARES: Figures = |stated| &mut stated.shares;

/// "a worth or share has at most eleven digits"
const GREATEST: u64 = 99_999_999_999;

/// Numbers near the figure, equal to it in 8, 16 or 32 bits, ten times it, and 0.
fn others(figure: u64) -> Vec<u64> {
    let others = [
        figure + 1,
        figure.saturating_sub(1),
        figure + (1 << 8),
        figure + (1 << 16),
        figure + (1 << 32),
        10 * figure,
        0,
    ];
    others.into_iter().filter(|other| *other != figure && *other <= GREATEST).collect()
}

/// Each figure as each of its others.
fn each_figure(source: &Source, of: Figures, others: impl Fn(u64) -> Vec<u64>) -> Texts {
    let figures = of(&mut source.stated.clone()).clone();
    let texts = |(yard, figure): (usize, &u64)| -> Texts {
        let text = |other| source.changed(|stated| of(stated)[yard] = other);
        others(*figure).into_iter().map(text).collect()
    };
    figures.iter().enumerate().flat_map(texts).collect()
}

pub fn worths(source: &Source) -> Texts {
    each_figure(source, WORTHS, others)
}

pub fn shares(source: &Source) -> Texts {
    each_figure(source, SHARES, others)
}

/// Every other grade of one digit.
pub fn grades(source: &Source) -> Texts {
    let others = (0..=9).filter(|grade| *grade != source.stated.grade);
    others.map(|other| source.changed(|stated| stated.grade = other)).collect()
}

/// The figures of two yards that differ.
fn swapped(source: &Source, of: Figures) -> Texts {
    let figures = of(&mut source.stated.clone()).clone();
    let unlike = pairs(figures.len()).filter(|(yard, other)| figures[*yard] != figures[*other]);
    let text = |(yard, other)| source.changed(|stated| of(stated).swap(yard, other));
    unlike.map(text).collect()
}

pub fn worths_swapped(source: &Source) -> Texts {
    swapped(source, WORTHS)
}

pub fn shares_swapped(source: &Source) -> Texts {
    swapped(source, SHARES)
}

/// The least and the greatest number of eleven digits that the figure is not.
pub fn eleven_digits(source: &Source) -> Texts {
    let of = |of: Figures| {
        each_figure(source, of, |figure| {
            let digits = [GREATEST / 10 + 1, GREATEST];
            digits.into_iter().filter(|other| *other != figure).collect()
        })
    };
    [of(WORTHS), of(SHARES)].concat()
}

/// Worths and shares of twelve digits and of up to twenty, and grades of two.
pub fn more_digits(generator: &mut Generator, source: &Source) -> Texts {
    let long = generator.between(GREATEST + 1, u64::MAX);
    let of = |of: Figures| each_figure(source, of, |_| vec![GREATEST + 1, long]);
    let (worths, shares) = (of(WORTHS), of(SHARES));
    let grade = |grade| source.changed(|stated| stated.grade = grade);
    let grades = (10..=15).map(grade).collect();
    [worths, shares, grades].concat()
}
