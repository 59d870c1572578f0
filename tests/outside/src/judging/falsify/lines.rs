//! Lines of a division swapped, dropped, doubled or put in, and the sheet's end line altered.

use super::{pairs, Texts};
use crate::judging::source::Source;
use crate::strict::strict_text;

/// Each two lines.
pub fn swapped(source: &Source) -> Texts {
    let lines = source.lines();
    let text = |(line, other)| {
        let mut lines = lines.clone();
        lines.swap(line, other);
        source.with_lines(&lines)
    };
    pairs(lines.len()).map(text).collect()
}

pub fn dropped(source: &Source) -> Texts {
    let lines = source.lines();
    let text = |place| source.with_lines(&[&lines[..place], &lines[place + 1..]].concat());
    (0..lines.len()).map(text).collect()
}

pub fn doubled(source: &Source) -> Texts {
    let lines = source.lines();
    let text = |place| source.with_lines(&[&lines[..=place], &lines[place..]].concat());
    (0..lines.len()).map(text).collect()
}

/// In each yard line, a group and the one behind it.
pub fn groups_swapped(source: &Source) -> Texts {
    let lines = source.lines();
    let words = ["(pile", "(worth", "(share", "(cut"];
    let mut texts = Vec::new();
    for yard in 1..=source.sheet.yards {
        let line = lines[yard].strip_suffix(")\n").expect("a yard line ends in a bracket");
        let starts = words.map(|word| line.find(word).expect("a yard line has every group"));
        for k in 0..3 {
            let end = starts.get(k + 2).map_or(line.len(), |start| start - 1);
            let (first, second) = (&line[starts[k]..starts[k + 1] - 1], &line[starts[k + 1]..end]);
            let mut other = lines.clone();
            other[yard] = [&line[..starts[k]], second, " ", first, &line[end..], ")\n"].concat();
            texts.push(source.with_lines(&other));
        }
    }
    texts
}

/// The line that the box prints before the end, in each place.
pub fn with_cutters(source: &Source) -> Texts {
    let lines = source.lines();
    let text = |place| {
        let mut lines = lines.clone();
        lines.insert(place, "(cutters 1)\n".to_owned());
        source.with_lines(&lines)
    };
    (0..=lines.len()).map(text).collect()
}

pub fn behind_the_end(source: &Source) -> Texts {
    let tails = ["(end)\n", "(cutters 1)\n", "x", "0\n", ")", "\t\n", "\r\n", "()\n"];
    let whole = |tail: &str| [source.text(), tail.as_bytes().to_vec()].concat();
    let repeated = [source.text(), source.lines().concat().into_bytes()].concat();
    let twice = [source.text(), source.text()].concat();
    tails.into_iter().map(whole).chain([repeated, twice]).collect()
}

pub fn unended(source: &Source) -> Texts {
    let text = source.text();
    vec![text[..text.len() - 1].to_vec()]
}

/// Without the line, with another, or with it unended.
pub fn other_end_of_the_sheet(source: &Source) -> Texts {
    let sheet = String::from_utf8(strict_text(&source.sheet)).expect("a strict text is ASCII");
    let ends = ["", "(End)\n", "(end)", "(end) (end)\n", "(end 1)\n", "()\n", "end\n", "(end)\r\n"];
    let text = |end: &str| sheet.replace("(end)\n", end) + &source.lines().concat();
    ends.into_iter().map(|end| text(end).into_bytes()).collect()
}
