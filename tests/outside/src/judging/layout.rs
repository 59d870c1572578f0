//! Reads a division as the box prints it, without the cutters line, in document 01's spacing (order 5,
//! refusal 11). Pieces are counted from 0 in what is read.

use crate::limits::MOST_PIECES;
use crate::reader::{number, Sheet};
use crate::stated::Stated;

/// "a worth or share has at most eleven digits, a grade one"
const FIGURE_DIGITS: usize = 11;
const GRADE_DIGITS: usize = 1;
const PIECE_DIGITS: usize = MOST_PIECES.ilog10() as usize + 1;

/// What a yard line states: pile, worth, share, and the piles of the cut.
type Line = (Vec<usize>, u64, u64, Vec<Vec<usize>>);

/// What the text states of the sheet, if it is on the layout, "with other counts of yards, pieces or a
/// cut's piles, or naming a piece not on the sheet" being off it.
pub fn stated(sheet: &Sheet, text: &[u8]) -> Option<Stated> {
    let text: String = text.iter().map(|byte| char::from(*byte)).collect();
    let lines: Vec<&str> = text.strip_suffix('\n')?.split('\n').collect();
    let [head, yard_lines @ .., "(end)"] = &lines[..] else {
        return None;
    };
    let mut stated = Stated { grade: grade_in(head, sheet)?, ..Stated::default() };
    for (yard, line) in yard_lines.iter().enumerate() {
        let (pile, worth, share, cut) = yard_line(line, yard + 1, sheet)?;
        stated.bundles.push(pile);
        stated.worths.push(worth);
        stated.shares.push(share);
        stated.cuts.push(cut);
    }
    (yard_lines.len() == sheet.yards).then_some(stated)
}

/// `(division (yards Y) (pieces P) (grade G))` with the sheet's counts.
fn grade_in(line: &str, sheet: &Sheet) -> Option<u64> {
    let (yards, pieces) = (sheet.yards, sheet.pieces);
    let start = format!("(division (yards {yards}) (pieces {pieces}) (grade ");
    number(line.strip_prefix(&start)?.strip_suffix("))")?.as_bytes(), GRADE_DIGITS)
}

/// `(yard N (pile P .. P) (worth W) (share S) (cut (P .. P) .. (P .. P)))` with the number due.
fn yard_line(line: &str, due: usize, sheet: &Sheet) -> Option<Line> {
    let line = line.strip_prefix(&format!("(yard {due} (pile"))?.strip_suffix("))")?;
    let (pile, line) = line.split_once(") (worth ")?;
    let (worth, line) = line.split_once(") (share ")?;
    let (share, cut) = line.split_once(") (cut ")?;
    let pile = match pile {
        "" => Vec::new(),
        _ => pieces(pile.strip_prefix(' ')?, sheet)?,
    };
    let figure = |word: &str| number(word.as_bytes(), FIGURE_DIGITS);
    Some((pile, figure(worth)?, figure(share)?, cut_piles(cut, sheet)?))
}

/// `(1) () (2 3)`, as many piles as there are yards.
fn cut_piles(groups: &str, sheet: &Sheet) -> Option<Vec<Vec<usize>>> {
    let groups = groups.strip_prefix('(')?.strip_suffix(')')?.split(") (");
    let pile = |words: &str| match words {
        "" => Some(Vec::new()),
        _ => pieces(words, sheet),
    };
    let piles: Vec<Vec<usize>> = groups.map(pile).collect::<Option<_>>()?;
    (piles.len() == sheet.yards).then_some(piles)
}

/// "a pile's pieces rise", and each is on the sheet.
fn pieces(words: &str, sheet: &Sheet) -> Option<Vec<usize>> {
    let piece = |word: &str| {
        let piece = number(word.as_bytes(), PIECE_DIGITS)? as usize;
        (1..=sheet.pieces).contains(&piece).then(|| piece - 1)
    };
    let pieces: Vec<usize> = words.split(' ').map(piece).collect::<Option<_>>()?;
    pieces.is_sorted_by(|before, after| before < after).then_some(pieces)
}

#[cfg(test)]
mod tests {
    use super::stated;
    use crate::printer::lines;
    use crate::reader::{read, Sheet};
    use crate::samples::SHEET_A;

    const DIVISION_OF_A: &str = "(division (yards 2) (pieces 3) (grade 3))\n\
        (yard 1 (pile 1) (worth 5) (share 5) (cut (1) (2 3)))\n\
        (yard 2 (pile 2 3) (worth 4) (share 4) (cut () (1 2 3)))\n\
        (end)\n";

    fn sheet_a() -> Sheet {
        read(SHEET_A.as_bytes()).unwrap()
    }

    #[test]
    fn what_is_printed_is_read_back() {
        let read = stated(&sheet_a(), DIVISION_OF_A.as_bytes()).unwrap();
        assert_eq!(read.bundles, [vec![0], vec![1, 2]]);
        assert_eq!((read.worths[0], read.shares[1], read.grade), (5, 4, 3));
        assert_eq!(read.cuts[1], [vec![], vec![0, 1, 2]]);
        assert_eq!(lines(&sheet_a(), &read).concat() + "(end)\n", DIVISION_OF_A);
    }

    #[test]
    fn figures_and_piles_need_not_be_true() {
        for (old, new) in [
            ("(grade 3)", "(grade 0)"),
            ("(grade 3)", "(grade 9)"),
            ("(worth 5)", "(worth 99999999999)"),
            ("(share 4)", "(share 0)"),
            ("(pile 1)", "(pile)"),
            ("(pile 1)", "(pile 1 2 3)"),
            ("(cut (1)", "(cut ()"),
        ] {
            let text = DIVISION_OF_A.replace(old, new);
            assert!(stated(&sheet_a(), text.as_bytes()).is_some(), "{text}");
        }
    }

    #[test]
    fn texts_off_the_layout_state_nothing() {
        for (old, new) in [
            ("(end)\n", "(end)"),
            ("(end)\n", ""),
            ("(end)\n", "(end)\n(end)\n"),
            ("(end)\n", "(cutters 1)\n(end)\n"),
            ("(yard 1 ", "(yard 2 "),
            ("(yard 1 ", "(yard 01 "),
            ("(yard 1 ", "(yard "),
            ("(yards 2)", "(yards 3)"),
            ("(pieces 3)", "(pieces 03)"),
            ("(grade 3)", "(grade 10)"),
            ("(grade 3)", "(grade -3)"),
            ("(grade 3)", "(grade)"),
            ("(worth 5)", "(worth 05)"),
            ("(worth 5)", "(worth 100000000000)"),
            ("(worth 5)", "(worth)"),
            ("(worth 5)", "(worth 5 5)"),
            ("(worth 5) (share 5)", "(share 5) (worth 5)"),
            ("(share 5)", "(Share 5)"),
            ("(share 5) ", ""),
            ("(pile 1)", "(pile 0)"),
            ("(pile 1)", "(pile 4)"),
            ("(pile 1)", "(pile 257)"),
            ("(pile 1)", "(pile 1 1)"),
            ("(pile 1)", "(pile1)"),
            ("(pile 1)", "(pile (1))"),
            ("(pile 1)", "(pile\t1)"),
            ("(pile 2 3)", "(pile 3 2)"),
            ("(cut (1) (2 3))", "(cut (1) (3 2))"),
            ("(cut (1) (2 3))", "(cut (1) (2 3) ())"),
            ("(cut (1) (2 3))", "(cut (1 2 3))"),
            ("(cut (1) (2 3))", "(cut 1 (2 3))"),
            ("(cut (1) (2 3))", "(cut (1) (2 4))"),
            ("(cut (1) (2 3))", "(cut ((1) (2 3)))"),
            ("(cut (1) (2 3))", "(cut)"),
            ("(cut (1) (2 3))", "(cut \u{e9} (2 3))"),
        ] {
            let text = DIVISION_OF_A.replace(old, new);
            assert_ne!(text, DIVISION_OF_A);
            assert_eq!(stated(&sheet_a(), text.as_bytes()), None, "{text}");
        }
        assert_eq!(stated(&sheet_a(), b""), None);
        assert_eq!(stated(&sheet_a(), b"\n"), None);
    }

    #[test]
    fn a_missing_or_doubled_line_is_found() {
        let lines: Vec<&str> = DIVISION_OF_A.split_inclusive('\n').collect();
        for place in 0..lines.len() {
            let (mut fewer, mut more) = (lines.clone(), lines.clone());
            fewer.remove(place);
            more.insert(place, lines[place]);
            assert_eq!(stated(&sheet_a(), fewer.concat().as_bytes()), None);
            assert_eq!(stated(&sheet_a(), more.concat().as_bytes()), None);
        }
    }
}
