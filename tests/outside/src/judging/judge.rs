//! Judges other people's divisions (order 5): "It is accepted exactly if all it states is true."

use std::collections::HashMap;

use super::layout::stated;
use crate::division::worth;
use crate::grades::{grade, tests_of};
use crate::piles::each_piece_once;
use crate::ratio::margin;
use crate::reader::{read_through_end, Sheet};
use crate::share::maximin_share;
use crate::stated::{worths, Stated};

/// A division that is accepted.
pub struct Accepted {
    pub sheet: Sheet,
    pub stated: Stated,
    /// "For each yard .. its margin".
    pub margins: Vec<i128>,
}

/// The maximin shares of sheets' yards by their marks, kept since many texts have the same sheet.
#[derive(Default)]
pub struct Shares(HashMap<Vec<Vec<u64>>, Vec<u64>>);

impl Shares {
    pub fn of(&mut self, sheet: &Sheet) -> &[u64] {
        let share = |row: &Vec<u64>| maximin_share(row, sheet.yards);
        let shares = || sheet.marks.iter().map(share).collect();
        self.0.entry(sheet.marks.clone()).or_insert_with(shares)
    }
}

/// The answer that is printed, or the refusal's number.
pub fn judge(text: &[u8]) -> Result<Vec<u8>, u8> {
    judge_with(&mut Shares::default(), text).map(|accepted| printed(&accepted))
}

/// `(accepted (margins 10 0 2))`, each "with a minus sign where the pile falls short".
pub fn printed(accepted: &Accepted) -> Vec<u8> {
    let margins: Vec<String> = accepted.margins.iter().map(i128::to_string).collect();
    format!("(accepted (margins {}))\n", margins.join(" ")).into_bytes()
}

/// Each refusal is looked for in the whole of the text before the following one.
pub fn judge_with(shares: &mut Shares, text: &[u8]) -> Result<Accepted, u8> {
    let (sheet, rest) = read_through_end(text)?;
    let stated = stated(&sheet, &rest).ok_or(11)?;
    if !each_piece_everywhere_once(&sheet, &stated) {
        return Err(12);
    }
    let shares = shares.of(&sheet);
    if !is_true(&sheet, shares, &stated) {
        return Err(13);
    }
    let own = stated.worths.iter().zip(shares);
    let margins = own.map(|(worth, share)| margin(sheet.yards, *worth, *share)).collect();
    Ok(Accepted { sheet, stated, margins })
}

/// "12 for a piece that is in no pile or in two, of the division or of a cut"
fn each_piece_everywhere_once(sheet: &Sheet, stated: &Stated) -> bool {
    let mut partitions = stated.cuts.iter().chain([&stated.bundles]);
    partitions.all(|piles| each_piece_once(piles, sheet.pieces))
}

/// "13 for a false worth, share, cut or grade"
fn is_true(sheet: &Sheet, shares: &[u64], stated: &Stated) -> bool {
    stated.worths == worths(sheet, &stated.bundles)
        && stated.shares == shares
        && (0..sheet.yards)
            .all(|yard| reaches(&sheet.marks[yard], &stated.cuts[yard], shares[yard]))
        && stated.grade == u64::from(grade(tests_of(sheet, &stated.bundles, shares)))
}

/// "A cut may be any that reaches the share."
pub fn reaches(row: &[u64], cut: &[Vec<usize>], share: u64) -> bool {
    cut.iter().all(|pile| worth(row, pile) >= share)
}

#[cfg(test)]
mod tests {
    use super::judge;
    use crate::limits::LONGEST_TEXT;

    /// Sheet c, and a division of it that is graded 3.
    const C: &str = "(sheet (yards 3) (pieces 4))\n\
        (yard 1 (marks 1 1 1 1))\n\
        (yard 2 (marks 4 4 3 1))\n\
        (yard 3 (marks 1 1 1 1))\n\
        (end)\n\
        (division (yards 3) (pieces 4) (grade 3))\n\
        (yard 1 (pile 1 4) (worth 2) (share 1) (cut (1) (2) (3 4)))\n\
        (yard 2 (pile 2) (worth 4) (share 4) (cut (3 4) (1) (2)))\n\
        (yard 3 (pile 3) (worth 1) (share 1) (cut (2) (1 4) (3)))\n\
        (end)\n";

    /// The answer to the text with these changes, each made once.
    fn answer(changes: &[(&str, &str)]) -> String {
        let change = |text: String, (old, new): &(&str, &str)| {
            assert!(text.contains(old), "{old}");
            text.replacen(old, new, 1)
        };
        let text = changes.iter().fold(C.to_owned(), change);
        match judge(text.as_bytes()) {
            Ok(printed) => String::from_utf8(printed).unwrap(),
            Err(refusal) => refusal.to_string(),
        }
    }

    #[test]
    fn margins_have_their_sign() {
        assert_eq!(answer(&[]), "(accepted (margins 10 8 2))\n");
        let without_a_pile = [
            ("(pile 1 4) (worth 2)", "(pile 1 3 4) (worth 3)"),
            ("(pile 3) (worth 1)", "(pile) (worth 0)"),
            ("(grade 3)", "(grade 5)"),
        ];
        assert_eq!(answer(&without_a_pile), "(accepted (margins 18 8 -6))\n");
        let just_enough = [
            ("(pile 2) (worth 4)", "(pile 3) (worth 3)"),
            ("(pile 3) (worth 1) (share 1)", "(pile 2) (worth 1) (share 1)"),
            ("(grade 3)", "(grade 4)"),
        ];
        assert_eq!(answer(&just_enough), "(accepted (margins 10 0 2))\n");
    }

    #[test]
    fn refusals_of_the_sheet_come_first() {
        assert_eq!(judge(b""), Err(2));
        let long = C.to_owned() + &" ".repeat(LONGEST_TEXT - C.len());
        assert!(judge(long.as_bytes()).is_ok());
        assert_eq!(judge((long + " ").as_bytes()), Err(1));
        assert_eq!(answer(&[("sheet", "Sheet"), ("(yards 3)", "(yards 7)")]), "3");
        assert_eq!(answer(&[("(yards 3)", "(yards 7)"), ("(pieces 4)", "(pieces 0)")]), "4");
        assert_eq!(answer(&[("(pieces 4)", "(pieces 13)"), ("(marks 1", "(marks 01")]), "5");
        assert_eq!(answer(&[("(marks 1", "(marks 01"), ("(end)", "(End)")]), "6");
        assert_eq!(answer(&[("(end)\n", ""), ("(marks 1", "(marks 5000000000")]), "7");
        assert_eq!(answer(&[("(marks 1", "(marks 5000000000"), ("(worth 2)", "(worth 02)")]), "8");
    }

    /// What comes behind the sheet's end line is the division's business.
    #[test]
    fn texts_off_the_layout_are_refused_by_11() {
        let (sheet, _) = C.split_once("(division").unwrap();
        assert_eq!(judge(sheet.as_bytes()), Err(11));
        assert_eq!(judge((sheet.to_owned() + "; nothing else").as_bytes()), Err(11));
        assert_eq!(judge((sheet.to_owned() + "(end)\n").as_bytes()), Err(11));
        assert_eq!(judge((C.to_owned() + "(end)\n").as_bytes()), Err(11));
        assert_eq!(judge((C.to_owned() + "x").as_bytes()), Err(11));
        assert_eq!(judge(C.trim_end().as_bytes()), Err(11));
        assert_eq!(answer(&[("(worth 2)", "(worth 000000000002)"), ("(pile 2)", "(pile)")]), "11");
        assert_eq!(answer(&[("(pile 3)", "(pile 5)"), ("(grade 3)", "(grade 4)")]), "11");
        assert_eq!(answer(&[("(pile 1 4)", "(pile 4 1)")]), "11");
        assert_eq!(answer(&[("(cut (1) (2) (3 4))", "(cut (1) (2) (3) (4))")]), "11");
        assert_eq!(answer(&[("(division (yards 3)", "(division (yards 2)")]), "11");
        assert_eq!(answer(&[("(worth 1)", "(worth 100000000000)")]), "11");
        assert_eq!(answer(&[("(grade 3)", "(grade 13)")]), "11");
    }

    #[test]
    fn a_piece_in_no_pile_or_in_two_is_refused_by_12() {
        assert_eq!(answer(&[("(pile 1 4)", "(pile 4)"), ("(grade 3)", "(grade 4)")]), "12");
        assert_eq!(answer(&[("(pile 3)", "(pile 2 3)"), ("(share 1)", "(share 2)")]), "12");
        assert_eq!(answer(&[("(cut (1) (2) (3 4))", "(cut (1) () (3 4))")]), "12");
        assert_eq!(answer(&[("(cut (2) (1 4) (3))", "(cut (2) (1 2 4) (3))")]), "12");
        assert_eq!(answer(&[("(cut (2) (1 4) (3))", "(cut (2) (1 2) (3))")]), "12");
    }

    #[test]
    fn a_false_worth_share_cut_or_grade_is_refused_by_13() {
        assert_eq!(answer(&[("(worth 4)", "(worth 5)")]), "13");
        assert_eq!(answer(&[("(worth 4)", "(worth 4294967300)")]), "13");
        assert_eq!(answer(&[("(worth 4)", "(worth 99999999999)")]), "13");
        assert_eq!(answer(&[("(share 4)", "(share 3)")]), "13");
        assert_eq!(answer(&[("(share 4)", "(share 5)")]), "13");
        assert_eq!(answer(&[("(cut (3 4) (1) (2))", "(cut (3) (1 4) (2))")]), "13");
        assert_eq!(answer(&[("(cut (3 4) (1) (2))", "(cut () (1) (2 3 4))")]), "13");
        for grade in [0, 1, 2, 4, 5, 6, 7, 8, 9] {
            assert_eq!(answer(&[("(grade 3)", &format!("(grade {grade})"))]), "13");
        }
    }

    #[test]
    fn spaces_and_remarks_count_for_nothing() {
        let typed = [
            ("(division (", " ; (end)\n\n ( division( "),
            ("(pile 2) ", "( pile   2)"),
            ("(cut (2) (1 4) (3))", "(cut(2)( 1  4 )(3))"),
            ("(3)))\n(end)\n", "(3)) )\n  (end) ; thanks\n ; (division"),
        ];
        assert_eq!(answer(&typed), answer(&[]));
    }
}
