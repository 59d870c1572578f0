//! Prints a division (document 01, "The printed division").

use crate::division::{divide, Division};
use crate::reader::{read, Sheet};
use crate::stated::Stated;

/// From a text to the printed division, or the refusal's number.
pub fn shareout(text: &[u8]) -> Result<Vec<u8>, u8> {
    let sheet = read(text)?;
    Ok(print(&sheet, &divide(&sheet)))
}

/// What a program prints: the text, or "one line such as `(refused 4)`".
pub fn output(answer: Result<Vec<u8>, u8>) -> Vec<u8> {
    answer.unwrap_or_else(|refusal| format!("(refused {refusal})\n").into_bytes())
}

pub fn print(sheet: &Sheet, division: &Division) -> Vec<u8> {
    let stated = Stated::of(sheet, &division.bundles, &division.cuts);
    let text = lines(sheet, &stated).concat();
    (text + &group("cutters", &division.cutters) + "\n(end)\n").into_bytes()
}

/// The head and the yard lines, each with its line feed.
pub fn lines(sheet: &Sheet, stated: &Stated) -> Vec<String> {
    let (yards, pieces, grade) = (sheet.yards, sheet.pieces, stated.grade);
    let head = format!("(division (yards {yards}) (pieces {pieces}) (grade {grade}))\n");
    let yard_lines = (0..yards).map(|agent| yard_line(stated, agent));
    std::iter::once(head).chain(yard_lines).collect()
}

/// "A yard line has the pieces it gets, their worth by its marks, its share, and its cut of all
/// pieces into N piles."
fn yard_line(stated: &Stated, agent: usize) -> String {
    let cut = stated.cuts[agent].iter().map(|bundle| format!("({})", numbers(bundle)));
    format!(
        "(yard {} {} (worth {}) (share {}) (cut {}))\n",
        agent + 1,
        group("pile", &stated.bundles[agent]),
        stated.worths[agent],
        stated.shares[agent],
        cut.collect::<Vec<String>>().join(" ")
    )
}

/// "An empty pile prints `(pile)`".
fn group(word: &str, list: &[usize]) -> String {
    match list {
        [] => format!("({word})"),
        _ => format!("({word} {})", numbers(list)),
    }
}

/// The numbers of the yards or pieces in the list, from 1.
fn numbers(list: &[usize]) -> String {
    list.iter().map(|k| (k + 1).to_string()).collect::<Vec<String>>().join(" ")
}

#[cfg(test)]
mod tests {
    use super::shareout;
    use crate::samples::{SHEETS, SHEET_A, SHEET_AS_TYPED};

    fn printed(sample: &str) -> String {
        let (_, text, _) = SHEETS.into_iter().find(|(name, _, _)| *name == sample).unwrap();
        String::from_utf8(shareout(text.as_bytes()).unwrap()).unwrap()
    }

    #[test]
    fn the_readme_shows_sample_a_typed_and_strict_and_its_division() {
        let shown = |text: &str| {
            include_str!("../../../README.md").contains(&format!("\n```\n{text}```\n"))
        };
        assert!(shown(SHEET_AS_TYPED));
        assert!(shown(SHEET_A));
        assert!(shown(&printed("a")));
    }

    #[test]
    fn empty_piles() {
        let division = "(division (yards 2) (pieces 1) (grade 3))\n\
            (yard 1 (pile 1) (worth 7) (share 0) (cut (1) ()))\n\
            (yard 2 (pile) (worth 0) (share 0) (cut (1) ()))\n\
            (cutters 1)\n(end)\n";
        assert_eq!(printed("e"), division);
    }
}
