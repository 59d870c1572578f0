//! The line of order 4: `(exact none)`, or `(exact (3) (1 2))` "with a pile for each yard in yard order,
//! an empty one as `()`".

/// The piles, their pieces rising and from 0, or none.
pub type Shown = Option<Vec<Vec<usize>>>;

pub fn printed(shown: &Shown) -> Vec<u8> {
    let piles = match shown {
        Some(piles) => piles.iter().map(|pile| format!("({})", numbers(pile))).collect(),
        None => vec!["none".to_owned()],
    };
    format!("(exact {})\n", piles.join(" ")).into_bytes()
}

fn numbers(pile: &[usize]) -> String {
    pile.iter().map(|piece| (piece + 1).to_string()).collect::<Vec<String>>().join(" ")
}

/// What the line shows, if it is one to the byte.
pub fn shown(line: &[u8]) -> Option<Shown> {
    let line = std::str::from_utf8(line).ok()?;
    match line.strip_prefix("(exact ")?.strip_suffix(")\n")? {
        "none" => Some(None),
        piles => {
            let inside = piles.strip_prefix('(')?.strip_suffix(')')?;
            inside.split(") (").map(pile).collect::<Option<_>>().map(Some)
        }
    }
}

/// The pieces of a pile, which rise.
fn pile(words: &str) -> Option<Vec<usize>> {
    if words.is_empty() {
        return Some(Vec::new());
    }
    let pieces: Vec<usize> = words.split(' ').map(piece).collect::<Option<_>>()?;
    pieces.is_sorted_by(|before, after| before < after).then_some(pieces)
}

/// A number from 1, as it is printed.
fn piece(word: &str) -> Option<usize> {
    let number: usize = word.parse().ok()?;
    (number.to_string() == word).then(|| number.checked_sub(1))?
}

#[cfg(test)]
mod tests {
    use super::{printed, shown, Shown};

    fn both_ways(line: &str, piles: Shown) {
        assert_eq!(printed(&piles), line.as_bytes());
        assert_eq!(shown(line.as_bytes()), Some(piles));
    }

    #[test]
    fn lines_are_printed_and_read_back() {
        both_ways("(exact none)\n", None);
        both_ways("(exact (3) (1 2))\n", Some(vec![vec![2], vec![0, 1]]));
        both_ways("(exact ())\n", Some(vec![vec![]]));
        both_ways("(exact () (1 12) ())\n", Some(vec![vec![], vec![0, 11], vec![]]));
    }

    #[test]
    fn other_texts_show_nothing() {
        let right = "(exact (3) () (1 2))\n";
        assert!(shown(right.as_bytes()).is_some());
        let changes = [
            ("\n", ""),
            ("\n", "\n\n"),
            ("\n", " \n"),
            ("\n", "\r\n"),
            ("(exact", " (exact"),
            ("(exact", "(Exact"),
            ("(exact ", "(exact"),
            ("(exact ", "(exact  "),
            (" ()", ""),
            (" ()", " ( )"),
            (" () ", "() "),
            ("(1 2)", "(2 1)"),
            ("(1 2)", "(1 1 2)"),
            ("(1 2)", "(1  2)"),
            ("(1 2)", "( 1 2)"),
            ("(1 2)", "(1 2 )"),
            ("(1 2)", "(1 02)"),
            ("(1 2)", "(1 +2)"),
            ("(1 2)", "(0 1 2)"),
            ("(1 2)", "(1 2))"),
            ("(1 2)", "((1 2)"),
            ("(1 2)", "1 2"),
            ("(1 2)", "(1 x)"),
            ("(3) () (1 2)", "none none"),
            ("(3) () (1 2)", "None"),
            ("(3) () (1 2)", ""),
            ("(3)", "none"),
        ];
        for (old, new) in changes {
            let line = right.replacen(old, new, 1);
            let two_piles = (old, new) == (" ()", "");
            assert_eq!(shown(line.as_bytes()).is_some(), two_piles, "{line:?}");
        }
        assert_eq!(shown(b"(exact (1\xff))\n"), None);
        assert_eq!(shown(b""), None);
    }
}
