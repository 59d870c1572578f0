//! Order 1: "Spaces may now stand freely between brackets, words and numbers and at either end of a
//! line". A text as typed is rewritten line by line into document 01's spacing, and then judged.

/// The lines that are not dropped, each in document 01's spacing, with its line feed if it has one.
pub fn strict_spelling(text: &[u8]) -> Vec<u8> {
    text.split_inclusive(|byte| *byte == b'\n').flat_map(strict_line).collect()
}

/// "A semicolon and what follows it, up to the line feed or the text's end, is dropped, and so is a
/// line, ended or not, left with nothing but spaces."
fn strict_line(line: &[u8]) -> Vec<u8> {
    let (typed, line_feed) = match line.strip_suffix(b"\n") {
        Some(typed) => (typed, &b"\n"[..]),
        None => (line, &b""[..]),
    };
    let kept = typed.split(|byte| *byte == b';').next().unwrap_or_default();
    match respaced(kept) {
        spelling if spelling.is_empty() => Vec::new(),
        spelling => [&spelling, line_feed].concat(),
    }
}

/// "Words, numbers and bracketed groups are parted by one space, with none after an opening or before
/// a closing bracket." Every byte counts as a character, and only byte 32 as a space.
fn respaced(line: &[u8]) -> Vec<u8> {
    let line: String = line.iter().map(|byte| char::from(*byte)).collect();
    let apart = line.replace('(', " ( ").replace(')', " ) ");
    let words: Vec<&str> = apart.split(' ').filter(|word| !word.is_empty()).collect();
    let spelling = words.join(" ").replace("( ", "(").replace(" )", ")");
    spelling.chars().map(|character| character as u8).collect()
}

#[cfg(test)]
mod tests {
    use super::strict_spelling;
    use crate::generator::Generator;
    use crate::samples::SHEET_A;

    fn spelling(text: &str) -> String {
        String::from_utf8(strict_spelling(text.as_bytes())).unwrap()
    }

    #[test]
    fn a_strict_text_is_its_own_spelling() {
        assert_eq!(spelling(SHEET_A), SHEET_A);
    }

    #[test]
    fn spaces_stand_freely() {
        let head = "(sheet (yards 2) (pieces 3))\n";
        assert_eq!(spelling("( sheet(yards 2) (pieces  3 ))\n"), head);
        assert_eq!(spelling("   (sheet( yards   2)(pieces 3)   )  \n"), head);
    }

    #[test]
    fn only_spaces_part_words() {
        assert_eq!(spelling("5 3\n"), "5 3\n");
        assert_eq!(spelling("53\n"), "53\n");
        assert_eq!(spelling("5\t3 \r\n"), "5\t3 \r\n");
        assert_eq!(strict_spelling(b"\xa0 \xff\0 ( \x0b\n"), b"\xa0 \xff\0 (\x0b\n");
    }

    #[test]
    fn a_remark_is_dropped_and_its_line_feed_stays() {
        assert_eq!(spelling("(end);\n"), "(end)\n");
        assert_eq!(spelling("(a) ; (end) ; ) 7\n(b)\n"), "(a)\n(b)\n");
        assert_eq!(strict_spelling(b"5 6;\0\xff\r\n7"), b"5 6\n7");
        assert_eq!(spelling("(end) ; thanks"), "(end)");
    }

    #[test]
    fn a_line_left_with_spaces_alone_is_dropped() {
        assert_eq!(spelling("\n   \n  ; remark\n(end)\n\n"), "(end)\n");
        assert_eq!(spelling("(end)\n; thanks"), "(end)\n");
        assert_eq!(spelling("(end)\n   "), "(end)\n");
        assert_eq!(spelling(" \n;\n;("), "");
    }

    #[test]
    fn a_line_of_another_byte_is_kept() {
        assert_eq!(spelling("\t\n\r\n"), "\t\n\r\n");
    }

    /// The order's sentences byte by byte: the tokens of each line that has one, ended or not.
    fn tokens_by_definition(text: &[u8]) -> Vec<(Vec<Vec<u8>>, bool)> {
        let (mut lines, mut tokens, mut in_word, mut in_remark) = (vec![], vec![], false, false);
        for byte in text {
            match byte {
                b'\n' => lines.push((std::mem::take(&mut tokens), true)),
                _ if in_remark => (),
                b';' | b' ' => (),
                b'(' | b')' => tokens.push(vec![*byte]),
                _ if in_word => tokens.last_mut().unwrap().push(*byte),
                _ => tokens.push(vec![*byte]),
            }
            in_remark = *byte == b';' || in_remark && *byte != b'\n';
            in_word = !b"\n; ()".contains(byte) && !in_remark;
        }
        lines.push((tokens, false));
        lines.into_iter().filter(|(tokens, _)| !tokens.is_empty()).collect()
    }

    #[test]
    fn a_spelling_has_the_tokens_of_its_text() {
        let mut generator = Generator::new(3);
        for _ in 0..20_000 {
            let byte = |_| generator.choose(b"  (()) ab1;\n\n\t\r\xff");
            let text: Vec<u8> = (0..40).map(byte).collect();
            let spelling = strict_spelling(&text);
            assert_eq!(tokens_by_definition(&spelling), tokens_by_definition(&text));
            assert_eq!(strict_spelling(&spelling), spelling, "{}", text.escape_ascii());
            let free =
                |pair: &[u8]| matches!(pair, b"  " | b"( " | b" )" | b" \n" | b"\n " | b"\n\n");
            assert!(!spelling.windows(2).any(free), "{}", spelling.escape_ascii());
            assert!(!spelling.contains(&b';'));
        }
    }
}
