//! Sheets with a division behind them, read from the folder `samples/judge`.

macro_rules! sample {
    ($name:literal) => {
        include_str!(concat!("../../../../samples/judge/", $name, ".txt"))
    };
}

/// Name of the file, text, and what is printed for it. The first six have the division that the box prints,
/// without its cutters line.
pub const JUDGED: [(&str, &str, &str); 13] = [
    ("a", sample!("a"), "(accepted (margins 0 0))\n"),
    ("b", sample!("b"), "(accepted (margins 2 60 4))\n"),
    ("c", sample!("c"), "(accepted (margins 10 0 2))\n"),
    ("d", sample!("d"), "(accepted (margins 2 80 2))\n"),
    ("e", sample!("e"), "(accepted (margins 14 0))\n"),
    ("f", sample!("f"), "(accepted (margins 0 0))\n"),
    ("a_typed", JUDGED_AS_TYPED, "(accepted (margins 0 0))\n"),
    ("c_website", sample!("c_website"), "(accepted (margins 2 8 10))\n"),
    ("c_other_cuts", sample!("c_other_cuts"), "(accepted (margins 10 0 2))\n"),
    ("c_all_to_yard_3", sample!("c_all_to_yard_3"), "(accepted (margins -6 -24 26))\n"),
    ("d_false_worth", sample!("d_false_worth"), "(refused 13)\n"),
    ("a_piece_in_two_piles", sample!("a_piece_in_two_piles"), "(refused 12)\n"),
    ("a_text_behind_the_end", sample!("a_text_behind_the_end"), "(refused 11)\n"),
];

/// Sheet a and its division with spaces, remarks and another cut.
pub const JUDGED_AS_TYPED: &str = sample!("a_typed");

#[cfg(test)]
mod tests {
    use super::JUDGED;
    use crate::judging::judge::judge;
    use crate::printer::{output, shareout};
    use crate::samples::SHEETS;

    #[test]
    fn the_samples_are_judged_as_they_say() {
        for (name, text, due) in JUDGED {
            assert_eq!(output(judge(text.as_bytes())), due.as_bytes(), "{name}");
        }
    }

    /// "Behind its strict sheet and without its cutters line, a division the box prints".
    #[test]
    fn the_first_samples_have_the_division_of_the_box() {
        for ((name, text, _), (of_sheet, sheet, _)) in JUDGED.into_iter().zip(SHEETS).take(6) {
            let division = String::from_utf8(shareout(sheet.as_bytes()).unwrap()).unwrap();
            let without = division.split_inclusive('\n').filter(|line| !line.contains("cutters"));
            assert_eq!(
                (name, text),
                (of_sheet, &*(sheet.to_owned() + &without.collect::<String>()))
            );
        }
    }

    #[test]
    fn every_sample_is_listed() {
        let folder = concat!(env!("CARGO_MANIFEST_DIR"), "/../../samples/judge");
        let files = std::fs::read_dir(folder).unwrap().map(|file| file.unwrap().file_name());
        let mut files: Vec<String> = files.filter_map(|file| file.into_string().ok()).collect();
        let mut listed = JUDGED.map(|(name, _, _)| format!("{name}.txt"));
        files.sort();
        listed.sort();
        assert_eq!(files, listed);
    }
}
