//! Texts with several reasons to refuse, so that their order shows.

use crate::damage;
use crate::generator::Generator;

/// A small sheet in which refusals 1 and 3 to 8 each have their reason with one chance in three, or none of
/// them, and a division in which 11, 12 and 13 have.
pub fn several_reasons(generator: &mut Generator) -> Vec<u8> {
    let sheet = match generator.below(2) {
        0 => damage::several_reasons(generator, b""),
        _ => b"(sheet (yards 2) (pieces 2))\n(yard 1 (marks 5 6))\n(yard 2 (marks 3 4))\n(end)\n"
            .to_vec(),
    };
    let mut either = |good, bad| if generator.below(3) == 0 { bad } else { good };
    let grade = either("3", "4");
    let first_pile = either("2", "1 2");
    let worth = either("6", "06");
    let share = either("5", "6");
    let cut = either("(1) (2)", "(1) ()");
    let second_pile = either("1", "2 1");
    let head = format!("(division (yards 2) (pieces 2) (grade {grade}))\n");
    let first =
        format!("(yard 1 (pile {first_pile}) (worth {worth}) (share {share}) (cut (1) (2)))\n");
    let second = format!("(yard 2 (pile {second_pile}) (worth 3) (share 3) (cut {cut}))\n");
    [sheet, (head + &first + &second + "(end)\n").into_bytes()].concat()
}

#[cfg(test)]
mod tests {
    use super::several_reasons;
    use crate::generator::Generator;
    use crate::judging::judge::judge;

    #[test]
    fn every_number_is_met() {
        let mut generator = Generator::new(0);
        let number = |text: Vec<u8>| judge(&text).err().unwrap_or(0);
        let met: Vec<u8> = (0..3_000).map(|_| number(several_reasons(&mut generator))).collect();
        for due in [0, 1, 3, 4, 5, 6, 7, 8, 11, 12, 13] {
            assert!(met.contains(&due), "{due}");
        }
    }
}
