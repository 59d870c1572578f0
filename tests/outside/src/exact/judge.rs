//! Judges piles that are shown as an exact division, from the marks alone: each piece in exactly one
//! pile, one pile a yard, each worth at least the yard's share.

use crate::reader::Sheet;

/// An error says what is wrong.
pub fn judge(sheet: &Sheet, shares: &[u64], piles: &[Vec<usize>]) -> Result<(), String> {
    if piles.len() != sheet.yards {
        return Err(format!("{} piles for {} yards", piles.len(), sheet.yards));
    }
    let mut given = vec![0; sheet.pieces];
    for piece in piles.iter().flatten() {
        *given.get_mut(*piece).ok_or(format!("no piece {} on the sheet", piece + 1))? += 1;
    }
    if let Some(piece) = given.iter().position(|times| *times != 1) {
        return Err(format!("piece {} is given {} times", piece + 1, given[piece]));
    }
    for (yard, pile) in piles.iter().enumerate() {
        let worth: u64 = pile.iter().map(|piece| sheet.marks[yard][*piece]).sum();
        if worth < shares[yard] {
            return Err(format!("yard {} has {worth} of its {}", yard + 1, shares[yard]));
        }
    }
    Ok(())
}

#[cfg(test)]
mod tests {
    use super::judge;
    use crate::reader::Sheet;

    /// What is wrong with these piles of sheet a.
    fn fault(piles: &[&[usize]]) -> String {
        let sheet = Sheet::of(vec![vec![5, 3, 4], vec![6, 2, 2]]);
        let piles: Vec<Vec<usize>> = piles.iter().map(|pile| pile.to_vec()).collect();
        judge(&sheet, &[5, 4], &piles).err().unwrap_or_default()
    }

    #[test]
    fn each_fault_is_named() {
        assert_eq!(fault(&[&[0], &[1, 2]]), "");
        assert_eq!(fault(&[&[1, 2], &[0]]), "");
        assert_eq!(fault(&[&[0], &[1, 2], &[]]), "3 piles for 2 yards");
        assert_eq!(fault(&[&[0, 1, 2]]), "1 piles for 2 yards");
        assert_eq!(fault(&[&[0], &[1, 2, 3]]), "no piece 4 on the sheet");
        assert_eq!(fault(&[&[0, 1], &[1, 2]]), "piece 2 is given 2 times");
        assert_eq!(fault(&[&[0, 0], &[1, 2]]), "piece 1 is given 2 times");
        assert_eq!(fault(&[&[1, 2], &[]]), "piece 1 is given 0 times");
        assert_eq!(fault(&[&[2], &[0, 1]]), "yard 1 has 4 of its 5");
        assert_eq!(fault(&[&[0, 1], &[2]]), "yard 2 has 2 of its 4");
    }
}
