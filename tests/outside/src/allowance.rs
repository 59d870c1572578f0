//! Order 7, "an allowance for cutting": looks at the growth layouts of a row one by one, works out the
//! least pile of each by itself, and keeps the first that is best.

use crate::growth::{first, step};
use crate::limits::MOST_YARDS;
use crate::share::Cut;

/// "The dividing program allows 4,000,000, so no sheet is lost"
pub const ALLOWANCE: u32 = 4_000_000;

/// The allowances at which the answers change, and others, where there are so many growth layouts; rising.
pub fn edges(number: u32) -> Vec<u32> {
    let mut edges = vec![0, 1, number / 2, number - 1, number, number + 1, ALLOWANCE, u32::MAX];
    edges.sort();
    edges.dedup();
    edges
}

/// What the cut answers to an allowance above 0.
#[derive(Debug, PartialEq)]
pub struct Looked {
    /// Whether there are more growth layouts than were looked at.
    pub stopped: bool,
    /// The greatest least pile among them, and the first layout that has it.
    pub best: Cut,
    pub count: u32,
}

/// Stands at the growth layout to be looked at, if one is left.
pub struct Walk<'a> {
    marks: &'a [u64],
    bundles: usize,
    layout: Option<Vec<usize>>,
    best: Option<Cut>,
    count: u32,
}

impl<'a> Walk<'a> {
    pub fn new(marks: &'a [u64], bundles: usize) -> Walk<'a> {
        Walk { marks, bundles, layout: Some(first(marks.len())), best: None, count: 0 }
    }

    /// Looks at growth layouts until there were as many as the allowance, which is above 0 and not below
    /// that of a call before, or until none is left.
    pub fn answer(&mut self, allowance: u32) -> Looked {
        assert!(self.count.max(1) <= allowance, "allowances are above 0 and rise");
        while self.count < allowance {
            let Some(layout) = self.layout.take() else {
                break;
            };
            self.look(layout);
        }
        let best = self.best.clone().expect("a layout was looked at");
        Looked { stopped: self.layout.is_some(), best, count: self.count }
    }

    /// Looks at the growth layout where the walk stood, and goes on to the next.
    fn look(&mut self, mut layout: Vec<usize>) {
        let least = least_pile(self.marks, &layout, self.bundles);
        if self.best.as_ref().is_none_or(|best| least > best.share) {
            self.best = Some(Cut { share: least, layout: layout.clone() });
        }
        self.count += 1;
        self.layout = step(&mut layout, self.bundles).then_some(layout);
    }
}

/// "The least pile of a layout is the smallest worth among all n piles"
pub fn least_pile(marks: &[u64], layout: &[usize], bundles: usize) -> u64 {
    let mut worths = [0; MOST_YARDS];
    layout.iter().zip(marks).for_each(|(bundle, mark)| worths[bundle - 1] += mark);
    worths[..bundles].iter().copied().fold(u64::MAX, u64::min)
}

#[cfg(test)]
mod tests {
    use super::{Looked, Walk, ALLOWANCE};
    use crate::families::FAMILIES;
    use crate::generator::Generator;
    use crate::growth::number;
    use crate::limits::{MOST_PIECES, MOST_YARDS};
    use crate::share::definition::{first_best, growth_layouts};
    use crate::share::{cut, Cut};

    /// What is due, over the list of all growth layouts.
    fn due(marks: &[u64], bundles: usize, allowance: u32) -> Looked {
        let layouts = growth_layouts(marks.len(), bundles);
        let count = layouts.len().min(allowance as usize);
        let stopped = layouts.len() > count;
        let looked_at = layouts.into_iter().take(count);
        let best = first_best(looked_at, marks, bundles, |worth, mark| worth + mark);
        Looked { stopped, best, count: count as u32 }
    }

    #[test]
    fn small_rows_are_as_the_definition_says() {
        let mut generator = Generator::new(0);
        for (name, family) in FAMILIES {
            for items in 0..=4 {
                let marks = &family(&mut generator, MOST_YARDS, items.max(1))[0][..items];
                for bundles in 1..=MOST_YARDS {
                    let mut walk = Walk::new(marks, bundles);
                    for allowance in 1..=number(items, bundles) + 2 {
                        let due = due(marks, bundles, allowance);
                        assert_eq!(walk.answer(allowance), due, "{name}, {marks:?} in {bundles}");
                    }
                }
            }
        }
    }

    #[test]
    fn two_two_two_two_in_two_piles() {
        let looked = |stopped, share, layout: [usize; 4], count| {
            let best = Cut { share, layout: layout.to_vec() };
            Looked { stopped, best, count }
        };
        let mut walk = Walk::new(&[2; 4], 2);
        assert_eq!(walk.answer(1), looked(true, 0, [1; 4], 1));
        assert_eq!(walk.answer(2), looked(true, 2, [1, 1, 1, 2], 2));
        assert_eq!(walk.answer(3), looked(true, 2, [1, 1, 1, 2], 3));
        assert_eq!(walk.answer(4), looked(true, 4, [1, 1, 2, 2], 4));
        assert_eq!(walk.answer(7), looked(true, 4, [1, 1, 2, 2], 7));
        assert_eq!(walk.answer(8), looked(false, 4, [1, 1, 2, 2], 8));
        assert_eq!(walk.answer(u32::MAX), looked(false, 4, [1, 1, 2, 2], 8));
    }

    #[test]
    #[should_panic(expected = "allowances are above 0 and rise")]
    fn a_smaller_allowance_than_before_is_no_use() {
        let mut walk = Walk::new(&[2; 4], 2);
        walk.answer(2);
        walk.answer(1);
    }

    #[test]
    fn twelve_pieces_in_six_piles_are_cut_as_by_the_older_method() {
        let marks = [7, 1, 8, 2, 8, 1, 8, 2, 8, 4, 5, 9];
        let due = Looked { stopped: false, best: cut(&marks, 6), count: 3_403_127 };
        assert_eq!(Walk::new(&marks, 6).answer(ALLOWANCE), due);
    }

    #[test]
    fn no_sheet_is_lost() {
        for pieces in 1..=MOST_PIECES {
            assert!((1..=MOST_YARDS).all(|yards| number(pieces, yards) <= ALLOWANCE));
        }
    }
}
