//! Layouts, growth layouts and cuts by their definitions, for rows of few items.

use super::Cut;

/// Every list that gives each of so many items a bundle, in dictionary order.
pub fn every_layout(items: usize, bundles: usize) -> impl Iterator<Item = Vec<usize>> {
    let digit =
        move |number: usize, item: usize| number / bundles.pow((items - 1 - item) as u32) % bundles;
    (0..bundles.pow(items as u32))
        .map(move |number| (0..items).map(|item| digit(number, item) + 1).collect())
}

/// "puts the first piece in pile 1 and each later one in a pile in use or in the next new one, up to
/// n piles"
fn is_growth(layout: &[usize], bundles: usize) -> bool {
    (0..layout.len()).all(|item| {
        let before = &layout[..item];
        let next_new = (1..=bundles).find(|bundle| !before.contains(bundle));
        before.contains(&layout[item]) || next_new == Some(layout[item])
    })
}

/// Every growth layout, in dictionary order.
pub fn growth_layouts(items: usize, bundles: usize) -> Vec<Vec<usize>> {
    every_layout(items, bundles).filter(|layout| is_growth(layout, bundles)).collect()
}

/// The definition itself, with this for the sum of two worths: every layout in dictionary order, the
/// first with the greatest least pile.
pub fn by_definition(marks: &[u64], bundles: usize, sum: fn(u64, u64) -> u64) -> Cut {
    first_best(every_layout(marks.len(), bundles), marks, bundles, sum)
}

/// Of these layouts the first with the greatest least pile.
pub fn first_best(
    layouts: impl Iterator<Item = Vec<usize>>,
    marks: &[u64],
    bundles: usize,
    sum: fn(u64, u64) -> u64,
) -> Cut {
    let mut best: Option<Cut> = None;
    for layout in layouts {
        let mut worths = vec![0; bundles];
        for (bundle, mark) in layout.iter().zip(marks) {
            worths[bundle - 1] = sum(worths[bundle - 1], *mark);
        }
        let share = *worths.iter().min().unwrap();
        if best.as_ref().is_none_or(|cut| share > cut.share) {
            best = Some(Cut { share, layout });
        }
    }
    best.unwrap()
}
