//! Divides a sheet among its yards and grades the result (document 01, "Rounds" and "Grades").

use crate::grades::{grade, tests};
use crate::ratio::top_and_bottom;
use crate::reader::Sheet;
use crate::serving::{first_serving, largest_waiting_sets, Suitable};
use crate::sets::set_of;
use crate::share::{cut, Cut};

pub struct Division {
    pub grade: u8,
    /// Each agent's bundle: its items, rising.
    pub bundles: Vec<Vec<usize>>,
    /// Each agent's maximin share and cut of all items.
    pub cuts: Vec<Cut>,
    /// The cutter of each round in turn.
    pub cutters: Vec<usize>,
    /// The number of agents left in each round in which the tie rule had to pick a waiting set.
    pub tied_rounds: Vec<usize>,
}

impl Division {
    /// Each agent's maximin share.
    pub fn shares(&self) -> Vec<u64> {
        self.cuts.iter().map(|cut| cut.share).collect()
    }
}

pub fn divide(sheet: &Sheet) -> Division {
    divide_by(sheet, sheet.marks.iter().map(|row| cut(row, sheet.yards)).collect())
}

/// The division in which these are the maximin shares and cuts of all items.
pub(crate) fn divide_by(sheet: &Sheet, cuts: Vec<Cut>) -> Division {
    let mut division = Division {
        grade: 0,
        bundles: vec![Vec::new(); sheet.yards],
        cuts,
        cutters: Vec::new(),
        tied_rounds: Vec::new(),
    };
    let agents: Vec<usize> = (0..sheet.yards).collect();
    let items: Vec<usize> = (0..sheet.pieces).collect();
    round(sheet, &agents, &items, &mut division);
    division.grade = grade(tests(sheet, &division));
    division
}

pub fn worth(row: &[u64], bundle: &[usize]) -> u64 {
    bundle.iter().map(|item| row[*item]).sum()
}

/// "One round has n yards left and a set of pieces left."
fn round(sheet: &Sheet, agents: &[usize], items: &[usize], division: &mut Division) {
    let cutter = agents[0];
    division.cutters.push(cutter);
    let bundles = cut_into_bundles(&sheet.marks[cutter], items, agents.len());
    let suitable = |agent: &usize| (*agent, suitable(sheet, division, *agent, &bundles));
    let others: Suitable = agents[1..].iter().map(suitable).collect();
    let waiting_sets = largest_waiting_sets(&others, bundles.len());
    let waiting = &waiting_sets[0];
    let served: Suitable =
        agents.iter().filter(|agent| !waiting.contains(agent)).map(suitable).collect();
    let wanted = waiting.iter().fold(0, |union, agent| union | others[agent]);
    let serving = first_serving(&served, !wanted).expect("every served yard can be served");
    for (agent, bundle) in served.keys().zip(&serving) {
        division.bundles[*agent] = bundles[*bundle].clone();
    }
    if waiting_sets.len() > 1 {
        division.tied_rounds.push(agents.len());
    }
    if !waiting.is_empty() {
        let kept = (0..bundles.len()).filter(|bundle| !serving.contains(bundle));
        let mut left: Vec<usize> = kept.flat_map(|bundle| bundles[bundle].clone()).collect();
        left.sort();
        round(sheet, waiting, &left, division);
    }
}

/// The set of the bundles that suit an agent: "A pile suits a yard when bottom × worth is at least
/// top × that yard's maximin share".
fn suitable(sheet: &Sheet, division: &Division, agent: usize, bundles: &[Vec<usize>]) -> usize {
    let (top, bottom) = top_and_bottom(sheet.yards);
    let least = top * division.cuts[agent].share;
    let suits = |bundle: &usize| bottom * worth(&sheet.marks[agent], &bundles[*bundle]) >= least;
    set_of((0..bundles.len()).filter(suits))
}

/// The cutter's cut of the items left, as lists of items.
fn cut_into_bundles(row: &[u64], items: &[usize], count: usize) -> Vec<Vec<usize>> {
    let marks: Vec<u64> = items.iter().map(|item| row[*item]).collect();
    let bundles = cut(&marks, count).bundles(count).into_iter();
    bundles.map(|bundle| bundle.into_iter().map(|place| items[place]).collect()).collect()
}

#[cfg(test)]
mod tests {
    use super::divide;
    use crate::promise::keeps_promise;
    use crate::reader::{read, Sheet};
    use crate::samples::SHEETS;

    #[test]
    fn samples() {
        for (name, text, figures) in SHEETS.into_iter().filter(|sample| !sample.2.is_empty()) {
            let sheet = read(text.as_bytes()).expect(name);
            let division = divide(&sheet);
            assert!(keeps_promise(&sheet, &division));
            let from_one = |list: &Vec<usize>| list.iter().map(|k| k + 1).collect::<Vec<usize>>();
            let shares = division.shares();
            let bundles: Vec<Vec<usize>> = division.bundles.iter().map(from_one).collect();
            let cutters = from_one(&division.cutters);
            assert_eq!(
                format!("{shares:?} {bundles:?} {cutters:?} {}", division.grade),
                figures,
                "{name}"
            );
        }
    }

    #[test]
    fn two_thirds_is_not_enough_for_three_yards() {
        let division = divide(&Sheet::of(vec![vec![1; 4], vec![9, 9, 6, 3], vec![1; 4]]));
        assert_eq!(division.cutters, [0, 1]);
    }
}
