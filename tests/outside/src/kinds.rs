//! How often a comparison has met each kind of input or answer, and whether it has met all it must.

use std::collections::BTreeMap;

/// A kind has a name and a number, such as refusal 4.
#[derive(Default)]
pub struct Kinds(BTreeMap<String, BTreeMap<usize, usize>>);

impl Kinds {
    pub fn count(&mut self, name: &str, number: usize) {
        let numbers = match self.0.get_mut(name) {
            Some(numbers) => numbers,
            None => self.0.entry(name.to_owned()).or_default(),
        };
        *numbers.entry(number).or_default() += 1;
    }

    /// How often kinds of this name were met.
    pub fn met(&self, name: &str) -> usize {
        self.0.get(name).map_or(0, |numbers| numbers.values().sum())
    }

    /// How often this kind was met.
    pub fn times(&self, name: &str, number: usize) -> usize {
        self.0.get(name).and_then(|numbers| numbers.get(&number)).copied().unwrap_or(0)
    }

    /// A line for each name.
    pub fn print(&self) {
        for (name, numbers) in &self.0 {
            let counts: Vec<String> =
                numbers.iter().map(|(k, met)| format!("{k}: {met}")).collect();
            println!("{name:<40}{}", counts.join(", "));
        }
    }

    /// An error says that this kind was met less often than it must be.
    pub fn often_enough(&self, name: &str, number: usize, fewest: usize) -> Result<(), String> {
        match self.times(name, number) {
            met if met < fewest => Err(format!("too rare: {name}, {number}: {met}")),
            _ => Ok(()),
        }
    }

    /// An error names the first kind that is due and was never met.
    pub fn all_met(&self, name: &str, due: impl IntoIterator<Item = usize>) -> Result<(), String> {
        let met = |number: &usize| self.0.get(name).is_some_and(|kinds| kinds.contains_key(number));
        match due.into_iter().find(|number| !met(number)) {
            Some(number) => Err(format!("never met: {name} {number}")),
            None => Ok(()),
        }
    }
}

#[cfg(test)]
mod tests {
    use super::Kinds;

    #[test]
    fn a_kind_never_met_is_found() {
        let mut kinds = Kinds::default();
        assert_eq!(kinds.all_met("refusal", [4]), Err("never met: refusal 4".to_owned()));
        [4, 5, 4].into_iter().for_each(|number| kinds.count("refusal", number));
        assert_eq!(kinds.met("refusal"), 3);
        assert_eq!([4, 5, 6].map(|number| kinds.times("refusal", number)), [2, 1, 0]);
        assert_eq!(kinds.times("grade", 4), 0);
        assert_eq!(kinds.often_enough("refusal", 4, 2), Ok(()));
        let rare = Err("too rare: refusal, 5: 1".to_owned());
        assert_eq!(kinds.often_enough("refusal", 5, 2), rare);
        assert_eq!(kinds.all_met("refusal", [4, 5]), Ok(()));
        assert_eq!(kinds.all_met("refusal", 4..=6), Err("never met: refusal 6".to_owned()));
    }
}
