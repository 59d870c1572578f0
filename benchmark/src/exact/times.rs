//! The times of a group of tables: a line of Markdown.

use std::fmt;
use std::time::Duration;

use super::backtracking::{self, Answer};
use super::groups::Group;
use super::{by_sets, Bundles, Instance};
use crate::library;
use crate::timing::{time, time_within, Timed};

/// The time for the library and the same search in one line of a table.
const ENOUGH: Duration = Duration::from_secs(6);

pub const HEAD: &str = "\
| marks | yards | pieces | none | library | greatest | Rust, same search | greatest | Rust, backtracking | greatest | stopped | library / Rust |
|---|---|---|---|---|---|---|---|---|---|---|---|";

pub struct Times {
    pub group: Group,
    pub library: Timed<Option<Bundles>>,
    pub by_sets: Timed<Option<Bundles>>,
    backtracking: Timed<Answer>,
}

impl Times {
    /// Backtracking has a turn of its own because it is slow.
    pub fn of(group: Group) -> Times {
        let both = time_within(ENOUGH, &group.instances, &[&library::search, &by_sets::search]);
        let [library, by_sets] = both.try_into().ok().expect("two functions are timed");
        let backtracking = time(&group.instances, &[&backtracking::search]).remove(0);
        let times = Times { group, library, by_sets, backtracking };
        times.check();
        times
    }

    /// The library's time divided by that of the same search in Rust.
    pub fn ratio(&self) -> f64 {
        self.library.mean() / self.by_sets.mean()
    }

    /// The run fails on a difference, and on a division that is not exact.
    fn check(&self) {
        for (number, instance) in self.group.instances.iter().enumerate() {
            let library = &self.library.answers[number];
            let by_sets = &self.by_sets.answers[number];
            assert_eq!(library.is_some(), by_sets.is_some(), "library and Rust: {instance:?}");
            check_shown(instance, [library, by_sets].into_iter().flatten());
            match &self.backtracking.answers[number] {
                Answer::Stopped => {}
                Answer::None => assert!(library.is_none(), "backtracking finds none: {instance:?}"),
                Answer::Found(bundles) => {
                    assert!(library.is_some(), "backtracking finds {bundles:?}: {instance:?}");
                    check_shown(instance, [bundles].into_iter());
                }
            }
        }
    }
}

fn check_shown<'a>(instance: &Instance, shown: impl Iterator<Item = &'a Bundles>) {
    let shares = instance.shares();
    for bundles in shown {
        assert!(instance.is_exact(&shares, bundles), "{bundles:?} is not exact: {instance:?}");
    }
}

/// A time that is exceeded where a search was stopped.
fn at_least(stopped: usize, microseconds: f64) -> String {
    let above = if stopped > 0 { "above " } else { "" };
    format!("{above}{microseconds:.1}")
}

impl fmt::Display for Times {
    fn fmt(&self, line: &mut fmt::Formatter) -> fmt::Result {
        let (name, (agents, items)) = (self.group.name, self.group.size());
        let count = self.group.instances.len();
        let none = self.library.answers.iter().filter(|answer| answer.is_none()).count();
        let is_stopped = |answer: &&Answer| **answer == Answer::Stopped;
        let stopped = self.backtracking.answers.iter().filter(is_stopped).count();
        let [library, by_sets] = [&self.library, &self.by_sets];
        write!(line, "| {name} | {agents} | {items} | {none} of {count} ")?;
        write!(line, "| {:.1} | {:.1} ", library.mean(), library.greatest())?;
        write!(line, "| {:.1} | {:.1} ", by_sets.mean(), by_sets.greatest())?;
        let [mean, greatest] = [self.backtracking.mean(), self.backtracking.greatest()]
            .map(|microseconds| at_least(stopped, microseconds));
        write!(line, "| {mean} | {greatest} | {stopped} ")?;
        write!(line, "| {:.2} |", self.ratio())
    }
}
