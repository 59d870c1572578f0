//! Times today's library and an earlier one side by side, in a Markdown table each for reading, cutting
//! and dividing. The run fails if they answer differently.

mod cutting;
mod dividing;
mod reading;

use std::fmt::Debug;
use std::time::Duration;

use crate::placed::PLACES;
use crate::timing::time_within;

/// The time for one line of a table.
const ENOUGH: Duration = Duration::from_secs(6);

pub fn print_tables() {
    println!("\nAn earlier library and today's: means over {PLACES} places of each in memory");
    reading::print_table();
    cutting::print_table();
    dividing::print_table();
}

/// A function of a library, given the place of the entry.
type Placed<'a, Input, Answer> = &'a dyn Fn(usize, &Input) -> Answer;

/// The columns of the earlier library and of today's, means over the places, and today's time divided by the
/// earlier one's. All answers to an input must be the same.
fn compare<Input: Debug, Answer: Debug + PartialEq>(
    inputs: &[Input],
    earlier: Placed<Input, Answer>,
    today: Placed<Input, Answer>,
) -> String {
    let libraries = [earlier, today];
    let at = |k: usize| move |input: &Input| libraries[k / PLACES](k % PLACES, input);
    let placed: Vec<_> = (0..libraries.len() * PLACES).map(at).collect();
    let placed: Vec<&dyn Fn(&Input) -> Answer> = placed.iter().map(|f| f as _).collect();
    let timed = time_within(ENOUGH, inputs, &placed);
    for (number, input) in inputs.iter().enumerate() {
        for other in &timed {
            assert_eq!(timed[0].answers[number], other.answers[number], "{input:?}");
        }
    }
    let sum = |k: usize| timed[k * PLACES..][..PLACES].iter().map(|t| t.mean()).sum::<f64>();
    let [earlier, today] = [0, 1].map(|k| sum(k) / PLACES as f64);
    format!("{earlier:.2} | {today:.2} | {:.2}", today / earlier)
}
