//! The lines that a comparison prints on its way.

use std::time::Instant;

pub struct Progress(Instant);

impl Progress {
    pub fn start() -> Progress {
        Progress(Instant::now())
    }

    pub fn passed(&self, part: &str, number: usize) {
        println!("{part:<54}{number:>9}  after {:.1} s", self.0.elapsed().as_secs_f64());
    }
}
