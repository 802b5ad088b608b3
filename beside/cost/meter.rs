//! Measures a piece of work: by the clock, or by instructions that the plugin counts between two marks.

use std::fs;
use std::time::Instant;

extern "C" {
    /// The mark that the plugin waits for.
    fn getppid() -> i32;
}

/// Seconds or instructions, and where known the functions that took most of them.
pub struct Cost {
    pub amount: f64,
    pub functions: Vec<String>,
}

pub enum Meter {
    Seconds,
    Instructions { file: String },
}

impl Meter {
    pub fn seconds() -> Meter {
        Meter::Seconds
    }

    pub fn instructions(file: &str) -> Meter {
        Meter::Instructions { file: file.to_string() }
    }

    /// A clock needs many rounds; a count is the same each time but for the first, in which functions are bound and memory is fetched.
    pub fn rounds(&self, long: bool) -> usize {
        match (self, long) {
            (Meter::Seconds, false) => 15,
            (Meter::Seconds, true) => 3,
            (Meter::Instructions { .. }, false) => 2,
            (Meter::Instructions { .. }, true) => 1,
        }
    }

    /// Does the work, and says what it cost.
    pub fn measure<A>(&mut self, work: impl FnOnce() -> A) -> (Cost, A) {
        match self {
            Meter::Seconds => {
                let start = Instant::now();
                let result = work();
                (Cost { amount: start.elapsed().as_secs_f64(), functions: Vec::new() }, result)
            }
            Meter::Instructions { file } => {
                mark();
                let result = work();
                mark();
                (counted(file), result)
            }
        }
    }

    pub fn written(&self, cost: &Cost) -> String {
        match self {
            Meter::Seconds => format!("{:.3} ms", cost.amount * 1000.0),
            Meter::Instructions { .. } => format!("{:.3} M", cost.amount / 1e6),
        }
    }
}

fn mark() {
    unsafe { getppid() };
}

/// The first line is the count, the others are functions.
fn counted(file: &str) -> Cost {
    let text = fs::read_to_string(file).expect("the plugin's counts");
    let mut lines = text.lines().map(String::from);
    let amount = lines.next().and_then(|line| line.parse().ok()).expect("a count");
    Cost { amount, functions: lines.collect() }
}
