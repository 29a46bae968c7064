//! What is said of a difference, and where its call is kept.
use crate::lend::{Difference, Input, Seen};

/// A call that was not answered as it is to be.
#[derive(Debug)]
pub struct Differing {
    pub input: Input,
    pub expected: Seen,
    /// What was seen, or how the program ended.
    pub found: Result<Seen, String>,
}

impl Differing {
    /// The difference of a batch.
    pub fn of(difference: Difference, inputs: &[Input], expected: &[Seen]) -> Differing {
        Differing {
            input: inputs[difference.place].clone(),
            expected: expected[difference.place].clone(),
            found: difference.found,
        }
    }

    /// Prints the call, what was expected and what was found.
    pub fn show(&self) {
        let slices = 0..self.input.call.name.slices();
        let side = |k: usize| match self.input.sides >> k & 1 {
            0 => "in front",
            _ => "behind",
        };
        let sides: Vec<&str> = slices.map(side).collect();
        println!("differs: {}", self.input.call.line());
        println!("the page beside each slice: {}", sides.join(", "));
        println!("expected: {}", self.expected);
        match &self.found {
            Ok(seen) => println!("found: {seen}"),
            Err(ended) => println!("found: {ended}"),
        }
    }

    /// Writes the call as a line to a file, and says how to make it again.
    pub fn keep(&self, file: &str) {
        match std::fs::write(file, self.input.call.line() + "\n") {
            Ok(()) => println!("kept in {file}; to make it again: outside --lines {file} -- .."),
            Err(e) => println!("not kept: {file}: {e}"),
        }
    }
}
