//! The built programs and the built library beside the independent implementation, on inputs that are made.
#![forbid(unsafe_code)]

pub mod draft;
pub mod faults;
pub mod fuzzing;
pub mod lend;
pub mod made;
pub mod mutate;
pub mod program;
pub mod report;
pub mod rounds;
pub mod tally;
