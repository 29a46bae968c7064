//! What stands beside the proved library: an implementation of the same mathematics that shares nothing with it, for comparison.
#![forbid(unsafe_code)]

pub mod calls;
pub mod case;
pub mod design;
pub mod grammar;
pub mod lines;
pub mod naive;
pub mod numbers;
pub mod sheet;
