//! How long the calls take, beside other libraries.
#![forbid(unsafe_code)]

pub mod families;
pub mod pace;
pub mod tables;
pub mod timing;
