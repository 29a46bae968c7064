//! What `trial_pace` reads, and the programs in C that are timed beside it.
use independent::naive::{Matrix, Row};

/// A letter for the call, how often it is made, the machine and a list of rows.
pub fn input(letter: u8, calls: u32, p: u64, m: &Matrix, list: &[Row]) -> Vec<u8> {
    let [low, high, ..] = calls.to_le_bytes();
    let head = [letter, p as u8, m.len() as u8, low, high, list.len() as u8];
    let entries = m.iter().chain(list).flatten().map(|&x| x as u8);
    head.into_iter().chain(entries).collect()
}
