//! Prints the stand of a matrix of two rows modulo 3: `cargo run --example stand`.
use kinarsop::{stand, Stand, FULL_ALLOWANCE};
use std::process::ExitCode;

fn main() -> ExitCode {
    let matrix = [0, 1, 2, 0];
    let candidates = [1, 0];
    match stand(3, 2, &matrix, &candidates, FULL_ALLOWANCE) {
        Ok(Stand::Proved {
            minimal_polynomial, ..
        }) => {
            println!("proved: the minimal polynomial is {minimal_polynomial:?}");
            ExitCode::SUCCESS
        }
        Ok(Stand::Short {
            divisor, witness, ..
        }) => {
            println!("short: {divisor:?} only divides the minimal polynomial");
            println!("add unit row {witness} to the candidates and call again");
            ExitCode::SUCCESS
        }
        Err(refusal) => {
            eprintln!("refused ({}): {refusal}", refusal.number());
            ExitCode::FAILURE
        }
    }
}
