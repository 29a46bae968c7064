//! What the program `trial_reader` must print for the lines on standard input, by the independent implementation. The stored answers were made with it,
//! from the repository's root:
//!
//!     cargo run --release --manifest-path rust/Cargo.toml --bin trial_reader < crates/trial_reader/stdin > crates/trial_reader/stdout
//!
//! A line names what is asked of the case reader and gives the file:
//!
//!     read   file    a whole file: the answer, the matrix and the candidates, and behind each the weight of its array
//!     weigh  file    the same, with how many bytes the matrix and the candidates have in their place
//!     steps  file    every step from the front on; the last, which hands out no record, twice
//!
//! The weight of an array is the sum of its bytes, each times its place. Zeros behind the values add nothing to it.
use independent::grammar::{self, Record};
use independent::lines::{self, list, Line};

/// A list of bytes.
fn bytes<'a>(line: &'a Line, k: usize) -> &'a [u64] {
    let list = line.group(k);
    assert!(list.iter().all(|&x| x <= 255), "a byte is at most 255");
    list
}

fn refused(place: usize) -> String {
    format!("refused 8 {place}")
}

/// The sum of the bytes, each times its place counted from 1, modulo 2^32.
fn weight(bytes: &[u64]) -> u64 {
    let sum: u64 = (1..).zip(bytes).map(|(i, x)| i * x).sum();
    sum % (1 << 32)
}

/// The answer; then the matrix and the candidates, as `show` has them, each with its weight.
fn read(file: &[u64], show: fn(&[u64]) -> String) -> String {
    let (answer, parts) = match grammar::values(file) {
        Some(c) => {
            let count = c.candidates.len() / c.n as usize;
            let answer = format!("case {} {} {} {count}", c.p, c.n, c.allowance);
            (answer, [c.matrix, c.candidates])
        }
        None => (refused(grammar::place(file)), [vec![], vec![]]),
    };
    let shown = parts.map(|bytes| format!(" |{} : {}", show(&bytes), weight(&bytes)));
    answer + &shown.concat()
}

fn each(bytes: &[u64]) -> String {
    bytes.iter().map(|x| format!(" {x}")).collect()
}

fn size(bytes: &[u64]) -> String {
    format!(" {}", bytes.len())
}

fn describe(r: &Record) -> String {
    let name = match r.letter {
        b'F' => "field",
        b'A' => "allow",
        b'R' => "row",
        b'C' => "candidate",
        _ => return "| end".to_string(),
    };
    format!("| {name} {}", list(&r.numbers))
}

/// The records that lie wholly before the place, then twice the step behind them, which says the same again.
fn steps(file: &[u64]) -> String {
    let last = match grammar::values(file) {
        Some(_) => "| over".to_string(),
        None => format!("| {}", refused(grammar::place(file))),
    };
    let mut steps: Vec<String> = grammar::records(file).iter().map(describe).collect();
    steps.extend([last.clone(), last]);
    steps.join(" ")
}

fn answer(line: &Line) -> String {
    let file = bytes(line, 0);
    match line.word {
        "read" => read(file, each),
        "weigh" => read(file, size),
        "steps" => steps(file),
        word => panic!("{word} asks nothing of the reader"),
    }
}

fn main() {
    lines::answer_all(answer);
}
