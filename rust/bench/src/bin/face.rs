//! How long a call takes through the face, beside the same call without it:
//!
//!     face PACE FACE
//!
//! PACE is the proved program `trial_pace`, FACE is `rust/bench/c/face.c` compiled, which makes the same calls in C. Both print the same. They are
//! timed in turns (`timing.rs`) on dense machines; `./bench` makes both and runs this last. The table, in Markdown, goes to standard output.
use bench::pace::input;
use bench::tables;
use bench::timing::{Race, Way};
use compare::program::Program;
use independent::numbers::Numbers;

const SIZES: [usize; 3] = [1, 8, 64];
const MODULI: [u64; 2] = [2, 251];
const CALLS: [(u8, &str); 4] = [
    (b'o', "order"),
    (b's', "stand"),
    (b'c', "chain"),
    (b't', "period"),
];

/// What both programs read: a dense machine and a list of one dense row.
fn dense(letter: u8, calls: u32, p: u64, n: usize) -> Vec<u8> {
    let mut numbers = Numbers(p * 1_000 + n as u64);
    let machine = numbers.matrix(p, n);
    input(letter, calls, p, &machine, &[numbers.row(p, n)])
}

/// A call on one machine: a row of the table. Both programs are to print the same for as many calls.
fn row(programs: &[Program; 2], (letter, name): (u8, &str), p: u64, n: usize) -> Vec<String> {
    let [without, through] = programs
        .each_ref()
        .map(|program| program.run(&dense(letter, 1, p, n)));
    assert_eq!(without, through, "the face answers something else");
    let ways = programs
        .each_ref()
        .map(|program| Way::again(program, |calls| dense(letter, calls, p, n)));
    let race = Race::run(&ways.each_ref());
    vec![
        format!("{name}, n = {n}, p = {p}"),
        format!("{:.3}", race.seconds(0) * 1e6),
        format!("{:.3}", race.seconds(1) * 1e6),
        format!("{:.3}", race.ratio(1, 0)),
    ]
}

fn main() {
    let words: Vec<String> = std::env::args().skip(1).collect();
    let [pace, face] = &words[..] else {
        eprintln!("usage: face PACE FACE");
        std::process::exit(2);
    };
    let programs = [pace, face].map(|path| Program(vec![path.clone()]));
    let mut rows = vec![];
    for n in SIZES {
        for p in MODULI {
            for call in CALLS {
                rows.push(row(&programs, call, p, n));
            }
        }
    }
    tables::section(
        "A call through the face, and without it: dense machines, one dense row; microseconds",
    );
    tables::table(&["call", "without", "through the face", "ratio"], &rows);
}
