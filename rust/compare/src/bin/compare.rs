//! Runs the program `stand` on many made cases and holds what it prints to the independent implementation, byte for byte:
//!
//!     compare CASES SEED PROGRAM..
//!
//! PROGRAM is the command that runs `stand`, an emulator's words first where it needs one. Machines of every kind of `made.rs` are made, with
//! candidates and allowances of every kind; two files in five are damaged afterwards. At the first difference the file, what was expected and what
//! was printed are shown, and the status is 1. Else the counts are printed, of cases by what the sheet says and by the kind of machine.
use compare::made::{self, damaged, primes};
use compare::program::Program;
use independent::lines::list;
use independent::numbers::Numbers;
use independent::sheet::printed;
use std::collections::BTreeMap;

/// What a printed sheet is counted under.
fn sort(sheet: &str) -> &'static str {
    let never = sheet.ends_with("PERIOD none\n");
    if sheet.starts_with("REFUSED") {
        "refused"
    } else if sheet.contains("STAND proved") {
        if never {
            "proved, period none"
        } else {
            "proved, period a number"
        }
    } else if never {
        "short, period none"
    } else {
        "short, period a number"
    }
}

fn main() {
    let words: Vec<String> = std::env::args().skip(1).collect();
    let (Some(Ok(cases)), Some(Ok(seed)), Some(_)) = (
        words.first().map(|w| w.parse::<u64>()),
        words.get(1).map(|w| w.parse::<u64>()),
        words.get(2),
    ) else {
        eprintln!("usage: compare CASES SEED PROGRAM..");
        std::process::exit(2);
    };
    let program = Program(words[2..].to_vec());
    let primes = primes();
    let mut numbers = Numbers(seed);
    let mut sorts: BTreeMap<String, u64> = BTreeMap::new();
    for number in 0..cases {
        let (case, machine) = made::case(&mut numbers, &primes);
        let faulty = numbers.below(5) < 2;
        let file = if faulty {
            damaged(&mut numbers, &case)
        } else {
            case.bytes()
        };
        let expected = printed(&file);
        let found = program.run(&file);
        if found != expected.as_bytes() {
            let bytes: Vec<u64> = file.iter().map(|&x| x.into()).collect();
            println!("case {number} of seed {seed} differs: {}", list(&bytes));
            println!("expected:\n{expected}");
            println!("printed:\n{}", String::from_utf8_lossy(&found));
            std::process::exit(1);
        }
        let mut count = |name: String| *sorts.entry(name).or_default() += 1;
        count(format!("sheet: {}", sort(&expected)));
        match faulty {
            true if expected.starts_with("REFUSED") => count("file: damaged, refused".to_string()),
            true => count("file: damaged, still a case".to_string()),
            false => count("file: sound".to_string()),
        }
        if !expected.starts_with("REFUSED") {
            count(format!("machine: {machine}"));
            let size = match case.matrix.len() {
                1..=12 => "1 to 12",
                13..=30 => "13 to 30",
                31..=63 => "31 to 63",
                _ => "64",
            };
            count(format!("n: {size}"));
        }
    }
    println!("{cases} cases of seed {seed}, no difference");
    for (name, count) in sorts {
        println!("{count:6}  {name}");
    }
}
