//! Tries the built library from outside: the program `lend` makes the calls, and what is seen of each is held to the independent implementation, the
//! answer and every slice whole:
//!
//!     outside [--lines FILE] [--cases FOLDER] [--faults TIMES SEED] [--kept FILE] -- PROGRAM..
//!
//! PROGRAM is the command that runs `lend`, an emulator's words first where it needs one.
//!
//! - `--lines`: the call of each line (`calls.rs`), on every choice of sides
//! - `--cases`: the sheet of each file of the folder that ends in `.case`, with a buffer that has just enough bytes, one too few, and more
//! - `--faults`: every call with up to three faults (`faults.rs`), so many times each, all slices in front and all behind
//!
//! How many inputs there were so far is said on standard error. A table of what was tried is printed, and the status is 0. The first difference is
//! shown, its call is written to the file of `--kept` as a line that `--lines` takes, and the status is 1. It is 2 for wrong use, or where a file
//! cannot be read or the program not be started.
use compare::faults;
use compare::lend::{Input, Lender, Seen};
use compare::program::Program;
use compare::report::Differing;
use compare::tally::Tally;
use independent::calls::{Call, Name, SHEET_ROOM};
use independent::lines::{is_comment, Line};
use std::fs::DirEntry;
use std::path::PathBuf;
use std::process::exit;

/// How many inputs are sent at once, at least.
const BATCH: usize = 1_000;
/// What a buffer for a sheet holds before the call, and how many bytes more than enough the longest has.
const HELD: u8 = 7;
const SPARE: usize = 77;

/// What is to be tried.
#[derive(Default)]
struct Options {
    lines: Option<String>,
    cases: Option<String>,
    faults: Option<(usize, u64)>,
    kept: Option<String>,
}

impl Options {
    fn parse(words: Vec<String>) -> Option<Options> {
        let mut options = Options::default();
        let mut words = words.into_iter();
        while let Some(word) = words.next() {
            let value = words.next()?;
            match word.as_str() {
                "--lines" => options.lines = Some(value),
                "--cases" => options.cases = Some(value),
                "--kept" => options.kept = Some(value),
                "--faults" => {
                    options.faults = Some((value.parse().ok()?, words.next()?.parse().ok()?));
                }
                _ => return None,
            }
        }
        Some(options)
    }
}

/// The program with what waits to be sent to it.
struct Run<'a> {
    lender: Lender<'a>,
    kept: Option<String>,
    inputs: Vec<Input>,
    expected: Vec<Seen>,
    tally: Tally,
}

impl Run<'_> {
    /// The same call on some sides.
    fn hold(&mut self, inputs: impl IntoIterator<Item = Input>, call: &Call) {
        let expected = Seen::expected(call);
        for input in inputs {
            self.tally.count(call.name, &expected);
            self.inputs.push(input);
            self.expected.push(expected.clone());
        }
        if BATCH <= self.inputs.len() {
            self.send();
        }
    }

    fn send(&mut self) {
        if self.inputs.is_empty() {
            return;
        }
        eprintln!("outside: {} inputs", self.tally.inputs());
        let (inputs, expected) = (
            std::mem::take(&mut self.inputs),
            std::mem::take(&mut self.expected),
        );
        let Some(difference) = self.lender.difference(&inputs, &expected) else {
            return;
        };
        let differing = Differing::of(difference, &inputs, &expected);
        differing.show();
        if let Some(file) = &self.kept {
            differing.keep(file);
        }
        exit(1);
    }

    fn lines(&mut self, file: &str) -> Result<(), String> {
        let text = std::fs::read_to_string(file).map_err(|e| format!("{file}: {e}"))?;
        for line in text.lines().filter(|line| !is_comment(line)) {
            let call = Call::of_line(&Line::parse(line));
            self.hold(Input::on_all_sides(&call), &call);
        }
        Ok(())
    }

    fn cases(&mut self, folder: &str) -> Result<(), String> {
        let files = case_files(folder).map_err(|e| format!("{folder}: {e}"))?;
        for file in files {
            self.case(&file);
        }
        Ok(())
    }

    fn case(&mut self, file: &[u8]) {
        for room in [SHEET_ROOM, SHEET_ROOM - 1, SHEET_ROOM + SPARE] {
            let call = Call {
                name: Name::Sheet,
                p: 0,
                n: 0,
                k: 0,
                slices: vec![file.to_vec(), vec![HELD; room]],
            };
            self.hold(Input::on_all_sides(&call), &call);
        }
    }

    fn faults(&mut self, times: usize, seed: u64) {
        for call in faults::calls(times, seed) {
            self.hold(Input::on_both_sides(&call), &call);
        }
    }
}

/// The files of a folder that end in `.case`, in the sequence of their names.
fn case_files(folder: &str) -> std::io::Result<Vec<Vec<u8>>> {
    let entries: Vec<DirEntry> = std::fs::read_dir(folder)?.collect::<Result<_, _>>()?;
    let mut paths: Vec<PathBuf> = entries.iter().map(DirEntry::path).collect();
    paths.retain(|path| path.extension().is_some_and(|e| e == "case"));
    paths.sort();
    paths.iter().map(std::fs::read).collect()
}

fn run(options: Options, program: &Program) -> Result<(), String> {
    let mut run = Run {
        lender: Lender::start(program)?,
        kept: options.kept,
        inputs: vec![],
        expected: vec![],
        tally: Tally::default(),
    };
    if let Some(file) = options.lines {
        run.lines(&file)?;
    }
    if let Some(folder) = options.cases {
        run.cases(&folder)?;
    }
    if let Some((times, seed)) = options.faults {
        run.faults(times, seed);
    }
    run.send();
    if run.tally.inputs() == 0 {
        return Err("there is nothing to try".to_string());
    }
    println!("{}", run.tally);
    if let Err(ended) = run.lender.finish() {
        println!("{ended}");
        exit(1);
    }
    println!("{} inputs, no difference", run.tally.inputs());
    Ok(())
}

fn main() {
    let words = std::env::args().skip(1).collect();
    let parsed = Program::behind_dashes(words)
        .and_then(|(words, program)| Some((Options::parse(words)?, program)));
    let Some((options, program)) = parsed else {
        eprintln!("usage: outside [--lines FILE] [--cases FOLDER] [--faults TIMES SEED] [--kept FILE] -- PROGRAM..");
        exit(2);
    };
    if let Err(why) = run(options, &program) {
        eprintln!("outside: {why}");
        exit(2);
    }
}
