//! Programs timed beside each other: in turns, so that each meets the same load, with the start of the program taken off.
use compare::program::Program;

pub const ROUNDS: usize = 5;
/// How long a run is to take, in seconds, and at least as long as the program's start, which else hides it.
const GOAL: f64 = 0.007;
/// A run of this part of the goal says how long a call takes.
const SEEN: f64 = 0.2;
const TRIES: usize = 3;
/// The most calls that the two bytes of an input can name.
pub const MOST_CALLS: u32 = 65_535;

/// A program with what it reads: for no call, and for a number of calls.
pub struct Way<'a> {
    program: &'a Program,
    idle: Option<Vec<u8>>,
    calls: u32,
    input: Vec<u8>,
}

impl<'a> Way<'a> {
    /// A call made again and again, as often as fills the time of a run. The input is that for a number of calls.
    pub fn again(program: &'a Program, input: impl Fn(u32) -> Vec<u8>) -> Self {
        let idle = input(0);
        let least = |input: &[u8]| least_seconds(program, input);
        let start = least(&idle);
        let goal = GOAL.max(start);
        let mut calls = 1;
        let mut taken = least(&input(calls)) - start;
        while taken < SEEN * goal && calls < MOST_CALLS {
            calls = MOST_CALLS.min(calls * 8);
            taken = least(&input(calls)) - start;
        }
        let enough = (f64::from(calls) * goal / taken).clamp(1.0, f64::from(MOST_CALLS));
        let calls = enough as u32;
        Way {
            program,
            idle: Some(idle),
            calls,
            input: input(calls),
        }
    }

    /// The whole of a run, its start too.
    pub fn once(program: &'a Program, input: Vec<u8>) -> Self {
        Way {
            program,
            idle: None,
            calls: 1,
            input,
        }
    }

    /// What the program writes for the very input that is timed.
    pub fn output(&self) -> String {
        String::from_utf8_lossy(&self.program.run(&self.input)).into_owned()
    }
}

/// The least of some runs: one that was disturbed would pass for a long call, and too few calls would be made. A long run is made once.
fn least_seconds(program: &Program, input: &[u8]) -> f64 {
    let first = program.seconds(input);
    if 2.0 * GOAL < first {
        return first;
    }
    (1..TRIES).fold(first, |least, _| least.min(program.seconds(input)))
}

/// The seconds that a call took, of each way in each round.
pub struct Race(Vec<Vec<f64>>);

impl Race {
    pub fn run(ways: &[&Way]) -> Self {
        let mut starts = vec![vec![]; ways.len()];
        let mut runs = vec![vec![]; ways.len()];
        for _ in 0..ROUNDS {
            for (k, way) in ways.iter().enumerate() {
                let start = way.idle.as_ref().map_or(0.0, |x| way.program.seconds(x));
                starts[k].push(start);
                runs[k].push(way.program.seconds(&way.input));
            }
        }
        let a_call = |k: usize, run: f64| (run - median(&starts[k])) / f64::from(ways[k].calls);
        let of = |(k, runs): (usize, &Vec<f64>)| runs.iter().map(|&run| a_call(k, run)).collect();
        Race(runs.iter().enumerate().map(of).collect())
    }

    pub fn seconds(&self, way: usize) -> f64 {
        median(&self.0[way])
    }

    /// The median of the rounds' ratios.
    pub fn ratio(&self, way: usize, other: usize) -> f64 {
        let pairs = self.0[way].iter().zip(&self.0[other]);
        let ratios: Vec<f64> = pairs.map(|(a, b)| a / b).collect();
        median(&ratios)
    }
}

pub fn median(list: &[f64]) -> f64 {
    let mut list = list.to_vec();
    list.sort_by(f64::total_cmp);
    list[list.len() / 2]
}

pub fn geometric_mean(list: &[f64]) -> f64 {
    (list.iter().map(|x| x.ln()).sum::<f64>() / list.len() as f64).exp()
}
