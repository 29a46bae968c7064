//! Tries the built library on inputs that are made by changing others (`rounds.rs`): the program `lend` makes the calls, and what is seen of each is
//! held to the independent implementation, the answer and every slice whole:
//!
//!     fuzz COUNT SECONDS SEED KEPT -- PROGRAM..
//!
//! PROGRAM is the command that runs `lend`, an emulator's words first where it needs one. As many of them run as there are processors; the inputs are
//! those of the seed, however many that are. It ends after COUNT inputs or after SECONDS, whichever is first, and says on standard error how far it is.
//!
//! A table of what was tried is printed, and the status is 0, or 3 where the time ended it before the count. At a difference the first one is shown, its
//! call is written to the file KEPT as a line that `outside --lines` takes, and the status is 1. It is 2 for wrong use, or where the program cannot be
//! started.
use compare::fuzzing::{hold, Plan};
use compare::lend::Lender;
use compare::program::Program;
use compare::tally::Tally;
use std::process::exit;
use std::thread::available_parallelism;
use std::time::{Duration, Instant};

/// How long it is silent.
const PAUSE: Duration = Duration::from_secs(5);

/// What is said while it runs.
struct Progress<'a> {
    plan: &'a Plan,
    start: Instant,
    last: Instant,
}

impl Progress<'_> {
    fn tell(&mut self, tally: &Tally) {
        if self.last.elapsed() < PAUSE {
            return;
        }
        self.last = Instant::now();
        let passed = self.start.elapsed().as_secs_f64();
        let done = tally.inputs();
        let rate = done as f64 / passed;
        let left = self.plan.count.saturating_sub(done) as f64 / rate;
        let left = left.min(self.plan.seconds as f64 - passed).max(0.0);
        let answered = tally.answered();
        eprintln!(
            "fuzz: {done} of {} inputs, {rate:.0} a second, {answered} answered, {} refused; at most {left:.0} s left",
            self.plan.count,
            done - answered
        );
    }
}

fn parse(words: &[String]) -> Option<(Plan, &str)> {
    let [count, seconds, seed, kept] = words else {
        return None;
    };
    let plan = Plan {
        count: count.parse().ok().filter(|&count| 0 < count)?,
        seconds: seconds.parse().ok()?,
        seed: seed.parse().ok()?,
    };
    Some((plan, kept))
}

/// As many as there are processors.
fn start(program: &Program) -> Result<Vec<Lender<'_>>, String> {
    let workers = available_parallelism().map_or(1, usize::from);
    (0..workers).map(|_| Lender::start(program)).collect()
}

/// Runs the plan and gives the status.
fn run(plan: &Plan, kept: &str, mut lenders: Vec<Lender>) -> Result<i32, String> {
    let now = Instant::now();
    let mut progress = Progress {
        plan,
        start: now,
        last: now,
    };
    let held = hold(plan, &mut lenders, |tally| progress.tell(tally));
    println!("{}", held.tally);
    if let Some((round, differing)) = held.first {
        println!("a difference in round {round} of seed {}", plan.seed);
        differing.show();
        differing.keep(kept);
        return Ok(1);
    }
    lenders.into_iter().try_for_each(Lender::finish)?;
    let done = held.tally.inputs();
    println!("{done} inputs of seed {}, no difference", plan.seed);
    if done < plan.count {
        println!(
            "the time of {} s ended it before {} inputs",
            plan.seconds, plan.count
        );
        return Ok(3);
    }
    Ok(0)
}

fn main() {
    let words = std::env::args().skip(1).collect();
    let split = Program::behind_dashes(words);
    let parsed = split
        .as_ref()
        .and_then(|(words, program)| Some((parse(words)?, program)));
    let Some(((plan, kept), program)) = parsed else {
        eprintln!("usage: fuzz COUNT SECONDS SEED KEPT -- PROGRAM..");
        exit(2);
    };
    let lenders = start(program).unwrap_or_else(|why| {
        eprintln!("fuzz: {why}");
        exit(2);
    });
    exit(run(&plan, kept, lenders).unwrap_or_else(|ended| {
        println!("{ended}");
        1
    }));
}
