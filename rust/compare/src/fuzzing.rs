//! Rounds of inputs held to the independent implementation by some workers at once, each with a program of its own. Rounds are handed out in
//! sequence, and what was handed out is finished, so that the earliest round with a difference is the same however many workers there are.
use crate::lend::{Lender, Seen};
use crate::report::Differing;
use crate::rounds::{inputs, ROUND};
use crate::tally::Tally;
use std::sync::atomic::{AtomicBool, AtomicU64, Ordering};
use std::sync::mpsc::{channel, Sender};
use std::time::Instant;

/// How many inputs, and how many seconds at most.
pub struct Plan {
    pub count: u64,
    pub seconds: u64,
    pub seed: u64,
}

impl Plan {
    /// The last round has what is left of the count.
    fn length(&self, round: u64) -> usize {
        let left = self.count.saturating_sub(round * ROUND as u64);
        left.min(ROUND as u64) as usize
    }
}

/// What came of the rounds that were made.
#[derive(Default)]
pub struct Held {
    pub tally: Tally,
    /// The earliest round with a difference, and the first one in it.
    pub first: Option<(u64, Differing)>,
}

impl Held {
    fn add(&mut self, done: Done) {
        self.tally.add(&done.tally);
        let before = |round: u64| self.first.as_ref().is_none_or(|(first, _)| round < *first);
        if let Some(differing) = done.differing.filter(|_| before(done.round)) {
            self.first = Some((done.round, differing));
        }
    }
}

/// A round that was made.
struct Done {
    round: u64,
    tally: Tally,
    differing: Option<Differing>,
}

/// Where the workers take their rounds from.
struct Source<'a> {
    plan: &'a Plan,
    start: Instant,
    next: AtomicU64,
    stopped: AtomicBool,
}

impl Source<'_> {
    fn take(&self) -> Option<u64> {
        let over = self.plan.seconds <= self.start.elapsed().as_secs();
        if over || self.stopped.load(Ordering::SeqCst) {
            return None;
        }
        let round = self.next.fetch_add(1, Ordering::SeqCst);
        (0 < self.plan.length(round)).then_some(round)
    }

    /// Makes rounds until there are no more, or one has a difference.
    fn work(&self, lender: &mut Lender, done: Sender<Done>) {
        while let Some(round) = self.take() {
            let made = self.hold(lender, round);
            let differs = made.differing.is_some();
            self.stopped.fetch_or(differs, Ordering::SeqCst);
            done.send(made).expect("the rounds are counted to the end");
            if differs {
                return;
            }
        }
    }

    fn hold(&self, lender: &mut Lender, round: u64) -> Done {
        let mut inputs = inputs(self.plan.seed, round);
        inputs.truncate(self.plan.length(round));
        let expected: Vec<Seen> = inputs.iter().map(|x| Seen::expected(&x.call)).collect();
        let mut tally = Tally::default();
        for (input, seen) in inputs.iter().zip(&expected) {
            tally.count(input.call.name, seen);
        }
        let difference = lender.difference(&inputs, &expected);
        Done {
            round,
            tally,
            differing: difference.map(|found| Differing::of(found, &inputs, &expected)),
        }
    }
}

/// Makes the rounds of a plan, a worker for each program; what was held so far is told after each round.
pub fn hold(plan: &Plan, lenders: &mut [Lender], tell: impl FnMut(&Tally)) -> Held {
    let source = Source {
        plan,
        start: Instant::now(),
        next: AtomicU64::new(0),
        stopped: AtomicBool::new(false),
    };
    let (sender, receiver) = channel();
    std::thread::scope(|scope| {
        for lender in lenders {
            let (source, sender) = (&source, sender.clone());
            scope.spawn(move || source.work(lender, sender));
        }
        drop(sender);
        gather(receiver, tell)
    })
}

fn gather(rounds: impl IntoIterator<Item = Done>, mut tell: impl FnMut(&Tally)) -> Held {
    let mut held = Held::default();
    for done in rounds {
        held.add(done);
        tell(&held.tally);
    }
    held
}

#[cfg(test)]
mod tests {
    use super::*;
    use crate::program::Program;

    fn plan(count: u64, seconds: u64) -> Plan {
        Plan {
            count,
            seconds,
            seed: 1,
        }
    }

    #[test]
    fn the_last_round_has_what_is_left() {
        let plan = plan(2_345, 0);
        let lengths: Vec<usize> = (0..5).map(|round| plan.length(round)).collect();
        assert_eq!(lengths, [1_000, 1_000, 345, 0, 0]);
    }

    /// Programs that answer nothing: the difference is the first input of all, whichever worker is the quicker.
    #[test]
    fn the_earliest_difference_is_told() {
        let program = Program(vec!["true".to_string()]);
        let start = || Lender::start(&program).expect("there is such a program");
        let held = hold(&plan(5_000, 60), &mut [start(), start()], |_| {});
        let (round, differing) = held.first.expect("nothing is answered");
        assert_eq!(round, 0);
        assert_eq!(differing.input, inputs(1, 0)[0]);
    }

    #[test]
    fn no_time_no_round() {
        let program = Program(vec!["true".to_string()]);
        let lender = Lender::start(&program).expect("there is such a program");
        let held = hold(&plan(5_000, 0), &mut [lender], |_| {});
        assert_eq!(held.tally.inputs(), 0);
        assert!(held.first.is_none());
    }
}
