//! The inputs of the fuzzer, in rounds of a fixed size. A round depends on the seed and on its number alone, so that it is the same whoever makes it.
//! It begins with a pool of sound calls of every kind. An input is a call of the pool that is changed some times over, and takes that call's place; so
//! changes add up. Two inputs in five are made sound again.
use crate::draft::Draft;
use crate::lend::Input;
use crate::mutate::{mend, mutate, some_file, some_size};
use independent::calls::{refusal, Call, Name, SHEET_ROOM};
use independent::grammar;
use independent::naive::{Row, LARGEST_PRIME, PERIOD_LIMIT};
use independent::numbers::Numbers;

/// How many inputs a round has.
pub const ROUND: usize = 1_000;

/// How many calls of each kind the pool has.
const POOL: [(Name, usize); 8] = [
    (Name::Inverse, 2),
    (Name::Order, 8),
    (Name::Image, 8),
    (Name::Stand, 10),
    (Name::Chain, 8),
    (Name::Period, 7),
    (Name::Sheet, 10),
    (Name::Write, 8),
];

/// The moduli of the pool.
const PRIMES: [u64; 9] = [2, 2, 3, 5, 7, 13, 127, 241, LARGEST_PRIME];

const MOST_CHANGES: u64 = 4;

/// What the independent implementation may spend on an input, as `cost` counts it. An input that costs so many times as much is kept once in so
/// many times.
const USUAL: u64 = 131_072;

/// The samples that a sheet begins with now and then.
const SAMPLES: [&[u8]; 6] = [
    include_bytes!("../../../cases/eighteen.case"),
    include_bytes!("../../../cases/short.case"),
    include_bytes!("../../../cases/singular.case"),
    include_bytes!("../../../cases/twice.case"),
    include_bytes!("../../../cases/sixtyfour.case"),
    include_bytes!("../../../cases/longest.case"),
];

pub fn inputs(seed: u64, round: u64) -> Vec<Input> {
    let mut numbers = Numbers(mixed(seed, round));
    let mut pool = pool(&mut numbers);
    (0..ROUND).map(|_| input(&mut numbers, &mut pool)).collect()
}

/// Numbers that are far apart for rounds that follow each other.
fn mixed(seed: u64, round: u64) -> u64 {
    let mut x = seed.wrapping_add(round.wrapping_mul(0x9e37_79b9_7f4a_7c15));
    for factor in [0xbf58_476d_1ce4_e5b9, 0x94d0_49bb_1331_11eb] {
        x = (x ^ x >> 30).wrapping_mul(factor);
    }
    x ^ x >> 31
}

fn pool(numbers: &mut Numbers) -> Vec<Call> {
    let names = POOL.into_iter().flat_map(|(name, count)| vec![name; count]);
    names.map(|name| sound(numbers, name)).collect()
}

/// A sound call.
fn sound(numbers: &mut Numbers, name: Name) -> Call {
    if name == Name::Sheet {
        return sheet(numbers);
    }
    let p = numbers.one_of(&PRIMES);
    let n = some_size(numbers) as usize;
    Draft::sound(p, n).call(numbers, name)
}

fn sheet(numbers: &mut Numbers) -> Call {
    let file = if numbers.once_in(4) {
        numbers.one_of(&SAMPLES).to_vec()
    } else {
        some_file(numbers)
    };
    Call {
        name: Name::Sheet,
        p: 0,
        n: 0,
        k: 0,
        slices: vec![file, numbers.bytes(SHEET_ROOM + 1)],
    }
}

/// A call of the pool, changed, that takes its place.
fn input(numbers: &mut Numbers, pool: &mut [Call]) -> Input {
    loop {
        let at = numbers.place(pool.len());
        let call = changed(numbers, &pool[at]);
        let times = cost(&call) / USUAL;
        if numbers.once_in(times.max(1)) {
            let sides = numbers.below(1 << call.name.slices()) as u8;
            pool[at] = call.clone();
            return Input { call, sides };
        }
    }
}

fn changed(numbers: &mut Numbers, call: &Call) -> Call {
    let mut call = call.clone();
    for _ in 0..=numbers.below(MOST_CHANGES) {
        mutate(numbers, &mut call);
    }
    if numbers.below(5) < 2 {
        mend(numbers, &mut call);
    }
    call
}

/// About how many steps the independent implementation makes for the call. A refused one costs nothing.
fn cost(call: &Call) -> u64 {
    if refusal(call).is_some() {
        return 0;
    }
    let n = call.n;
    let rows = |k: usize| call.slices[k].len() as u64 / n;
    match call.name {
        Name::Inverse | Name::Image | Name::Write => 0,
        Name::Order => orders(n, 1),
        Name::Stand | Name::Chain => orders(n, 2 + rows(1)),
        Name::Period => walks(call.p.into(), n),
        Name::Sheet => sheet_cost(&call.slices[0]),
    }
}

/// A file that is no case costs little.
fn sheet_cost(file: &[u8]) -> u64 {
    let file: Row = file.iter().map(|&x| x.into()).collect();
    grammar::values(&file).map_or(0, |case| {
        let rows = case.candidates.len() as u64 / case.n;
        orders(case.n, 4 + rows) + walks(case.p, case.n)
    })
}

/// The orders of so many rows.
fn orders(n: u64, rows: u64) -> u64 {
    rows * n.pow(4) / 3
}

/// The powers that a row goes through until it comes back.
fn walks(p: u64, n: u64) -> u64 {
    let states = p.saturating_pow(n as u32);
    states.min(PERIOD_LIMIT) * n * n
}

#[cfg(test)]
mod tests {
    use super::*;
    use crate::lend::Seen;
    use crate::tally::Tally;
    use independent::calls::{
        outcome, Answer, Place, Refusal, COEFFICIENT, MATRIX_ENTRY, ROW_ENTRY, TABLE, WIDEST,
    };
    use independent::lines::Line;
    use std::collections::HashSet;

    #[test]
    fn a_round_is_the_same_twice() {
        assert_eq!(inputs(5, 3), inputs(5, 3));
        assert_ne!(inputs(5, 3), inputs(5, 4));
        assert_ne!(inputs(5, 3), inputs(6, 3));
    }

    /// Two or three inputs in five are answered, and every number is given.
    #[test]
    fn a_good_share_is_answered() {
        let inputs: Vec<Input> = (0..10).flat_map(|round| inputs(1, round)).collect();
        let mut tally = Tally::default();
        for Input { call, .. } in &inputs {
            tally.count(call.name, &Seen::expected(call));
        }
        let share = 100 * tally.answered() / tally.inputs();
        assert!((40..=60).contains(&share), "{share} %");
        let refusals: Vec<Refusal> = inputs.iter().filter_map(|x| refusal(&x.call)).collect();
        for number in TABLE {
            let given = refusals.iter().any(|refusal| refusal.number == number);
            assert!(given, "{number}");
        }
    }

    /// Not only at the front of a list.
    #[test]
    fn bad_entries_at_many_places() {
        let inputs: Vec<Input> = (0..10).flat_map(|round| inputs(1, round)).collect();
        for (number, least) in [(MATRIX_ENTRY, 20), (ROW_ENTRY, 10), (COEFFICIENT, 5)] {
            let refusals = inputs.iter().filter_map(|x| refusal(&x.call));
            let bad = refusals.filter(|refusal| refusal.number == number);
            let places: HashSet<Place> = bad.filter_map(|refusal| refusal.place).collect();
            assert!(least <= places.len(), "{number}: {}", places.len());
        }
    }

    /// A line says all of a call.
    #[test]
    fn lines_of_inputs() {
        for Input { call, .. } in inputs(3, 0) {
            assert_eq!(Call::of_line(&Line::parse(&call.line())), call);
        }
    }

    #[test]
    fn every_call_is_tried() {
        let inputs = inputs(2, 0);
        for name in Name::ALL {
            let count = inputs.iter().filter(|x| x.call.name == name).count();
            assert!(ROUND / 100 < count, "{name:?}: {count}");
        }
    }

    /// Of a modulus of any size 0, which has no inverse, and scalars that have one are answered, and scalars are refused.
    #[test]
    fn inverses_of_all_sorts() {
        let inputs: Vec<Input> = (0..10).flat_map(|round| inputs(1, round)).collect();
        for moduli in [2..=2, 3..=13, 14..=LARGEST_PRIME] {
            let of = |call: &&Call| call.name == Name::Inverse && moduli.contains(&call.p.into());
            let calls = inputs.iter().map(|x| &x.call).filter(of);
            let answers: Vec<Answer> = calls.map(|call| outcome(call).answer).collect();
            let share = |sort: fn(&Answer) -> bool| {
                100 * answers.iter().filter(|answer| sort(answer)).count() / answers.len()
            };
            let none = share(|answer| *answer == Answer::Inverse(None));
            let some = share(|answer| matches!(answer, Answer::Inverse(Some(_))));
            let bad =
                |answer: &Answer| *answer == Answer::Refused(Refusal::of_entry(COEFFICIENT, 0, 1));
            let refused = share(bad);
            assert!(
                5 <= none && 20 <= some && 5 <= refused,
                "{moduli:?}: {none}, {some}, {refused} %"
            );
        }
    }

    #[test]
    fn the_pool_is_sound() {
        let mut numbers = Numbers(1);
        let pools = (0..20).flat_map(|_| pool(&mut numbers));
        for call in pools {
            assert_eq!(refusal(&call), None, "{}", call.line());
        }
    }

    /// Files of a case's full length are damaged too, and machines of 64 rows are answered.
    #[test]
    fn what_is_large_is_not_left_out() {
        let inputs: Vec<Input> = (0..30).flat_map(|round| inputs(4, round)).collect();
        let long = |call: &Call| call.name == Name::Sheet && 10_000 < call.slices[0].len();
        assert!(inputs.iter().any(|x| long(&x.call)));
        let wide = |call: &Call| call.n == WIDEST && refusal(call).is_none();
        assert!(inputs.iter().any(|x| wide(&x.call)));
    }
}
