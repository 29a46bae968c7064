//! Calls with faults: for every set of at most three of a call's tests, inputs to which these tests apply and no other. There are several ways to
//! have each fault, and a set is made in all of them. A few ways bring a later fault with them: p = 0 leaves no entry that is below p, and a size
//! past every slice leaves no slice of the right length.
use crate::draft::{make_room, Draft};
use crate::lend::NO_INVERSE;
use crate::made::primes;
use independent::calls::{
    Call, Name, ALLOWANCE, BUFFERS, COEFFICIENT, MATRIX, MATRIX_ENTRY, MOST_COEFFICIENTS,
    POLYNOMIAL, PRIME, ROWS, ROW_ENTRY, SIZE, WIDEST,
};
use independent::case::{MOST_CANDIDATES, MOST_STATED};
use independent::naive::LARGEST_PRIME;
use independent::numbers::Numbers;
use std::iter::repeat_n;

/// How many faults a call has at most.
const MOST_FAULTS: usize = 3;

/// There is one set of no fault; its calls are made so many times as often as others.
const SOUND: usize = 100;

/// A test that is to apply, and in which of its ways.
#[derive(Debug, Clone, Copy, PartialEq, Eq)]
struct Fault {
    test: u8,
    way: usize,
}

/// Every call with every set of faults, so many times each, on machines that the seed draws.
pub fn calls(times: usize, seed: u64) -> impl Iterator<Item = Call> {
    let (mut numbers, primes) = (Numbers(seed), primes());
    let of = |name: Name| {
        sets(name, MOST_FAULTS)
            .into_iter()
            .map(move |set| (name, set))
    };
    let again = move |(name, set): (Name, Vec<Fault>)| {
        let often = if set.is_empty() { SOUND } else { 1 };
        repeat_n((name, set), often * times)
    };
    let sets = Name::ALL.into_iter().flat_map(of).flat_map(again);
    sets.filter_map(move |(name, set)| faulty(&mut numbers, &primes, name, &set))
}

/// Which call runs which tests (`docs/CALLS.md`).
fn tests(name: Name) -> &'static [u8] {
    match name {
        Name::Inverse => &[PRIME, COEFFICIENT],
        Name::Order | Name::Stand | Name::Chain => {
            &[PRIME, SIZE, MATRIX, ROWS, MATRIX_ENTRY, ROW_ENTRY, BUFFERS]
        }
        Name::Image => &[
            PRIME,
            SIZE,
            MATRIX,
            ROWS,
            POLYNOMIAL,
            MATRIX_ENTRY,
            ROW_ENTRY,
            COEFFICIENT,
            BUFFERS,
        ],
        Name::Period => &[PRIME, SIZE, MATRIX, MATRIX_ENTRY],
        Name::Sheet => &[BUFFERS],
        Name::Write => &[
            PRIME,
            SIZE,
            MATRIX,
            ROWS,
            MATRIX_ENTRY,
            ROW_ENTRY,
            ALLOWANCE,
            BUFFERS,
        ],
    }
}

/// Every choice of at most so many of the tests, in every combination of their ways.
fn sets(name: Name, most: usize) -> Vec<Vec<Fault>> {
    let mut sets = vec![vec![]];
    for &test in tests(name) {
        let longer: Vec<Vec<Fault>> = sets
            .iter()
            .filter(|set: &&Vec<Fault>| set.len() < most)
            .flat_map(|set| ways(name, test).map(|way| [&set[..], &[Fault { test, way }]].concat()))
            .collect();
        sets.extend(longer);
    }
    sets
}

fn ways(name: Name, test: u8) -> std::ops::Range<usize> {
    0..match test {
        PRIME => MODULI.len(),
        SIZE => SIZES.len(),
        MATRIX | ROWS => LENGTHS,
        POLYNOMIAL => POLYNOMIALS.len(),
        COEFFICIENT if name == Name::Inverse => SCALARS,
        MATRIX_ENTRY | ROW_ENTRY | COEFFICIENT => SPOILT.len() * VALUES,
        ALLOWANCE => ALLOWANCES.len(),
        _ => name.results().len() * SHORT,
    }
}

/// No modulus, and what the entries are then drawn below. Those past a byte are a prime in their low bytes.
const MODULI: [(u32, u64); 9] = [
    (0, 1),
    (1, 1),
    (4, 4),
    (252, 252),
    (253, 253),
    (255, 255),
    (256 + 2, 2),
    (65_537 * 3, 3),
    (u32::MAX, LARGEST_PRIME),
];

/// No size, and the one by which the slices are laid out. Those past every slice are like it in their low bytes, or have a square that is.
const SIZES: [(u64, usize); 6] = [
    (0, 0),
    (WIDEST + 1, WIDEST as usize + 1),
    (WIDEST + 2, WIDEST as usize + 2),
    ((1 << 32) + 2, 2),
    (1 << 63, 0),
    (u64::MAX, 1),
];

/// How many lengths are tried that a matrix, a row or a list is not to have.
const LENGTHS: usize = 4;

/// The lengths of polynomials that are none.
const POLYNOMIALS: [usize; 3] = [0, MOST_COEFFICIENTS + 1, 255];

/// How many scalars are tried that are p or more.
const SCALARS: usize = 5;

/// Allowances that no case can state. Two of them are small in their low bytes.
const ALLOWANCES: [u32; 4] = [MOST_STATED as u32 + 1, 1 << 16, (1 << 31) + 9, u32::MAX];

/// Where a list is bad, in halves of the way through it: at its first, middle or last place, or at two of them, of which the earlier one is told.
const SPOILT: [&[usize]; 5] = [&[0], &[1], &[2], &[0, 2], &[1, 2]];

/// A bad entry is p or what stands for no inverse.
const VALUES: usize = 2;

/// The most rows of a machine whose size is sound.
const MOST_ROWS: usize = 5;

/// A buffer is a byte too short, or empty.
const SHORT: usize = 2;

fn way_of(faults: &[Fault], test: u8) -> Option<usize> {
    let found = faults.iter().find(|fault| fault.test == test);
    found.map(|fault| fault.way)
}

fn draft(numbers: &mut Numbers, primes: &[u64], faults: &[Fault]) -> Draft {
    let prime = numbers.one_of(primes);
    let mut draft = Draft::sound(prime, 1 + numbers.place(MOST_ROWS));
    if let Some(way) = way_of(faults, PRIME) {
        (draft.p, draft.below) = MODULI[way];
    }
    if let Some(way) = way_of(faults, SIZE) {
        (draft.n, draft.laid) = SIZES[way];
    }
    draft
}

/// A call with these faults, or nothing where it cannot have them all. They are made in the table's order, so that a list has its length before
/// one of its entries is bad.
fn faulty(numbers: &mut Numbers, primes: &[u64], name: Name, faults: &[Fault]) -> Option<Call> {
    let draft = draft(numbers, primes, faults);
    let mut call = draft.call(numbers, name);
    for &Fault { test, way } in faults {
        match test {
            PRIME | SIZE => {}
            MATRIX => resize(&mut call.slices[0], square_sizes(draft.laid)[way])?,
            ROWS => {
                resize(&mut call.slices[1], row_sizes(name, draft.laid)[way])?;
                make_room(&mut call, draft.laid);
            }
            POLYNOMIAL => call.slices[2] = vec![0; POLYNOMIALS[way]],
            MATRIX_ENTRY => spoil(call.p, &mut call.slices[0], way)?,
            ROW_ENTRY => spoil(call.p, &mut call.slices[1], way)?,
            COEFFICIENT if name == Name::Inverse => call.k = scalars(call.p)[way],
            COEFFICIENT => spoil(call.p, &mut call.slices[2], way)?,
            ALLOWANCE => call.k = ALLOWANCES[way],
            _ => shorten(&mut call, draft.laid, way)?,
        }
    }
    Some(call)
}

/// Lengths that a matrix is not to have; that of the next size is the last.
fn square_sizes(n: usize) -> [Option<usize>; LENGTHS] {
    let square = n * n;
    let short = square.checked_sub(1);
    let empty = (0 < n).then_some(0);
    [short, Some(square + 1), empty, Some((n + 1) * (n + 1))]
}

/// Lengths that a row, or a list of candidates, is not to have.
fn row_sizes(name: Name, n: usize) -> [Option<usize>; LENGTHS] {
    if matches!(name, Name::Order | Name::Image) {
        let longer = 2 * n.max(1);
        return [
            n.checked_sub(1),
            Some(n + 1),
            (0 < n).then_some(0),
            Some(longer),
        ];
    }
    let most = MOST_CANDIDATES * n;
    let ragged = |length: usize| (n != 1).then_some(length);
    let over = (0 < n).then_some(most + n);
    [
        ragged(n + 1),
        ragged(most.max(2) - 1),
        over,
        Some(most + n + 1),
    ]
}

fn scalars(p: u32) -> [u32; SCALARS] {
    [
        p,
        p.saturating_add(1),
        p.saturating_add(256),
        p.max(NO_INVERSE.into()),
        u32::MAX,
    ]
}

/// The list with zeros added or its end taken off.
fn resize(list: &mut Vec<u8>, length: Option<usize>) -> Option<()> {
    list.resize(length?, 0);
    Some(())
}

/// One bad entry in a list, or two.
fn spoil(p: u32, list: &mut [u8], way: usize) -> Option<()> {
    let value = u8::try_from([p, NO_INVERSE.into()][way % VALUES]).ok()?;
    for at in spoilt_places(list.len(), way)? {
        list[at] = value;
    }
    (p <= value.into()).then_some(())
}

/// Where a list of so many entries is spoilt, counted from 0; an empty one cannot be.
fn spoilt_places(length: usize, way: usize) -> Option<impl Iterator<Item = usize>> {
    let last = length.checked_sub(1)?;
    let halves = SPOILT[way / VALUES].iter();
    Some(halves.map(move |half| last * half / 2))
}

/// A result buffer that is too short.
fn shorten(call: &mut Call, n: usize, way: usize) -> Option<()> {
    let room = call.rooms(n)[way / SHORT].checked_sub(1)?;
    let buffer = &mut call.slices[call.name.results()][way / SHORT];
    buffer.truncate([room, 0][way % SHORT]);
    Some(())
}

#[cfg(test)]
mod tests {
    use super::*;
    use independent::calls::{refusal, Refusal};
    use independent::naive::is_prime;

    /// The tests that apply, each looked at by itself.
    fn applying(call: &Call) -> Vec<u8> {
        let n = u128::from(call.n);
        let length = |k: usize| call.slices[k].len() as u128;
        let bad = |k: usize| call.slices[k].iter().any(|&x| call.p <= x.into());
        let applies = |test: u8| match test {
            PRIME => !is_prime(call.p.into()),
            SIZE => !(1..=64).contains(&n),
            MATRIX => length(0) != n * n,
            ROWS => match call.name {
                Name::Order | Name::Image => length(1) != n,
                _ if n == 0 => length(1) != 0,
                _ => length(1) % n != 0 || 128 < length(1) / n,
            },
            POLYNOMIAL => !(1..=65).contains(&length(2)),
            MATRIX_ENTRY => bad(0),
            ROW_ENTRY => bad(1),
            COEFFICIENT if call.name == Name::Inverse => call.p <= call.k,
            COEFFICIENT => bad(2),
            ALLOWANCE => 16_383 < call.k,
            _ => {
                let rooms = call.rooms(call.n.min(66) as usize);
                let mut buffers = call.slices[call.name.results()].iter().zip(rooms);
                buffers.any(|(buffer, room)| buffer.len() < room)
            }
        };
        let tests = tests(call.name).iter().copied();
        tests.filter(|&test| applies(test)).collect()
    }

    /// Whether one fault is bound to bring others.
    fn brings_others(call: &Call) -> bool {
        call.p == 0 || 66 < call.n
    }

    #[test]
    fn a_set_has_its_faults_and_no_other() {
        let (mut numbers, primes) = (Numbers(1), primes());
        for name in Name::ALL {
            let mut made = 0;
            for set in sets(name, MOST_FAULTS) {
                let Some(call) = faulty(&mut numbers, &primes, name, &set) else {
                    continue;
                };
                made += 1;
                let named: Vec<u8> = set.iter().map(|fault| fault.test).collect();
                if !brings_others(&call) {
                    assert_eq!(applying(&call), named, "{}", call.line());
                }
                assert!(named.iter().all(|test| applying(&call).contains(test)));
                let given = refusal(&call).map(|refusal| refusal.number);
                assert_eq!(given, named.first().copied(), "{}", call.line());
            }
            assert!(2 * made > sets(name, MOST_FAULTS).len(), "{name:?}: {made}");
        }
    }

    /// The refusal of a call whose first fault is a bad entry: by where that was put.
    fn of_entry(call: &Call, fault: Fault) -> Option<Refusal> {
        let of_list = |k: usize| spoilt_places(call.slices[k].len(), fault.way)?.next();
        let n = call.n as usize;
        let place = |at: usize| Refusal::of_entry(fault.test, at / n + 1, at % n + 1);
        let coefficient = |at: usize| Refusal::of_entry(COEFFICIENT, 0, at + 1);
        match fault.test {
            MATRIX_ENTRY => of_list(0).map(place),
            ROW_ENTRY => of_list(1).map(place),
            COEFFICIENT if call.name == Name::Inverse => Some(coefficient(0)),
            COEFFICIENT => of_list(2).map(coefficient),
            _ => None,
        }
    }

    #[test]
    fn the_first_bad_entry_is_told() {
        let (mut numbers, primes) = (Numbers(4), primes());
        for name in Name::ALL {
            for set in sets(name, 2) {
                let made = faulty(&mut numbers, &primes, name, &set);
                let (Some(call), Some(&first)) = (made, set.first()) else {
                    continue;
                };
                let expected = of_entry(&call, first).unwrap_or(Refusal::alone(first.test));
                assert_eq!(refusal(&call), Some(expected), "{}", call.line());
            }
        }
    }

    /// Each set of at most three tests is made in some way.
    #[test]
    fn no_set_is_left_out() {
        let (mut numbers, primes) = (Numbers(2), primes());
        for name in Name::ALL {
            let mut made: Vec<Vec<u8>> = vec![];
            for set in sets(name, MOST_FAULTS) {
                if faulty(&mut numbers, &primes, name, &set).is_some() {
                    made.push(set.iter().map(|fault| fault.test).collect());
                }
            }
            made.sort();
            made.dedup();
            let count = tests(name).len();
            let choose = |k: usize| (0..k).fold(1, |c, i| c * (count - i.min(count)) / (i + 1));
            assert_eq!(made.len(), (0..=MOST_FAULTS).map(choose).sum(), "{name:?}");
        }
    }

    #[test]
    fn the_calls_of_a_seed() {
        let twice = [calls(1, 3), calls(1, 3)].map(Iterator::collect::<Vec<Call>>);
        assert_eq!(twice[0], twice[1]);
        let sound = twice[0].iter().filter(|call| refusal(call).is_none());
        assert_eq!(sound.count(), SOUND * Name::ALL.len());
    }

    /// 0, which has no inverse, is one in ten of the sound scalars or more, and the others are the most.
    #[test]
    fn zero_is_inverted_too() {
        let sound = |call: &Call| call.name == Name::Inverse && refusal(call).is_none();
        let scalars: Vec<u32> = calls(1, 3).filter(sound).map(|call| call.k).collect();
        let zeros = scalars.iter().filter(|&&a| a == 0).count();
        assert!((SOUND / 10..SOUND / 2).contains(&zeros), "{zeros}");
    }

    #[test]
    fn at_most_so_many_faults() {
        let lengths: Vec<usize> = sets(Name::Inverse, 1).iter().map(Vec::len).collect();
        assert_eq!(lengths.len(), 1 + MODULI.len() + SCALARS);
        assert!(lengths.iter().all(|&x| x <= 1));
    }
}
