//! Changes of a call: those that may spoil it, and one that makes it sound again.
use crate::draft::make_room;
use crate::lend::{LONGEST, NO_INVERSE};
use crate::made::{case_of, shuffle, smudge, MARK};
use independent::calls::{Call, Name, MOST_COEFFICIENTS, SHEET_ROOM, WIDEST};
use independent::case::{MOST_CANDIDATES, MOST_STATED};
use independent::grammar;
use independent::naive::{is_prime, Row, LARGEST_PRIME};
use independent::numbers::Numbers;

/// Moduli that are none, the ends of the range, and numbers whose low bytes are a prime.
const MODULI: [u32; 18] = [
    0,
    1,
    2,
    3,
    4,
    5,
    7,
    9,
    121,
    221,
    251,
    252,
    253,
    255,
    256,
    258,
    65_538,
    u32::MAX,
];

/// Sizes at the ends of the range, and numbers whose low bytes are a size.
const SIZES: [u64; 14] = [
    0,
    1,
    2,
    63,
    64,
    65,
    66,
    128,
    255,
    256,
    258,
    (1 << 32) + 1,
    1 << 63,
    u64::MAX,
];

/// Ends of the ranges of both numbers that an allowance is stated by, and such as cannot be stated.
const ALLOWANCES: [u64; 12] = [
    0,
    1,
    2,
    64,
    127,
    128,
    8_192,
    MOST_STATED,
    MOST_STATED + 1,
    1 << 16,
    1 << 31,
    u32::MAX as u64,
];

/// Lengths at the ends of the ranges of rows, polynomials and lists.
const LENGTHS: [usize; 8] = [1, 2, 64, 65, 66, 128, 129, 4_096];

/// Small primes are the more, for machines that come round soon.
const CHEAP_PRIMES: [u64; 6] = [2, 2, 3, 5, 7, LARGEST_PRIME];

/// The largest size of a call that is mended, but for a few.
const SMALL: u64 = 8;
const LARGE_ONCE_IN: u64 = 60;

/// An entry that is changed is bad once in so many times.
const BAD_ONCE_IN: u64 = 6;

/// A size that a call can have.
pub fn some_size(numbers: &mut Numbers) -> u64 {
    let most = if numbers.once_in(LARGE_ONCE_IN) {
        WIDEST
    } else {
        SMALL
    };
    1 + numbers.below(most)
}

/// A change of anything that is lent.
pub fn mutate(numbers: &mut Numbers, call: &mut Call) {
    match call.name {
        Name::Sheet => mutate_sheet(numbers, call),
        Name::Inverse => mutate_inverse(numbers, call),
        _ => mutate_numbers_or_slices(numbers, call),
    }
    call.drop_unused();
    call.slices.iter_mut().for_each(|s| s.truncate(LONGEST));
}

fn mutate_numbers_or_slices(numbers: &mut Numbers, call: &mut Call) {
    match numbers.below(12) {
        0 => change_modulus(numbers, call),
        1 => call.n = near_or_one_of(numbers, call.n, &SIZES),
        2 => call.k = near_or_one_of(numbers, call.k.into(), &ALLOWANCES) as u32,
        3 => resized(numbers, call),
        4..=6 => change_row(numbers, call),
        7 | 8 => change_entry(numbers, call),
        9 => change_length(numbers, call),
        _ => smudge_slice(numbers, call),
    }
}

/// Another scalar, now and then another modulus. There is no size and no slice to change.
fn mutate_inverse(numbers: &mut Numbers, call: &mut Call) {
    match numbers.below(4) {
        0 => change_modulus(numbers, call),
        _ => call.k = near_or_one_of(numbers, call.k.into(), &telling_scalars(call.p)) as u32,
    }
}

/// Both ends of the scalars that have an inverse, what is beside them, what stands for no inverse, and numbers past a byte.
fn telling_scalars(p: u32) -> [u64; 9] {
    let p = u64::from(p);
    [
        0,
        1,
        2,
        p.saturating_sub(1),
        p,
        p + 1,
        p + 256,
        NO_INVERSE.into(),
        u32::MAX.into(),
    ]
}

fn change_modulus(numbers: &mut Numbers, call: &mut Call) {
    call.p = near_or_one_of(numbers, call.p.into(), &MODULI.map(u64::from)) as u32;
}

/// One more, one less, or a telling number.
fn near_or_one_of(numbers: &mut Numbers, x: u64, telling: &[u64]) -> u64 {
    match numbers.below(3) {
        0 => x.wrapping_add(1),
        1 => x.wrapping_sub(1),
        _ => numbers.one_of(telling),
    }
}

/// Another size, and slices to it.
fn resized(numbers: &mut Numbers, call: &mut Call) {
    call.n = some_size(numbers);
    mend(numbers, call);
}

/// One of the slices, where there are any.
fn some_slice<'a>(numbers: &mut Numbers, slices: &'a mut [Vec<u8>]) -> Option<&'a mut Vec<u8>> {
    if slices.is_empty() {
        return None;
    }
    let at = numbers.place(slices.len());
    slices.get_mut(at)
}

fn smudge_slice(numbers: &mut Numbers, call: &mut Call) {
    if let Some(slice) = some_slice(numbers, &mut call.slices) {
        smudge(numbers, slice);
    }
}

/// A slice without a byte, with one less or one more, or of a telling length.
fn change_length(numbers: &mut Numbers, call: &mut Call) {
    let Some(slice) = some_slice(numbers, &mut call.slices) else {
        return;
    };
    match numbers.below(4) {
        0 => slice.clear(),
        1 => drop(slice.pop()),
        2 => slice.push(0),
        _ => fit(slice, numbers.one_of(&LENGTHS)),
    }
}

/// Another entry or coefficient somewhere.
fn change_entry(numbers: &mut Numbers, call: &mut Call) {
    let entry = some_entry(numbers, call.p);
    let read = &mut call.slices[..call.name.results().start];
    if let Some(list) = some_slice(numbers, read).filter(|list| !list.is_empty()) {
        let at = numbers.place(list.len());
        list[at] = entry;
    }
}

/// An entry below p; now and then p, the next one, or what stands for no inverse.
fn some_entry(numbers: &mut Numbers, p: u32) -> u8 {
    let p = p.clamp(1, 255) as u8;
    if numbers.once_in(BAD_ONCE_IN) {
        numbers.one_of(&[p, p.saturating_add(1), NO_INVERSE])
    } else {
        numbers.below(p.into()) as u8
    }
}

/// A row of the matrix or of a list becomes another row, a unit row or zero.
fn change_row(numbers: &mut Numbers, call: &mut Call) {
    let n = call.n.clamp(1, WIDEST) as usize;
    let read = &mut call.slices[..call.name.results().start];
    let Some(list) = some_slice(numbers, read).filter(|list| n <= list.len()) else {
        return;
    };
    let rows = list.len() / n;
    let (to, from) = (n * numbers.place(rows), n * numbers.place(rows));
    match numbers.below(4) {
        0 => list[to..to + n].fill(0),
        1 => {
            list[to..to + n].fill(0);
            list[to + numbers.place(n)] = 1;
        }
        _ => list.copy_within(from..from + n, to),
    }
}

fn mutate_sheet(numbers: &mut Numbers, call: &mut Call) {
    let [file, buffer] = &mut call.slices[..] else {
        unreachable!("a sheet has a file and a buffer");
    };
    match numbers.below(16) {
        0 => fit(buffer, SHEET_ROOM - numbers.place(2)),
        1 => smudge(numbers, buffer),
        2..=7 if !file.is_empty() => {
            let number = |at: usize| file.get(at).copied().unwrap_or(1);
            let (p, n) = (number(2), usize::from(number(3)));
            *file = shuffle(numbers, records(file), p, n);
        }
        _ => smudge(numbers, file),
    }
}

/// The bytes of a file cut in front of each mark.
fn records(file: &[u8]) -> Vec<Vec<u8>> {
    let pieces = file.chunk_by(|_, &next| next != MARK);
    pieces.map(<[u8]>::to_vec).collect()
}

/// Whatever is wrong with the call is put right, with as little change as is easy.
pub fn mend(numbers: &mut Numbers, call: &mut Call) {
    match call.name {
        Name::Sheet => mend_sheet(numbers, call),
        Name::Inverse => {
            call.p = prime_of(call.p);
            call.k %= call.p;
        }
        _ => mend_machine(numbers, call),
    }
}

/// The number if it is a modulus, else the largest one that is not above it, or not above what is left of it.
fn prime_of(p: u32) -> u32 {
    let most = u64::from(p) % (LARGEST_PRIME + 1);
    let found = (2..=most).rev().find(|&q| is_prime(q));
    found.unwrap_or(2) as u32
}

fn mend_machine(numbers: &mut Numbers, call: &mut Call) {
    call.p = prime_of(call.p);
    if !(1..=WIDEST).contains(&call.n) {
        call.n = some_size(numbers);
    }
    let n = call.n as usize;
    let read = call.name.results().start;
    for (k, list) in call.slices[..read].iter_mut().enumerate() {
        let length = match (k, call.name) {
            (0, _) => n * n,
            (1, Name::Order | Name::Image) => n,
            (1, _) => n * (list.len() / n).min(MOST_CANDIDATES),
            _ => list.len().clamp(1, MOST_COEFFICIENTS),
        };
        fit(list, length);
        list.iter_mut()
            .for_each(|x| *x = (u32::from(*x) % call.p) as u8);
    }
    if call.name == Name::Write {
        call.k = call.k.min(MOST_STATED as u32);
    }
    make_room(call, n);
}

/// The front of a list, or the list again and again; zeros where it is empty.
fn fit(list: &mut Vec<u8>, length: usize) {
    let there = list.len();
    list.resize(length, 0);
    for k in there.max(1)..length {
        list[k] = list[k - there.max(1)];
    }
}

/// A file that is a case is changed as the call that writes it is, and stays a case; any other is
/// replaced.
fn mend_sheet(numbers: &mut Numbers, call: &mut Call) {
    let wide: Row = call.slices[0].iter().map(|&x| x.into()).collect();
    call.slices[0] = match grammar::values(&wide) {
        Some(values) => {
            let mut write = write_of(&values);
            mutate_numbers_or_slices(numbers, &mut write);
            mend(numbers, &mut write);
            file_of(numbers, &write)
        }
        None => some_file(numbers),
    };
    make_room(call, 0); // that of a sheet is the same for every size
}

/// The file of a small machine.
pub fn some_file(numbers: &mut Numbers) -> Vec<u8> {
    let p = numbers.one_of(&CHEAP_PRIMES);
    let n = some_size(numbers) as usize;
    case_of(numbers, p, n).0.bytes()
}

/// The call that writes a case with these values.
fn write_of(values: &grammar::Case) -> Call {
    let bytes = |list: &[u64]| list.iter().map(|&x| x as u8).collect();
    let mut call = Call {
        name: Name::Write,
        p: values.p as u32,
        n: values.n,
        k: values.allowance as u32,
        slices: vec![bytes(&values.matrix), bytes(&values.candidates), vec![]],
    };
    make_room(&mut call, values.n as usize);
    call
}

/// The file that a call without a fault writes. The allowance is now and then left out.
fn file_of(numbers: &mut Numbers, write: &Call) -> Vec<u8> {
    let mut case = write.case();
    if numbers.once_in(4) {
        case.stated = None;
    }
    case.bytes()
}

#[cfg(test)]
mod tests {
    use super::*;
    use crate::rounds;
    use independent::calls::{outcome, refusal, Answer};
    use independent::lines::Line;

    const LINES: [&str; 8] = [
        "inverse 0 | 999",
        "order 4 | 0 | | 255 | ",
        "image 300 | 2 | 1 2 3 | | | 1",
        "stand 2 | 3 | 9*255 | 7*1 | 5 | | ",
        "chain 251 | 1 | 0 | 200*9 | | 1",
        "period 1 | 18446744073709551615 | 5*5",
        "sheet 255 70 | 12*0",
        "write 9 | 2 | 5*9 | 300*8 | 4294967295 | 3*0",
    ];

    fn calls() -> impl Iterator<Item = Call> {
        LINES.iter().map(|text| Call::of_line(&Line::parse(text)))
    }

    fn sheet() -> Call {
        let mut sheets = calls().filter(|call| call.name == Name::Sheet);
        sheets.next().expect("there is one")
    }

    #[test]
    fn what_is_mended_is_not_refused() {
        let mut numbers = Numbers(1);
        for mut call in calls() {
            for _ in 0..50 {
                mend(&mut numbers, &mut call);
                assert_eq!(refusal(&call), None, "{}", call.line());
                mutate(&mut numbers, &mut call);
                mutate(&mut numbers, &mut call);
            }
        }
    }

    #[test]
    fn a_sheet_that_is_mended_is_of_a_case() {
        let mut numbers = Numbers(2);
        let mut call = sheet();
        for _ in 0..100 {
            mend(&mut numbers, &mut call);
            assert!(values(&call.slices[0]).is_some(), "{}", call.line());
        }
    }

    /// What is sound already is not changed by mending.
    #[test]
    fn what_is_sound_stays() {
        let text = "chain 3 | 2 | 0 1 2 0 | 1 0 2 2 | 3*7 | 5*9";
        let call = Call::of_line(&Line::parse(text));
        let mut mended = call.clone();
        mend(&mut Numbers(3), &mut mended);
        assert_eq!(mended, call);
    }

    fn values(file: &[u8]) -> Option<grammar::Case> {
        let wide: Row = file.iter().map(|&x| x.into()).collect();
        grammar::values(&wide)
    }

    /// What a call that is answered writes.
    fn written(call: &Call) -> Option<Vec<u8>> {
        let outcome = outcome(call);
        match outcome.answer {
            Answer::Length(length) => Some(outcome.slices[2][..length].to_vec()),
            _ => None,
        }
    }

    /// The call that reads what was written and writes it again is the one that wrote it.
    #[test]
    fn what_is_written_is_read_back() {
        let inputs = (0..10).flat_map(|round| rounds::inputs(6, round));
        let writes = inputs.map(|x| x.call).filter(|x| x.name == Name::Write);
        let mut count = 0;
        for mut call in writes {
            let Some(file) = written(&call) else {
                continue;
            };
            let again = write_of(&values(&file).expect("a case is written"));
            call.slices[2] = again.slices[2].clone();
            assert_eq!(again, call);
            count += 1;
        }
        assert!(500 < count, "{count}");
    }

    /// Of the files of the fuzzer.
    #[test]
    fn a_case_that_states_its_allowance_is_rewritten_to_itself() {
        let inputs = (0..10).flat_map(|round| rounds::inputs(6, round));
        let sheets = inputs.map(|x| x.call).filter(|x| x.name == Name::Sheet);
        let (mut stating, mut others) = (0, 0);
        for file in sheets.map(|call| call.slices[0].clone()) {
            let Some(values) = values(&file) else {
                continue;
            };
            let again = written(&write_of(&values)).expect("the values of a case are sound");
            assert_eq!(again == file, file[5] == b'A', "{file:?}");
            stating += u32::from(again == file);
            others += u32::from(again != file);
        }
        assert!(200 < stating && 50 < others, "{stating}, {others}");
    }

    #[test]
    fn no_slice_is_too_long_to_be_lent() {
        let mut numbers = Numbers(4);
        let mut call = sheet();
        call.slices[0] = vec![MARK; LONGEST];
        for _ in 0..200 {
            mutate(&mut numbers, &mut call);
            assert!(call.slices.iter().all(|slice| slice.len() <= LONGEST));
        }
    }
}
