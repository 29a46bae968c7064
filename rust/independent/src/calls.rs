//! The calls with all that is lent to them: what each answers, and every slice as it leaves it.
//! What is refused is worked out here from the refusal table alone (01, "Refusal numbers", with 5
//! split by #102 and 9 put in by #101); the results are those of `naive`, `sheet` and `case`.
//!
//! A call can be written as a line of text, its arguments and what each result buffer holds before it in groups:
//!
//! ```text
//! inverse p | scalar
//! order   p | n | matrix | row | buffer
//! image   p | n | matrix | row | polynomial | buffer
//! stand   p | n | matrix | candidates | allowance | polynomial buffer | witness buffer
//! chain   p | n | matrix | candidates | product buffer | stage buffer
//! period  p | n | matrix
//! sheet   file | buffer
//! write   p | n | matrix | candidates | allowance | buffer
//! ```
use crate::case::{stating_length, Case, MOST_CANDIDATES, MOST_STATED};
use crate::lines::{short_list, Line};
use crate::naive::{self, Matrix, Row};
use crate::sheet;
use std::ops::Range;

// The numbers of the refusals.
pub const PRIME: u8 = 1;
pub const SIZE: u8 = 2;
pub const MATRIX: u8 = 3;
pub const ROWS: u8 = 4;
pub const POLYNOMIAL: u8 = 7;
pub const MATRIX_ENTRY: u8 = 5;
pub const ROW_ENTRY: u8 = 10;
pub const COEFFICIENT: u8 = 11;
pub const ALLOWANCE: u8 = 9;
pub const BUFFERS: u8 = 6;

/// The order of the table, in which the tests run.
pub const TABLE: [u8; 10] = [
    PRIME,
    SIZE,
    MATRIX,
    ROWS,
    POLYNOMIAL,
    MATRIX_ENTRY,
    ROW_ENTRY,
    COEFFICIENT,
    ALLOWANCE,
    BUFFERS,
];

/// Where an entry is, counted from 1. The row of a coefficient and of the scalar is 0.
#[derive(Debug, Clone, Copy, PartialEq, Eq, Hash)]
pub struct Place {
    pub row: usize,
    pub column: usize,
}

/// Why a call is refused.
#[derive(Debug, Clone, Copy, PartialEq, Eq)]
pub struct Refusal {
    pub number: u8,
    /// That of the first bad entry; of 5, 10 and 11 alone.
    pub place: Option<Place>,
}

impl Refusal {
    /// The number alone.
    pub fn alone(number: u8) -> Refusal {
        Refusal {
            number,
            place: None,
        }
    }

    pub fn of_entry(number: u8, row: usize, column: usize) -> Refusal {
        Refusal {
            number,
            place: Some(Place { row, column }),
        }
    }
}

pub const WIDEST: u64 = 64;
pub const MOST_COEFFICIENTS: usize = 65;
/// What a buffer for a sheet is to have.
pub const SHEET_ROOM: usize = 2_048;

#[derive(Debug, Clone, Copy, PartialEq, Eq, PartialOrd, Ord)]
pub enum Name {
    Inverse,
    Order,
    Image,
    Stand,
    Chain,
    Period,
    Sheet,
    Write,
}

/// What a group of a line is: a number of the call, or the next slice.
#[derive(PartialEq, Eq)]
enum Part {
    P,
    N,
    K,
    Slice,
}

impl Name {
    pub const ALL: [Name; 8] = [
        Name::Inverse,
        Name::Order,
        Name::Image,
        Name::Stand,
        Name::Chain,
        Name::Period,
        Name::Sheet,
        Name::Write,
    ];

    pub fn word(self) -> &'static str {
        match self {
            Name::Inverse => "inverse",
            Name::Order => "order",
            Name::Image => "image",
            Name::Stand => "stand",
            Name::Chain => "chain",
            Name::Period => "period",
            Name::Sheet => "sheet",
            Name::Write => "write",
        }
    }

    fn of_word(word: &str) -> Name {
        let found = Name::ALL.into_iter().find(|name| name.word() == word);
        found.unwrap_or_else(|| panic!("{word} is no call"))
    }

    fn parts(self) -> &'static [Part] {
        use Part::*;
        match self {
            Name::Inverse => &[P, K],
            Name::Order => &[P, N, Slice, Slice, Slice],
            Name::Image => &[P, N, Slice, Slice, Slice, Slice],
            Name::Stand => &[P, N, Slice, Slice, K, Slice, Slice],
            Name::Chain => &[P, N, Slice, Slice, Slice, Slice],
            Name::Period => &[P, N, Slice],
            Name::Sheet => &[Slice, Slice],
            Name::Write => &[P, N, Slice, Slice, K, Slice],
        }
    }

    /// How many slices are lent.
    pub fn slices(self) -> usize {
        self.results().end
    }

    /// Which slices are result buffers; those in front of them are read alone.
    pub fn results(self) -> Range<usize> {
        match self {
            Name::Inverse => 0..0,
            Name::Order | Name::Write => 2..3,
            Name::Image => 3..4,
            Name::Stand | Name::Chain => 2..4,
            Name::Period => 1..1,
            Name::Sheet => 1..2,
        }
    }
}

/// A call with its numbers and slices, these in the sequence of its parameters. A number that it does not take is 0.
#[derive(Debug, Clone, PartialEq, Eq)]
pub struct Call {
    pub name: Name,
    pub p: u32,
    pub n: u64,
    /// The scalar of an inverse, the allowance of a stand and of a case to be written.
    pub k: u32,
    pub slices: Vec<Vec<u8>>,
}

impl Call {
    pub fn of_line(line: &Line) -> Call {
        let mut call = Call {
            name: Name::of_word(line.word),
            p: 0,
            n: 0,
            k: 0,
            slices: vec![],
        };
        for (at, part) in call.name.parts().iter().enumerate() {
            match part {
                Part::P => call.p = word(line.number(at)),
                Part::N => call.n = line.number(at),
                Part::K => call.k = word(line.number(at)),
                Part::Slice => call.slices.push(narrow(line.group(at))),
            }
        }
        call
    }

    pub fn line(&self) -> String {
        let mut slices = self.slices.iter();
        let group = |part: &Part| match part {
            Part::P => self.p.to_string(),
            Part::N => self.n.to_string(),
            Part::K => self.k.to_string(),
            Part::Slice => short_list(slices.next().expect("a call has all its slices")),
        };
        let groups: Vec<String> = self.name.parts().iter().map(group).collect();
        format!("{} {}", self.name.word(), groups.join(" | "))
    }

    /// Sets the numbers that it does not take to 0.
    pub fn drop_unused(&mut self) {
        let parts = self.name.parts();
        self.p *= u32::from(parts.contains(&Part::P));
        self.n *= u64::from(parts.contains(&Part::N));
        self.k *= u32::from(parts.contains(&Part::K));
    }

    /// The bytes that each result buffer is to have at least, where a row has n entries.
    pub fn rooms(&self, n: usize) -> Vec<usize> {
        match self.name {
            Name::Inverse | Name::Period => vec![],
            Name::Order => vec![n + 1],
            Name::Image => vec![n],
            Name::Stand => vec![n + 1, n],
            Name::Chain => vec![n + 1, 2 * n],
            Name::Sheet => vec![SHEET_ROOM],
            Name::Write => {
                let candidates = self.slices[1].len().checked_div(n).unwrap_or(0);
                vec![stating_length(n, candidates)]
            }
        }
    }

    /// The case of a call that takes candidates and an allowance, which the case states.
    pub fn case(&self) -> Case {
        Case {
            p: self.p.into(),
            matrix: self.matrix(),
            candidates: self.rows(1),
            stated: Some(self.k.into()),
        }
    }

    fn size(&self) -> usize {
        self.n as usize
    }

    fn list(&self, k: usize) -> Row {
        wide(&self.slices[k])
    }

    /// The rows of a list that is a whole number of them.
    fn rows(&self, k: usize) -> Vec<Row> {
        self.slices[k].chunks(self.size()).map(wide).collect()
    }

    fn matrix(&self) -> Matrix {
        self.rows(0)
    }

    /// A slice that is read; nothing where the call reads fewer.
    fn read(&self, k: usize) -> &[u8] {
        let read = &self.slices[..self.name.results().start];
        read.get(k).map_or(&[], Vec::as_slice)
    }
}

fn word(x: u64) -> u32 {
    u32::try_from(x).expect("a modulus, a scalar and an allowance have 32 bits")
}

fn wide(bytes: &[u8]) -> Row {
    bytes.iter().map(|&x| x.into()).collect()
}

fn narrow(list: &[u64]) -> Vec<u8> {
    let byte = |&x: &u64| u8::try_from(x).expect("a byte is at most 255");
    list.iter().map(byte).collect()
}

#[derive(Debug, Clone, PartialEq, Eq)]
pub enum Answer {
    Refused(Refusal),
    Inverse(Option<u64>),
    Degree(usize),
    Written,
    Stood {
        proved: bool,
        degree: usize,
        taken: usize,
        spent: u64,
        /// Counted from 1; 0 if proved.
        witness: usize,
    },
    Stages(usize),
    Period(Option<u64>),
    Length(usize),
}

/// The answer, and every slice as the call leaves it.
#[derive(Debug, Clone, PartialEq, Eq)]
pub struct Outcome {
    pub answer: Answer,
    pub slices: Vec<Vec<u8>>,
}

/// A refused call writes nothing.
pub fn outcome(call: &Call) -> Outcome {
    let mut slices = call.slices.clone();
    let answer = match refusal(call) {
        Some(refusal) => Answer::Refused(refusal),
        None => {
            let (answer, written) = given(call);
            lay(&mut slices[call.name.results()], &written);
            answer
        }
    };
    Outcome { answer, slices }
}

/// The written bytes go to the front of each buffer.
fn lay(buffers: &mut [Vec<u8>], written: &[Row]) {
    for (buffer, front) in buffers.iter_mut().zip(written) {
        buffer[..front.len()].copy_from_slice(&narrow(front));
    }
}

// What is refused.

/// That of the first test that applies.
pub fn refusal(call: &Call) -> Option<Refusal> {
    let tests = match call.name {
        Name::Inverse => of_scalar(call),
        Name::Sheet => room(call),
        _ => of_machine(call),
    };
    tests.err()
}

/// A test of the refusal table.
fn test(number: u8, applies: bool) -> Result<(), Refusal> {
    if applies {
        Err(Refusal::alone(number))
    } else {
        Ok(())
    }
}

/// A test of entries, which applies where one of them is bad: its place is given.
fn test_entries(number: u8, bad: Option<Place>) -> Result<(), Refusal> {
    match bad {
        Some(Place { row, column }) => Err(Refusal::of_entry(number, row, column)),
        None => Ok(()),
    }
}

fn of_scalar(call: &Call) -> Result<(), Refusal> {
    test(PRIME, !naive::is_prime(call.p.into()))?;
    let bad = (call.p <= call.k).then_some(Place { row: 0, column: 1 });
    test_entries(COEFFICIENT, bad)
}

/// The tests of a call that takes a matrix. n·n is formed where n is a size alone.
fn of_machine(call: &Call) -> Result<(), Refusal> {
    test(PRIME, !naive::is_prime(call.p.into()))?;
    test(SIZE, call.n < 1 || WIDEST < call.n)?;
    let n = call.size();
    test(MATRIX, call.slices[0].len() != n * n)?;
    test(ROWS, ragged(call))?;
    test(
        POLYNOMIAL,
        call.name == Name::Image && unfit(&call.slices[2]),
    )?;
    test_entries(MATRIX_ENTRY, bad_entry(call.p, n, call.read(0)))?;
    test_entries(ROW_ENTRY, bad_entry(call.p, n, call.read(1)))?;
    test_entries(COEFFICIENT, bad_coefficient(call.p, call.read(2)))?;
    let over = MOST_STATED < call.k.into();
    test(ALLOWANCE, call.name == Name::Write && over)?;
    room(call)
}

/// The column of the first entry of a row that is p or more.
fn bad_column(p: u32, row: &[u8]) -> Option<usize> {
    let bad = |&(_, &x): &(usize, &u8)| p <= x.into();
    let found = (1..).zip(row).find(bad);
    found.map(|(column, _)| column)
}

/// The first entry in reading order that is p or more, of whole rows.
fn bad_entry(p: u32, n: usize, rows: &[u8]) -> Option<Place> {
    (1..).zip(rows.chunks(n)).find_map(|(row, entries)| {
        let column = bad_column(p, entries)?;
        Some(Place { row, column })
    })
}

/// The lowest coefficient that is p or more.
fn bad_coefficient(p: u32, polynomial: &[u8]) -> Option<Place> {
    let column = bad_column(p, polynomial)?;
    Some(Place { row: 0, column })
}

/// Whether the row, or the list of candidates, has not the length that it is to have.
fn ragged(call: &Call) -> bool {
    let n = call.size();
    let length = || call.slices[1].len();
    match call.name {
        Name::Order | Name::Image => length() != n,
        Name::Stand | Name::Chain | Name::Write => {
            !length().is_multiple_of(n) || MOST_CANDIDATES < length() / n
        }
        _ => false,
    }
}

/// Whether a list has no coefficient or too many.
fn unfit(polynomial: &[u8]) -> bool {
    polynomial.is_empty() || MOST_COEFFICIENTS < polynomial.len()
}

fn room(call: &Call) -> Result<(), Refusal> {
    let buffers = &call.slices[call.name.results()];
    let rooms = call.rooms(call.size());
    let short = buffers.iter().zip(rooms).any(|(b, room)| b.len() < room);
    test(BUFFERS, short)
}

// What is answered.

/// The answer of a call that is not refused, and what is written to the front of each of its result buffers.
fn given(call: &Call) -> (Answer, Vec<Row>) {
    match call.name {
        Name::Inverse => inverse(call),
        Name::Order => order(call),
        Name::Image => image(call),
        Name::Stand => stand(call),
        Name::Chain => chain(call),
        Name::Period => period(call),
        Name::Sheet => sheet(call),
        Name::Write => write(call),
    }
}

/// The list with zeros after it.
fn padded(mut list: Row, length: usize) -> Row {
    assert!(list.len() <= length, "a result fits its place");
    list.resize(length, 0);
    list
}

fn inverse(call: &Call) -> (Answer, Vec<Row>) {
    let inverse = naive::inverse(call.p.into(), call.k.into());
    (Answer::Inverse(inverse), vec![])
}

fn order(call: &Call) -> (Answer, Vec<Row>) {
    let f = naive::order(call.p.into(), &call.matrix(), &call.list(1));
    let degree = f.len() - 1;
    (Answer::Degree(degree), vec![padded(f, call.size() + 1)])
}

fn image(call: &Call) -> (Answer, Vec<Row>) {
    let (v, f) = (call.list(1), call.list(2));
    let image = naive::image(call.p.into(), &v, &f, &call.matrix());
    (Answer::Written, vec![image])
}

fn stand(call: &Call) -> (Answer, Vec<Row>) {
    let found = naive::stand(call.p.into(), &call.matrix(), &call.rows(1), call.k.into());
    let answer = Answer::Stood {
        proved: found.proved,
        degree: found.polynomial.len() - 1,
        taken: found.taken,
        spent: found.spent,
        witness: found.witness,
    };
    let polynomial = padded(found.polynomial, call.size() + 1);
    (answer, vec![polynomial, found.image])
}

fn chain(call: &Call) -> (Answer, Vec<Row>) {
    let found = naive::chain(call.p.into(), &call.matrix(), &call.rows(1));
    let mut stages = vec![];
    for stage in &found.stages {
        let degree = stage.len() - 1;
        stages.push(degree as u64);
        stages.extend(&stage[..degree]);
    }
    let product = padded(found.product, call.size() + 1);
    let stages = padded(stages, 2 * call.size());
    (Answer::Stages(found.stages.len()), vec![product, stages])
}

fn period(call: &Call) -> (Answer, Vec<Row>) {
    let found = naive::period(call.p.into(), &call.matrix());
    (Answer::Period(found), vec![])
}

fn sheet(call: &Call) -> (Answer, Vec<Row>) {
    let text = sheet::printed_by_grammar(&call.slices[0]);
    (Answer::Length(text.len()), vec![wide(text.as_bytes())])
}

fn write(call: &Call) -> (Answer, Vec<Row>) {
    let file = call.case().bytes();
    (Answer::Length(file.len()), vec![wide(&file)])
}

#[cfg(test)]
mod tests {
    use super::*;
    use crate::grammar;
    use crate::numbers::Numbers;

    fn read(text: &str) -> Call {
        Call::of_line(&Line::parse(text))
    }

    fn answer(text: &str) -> Answer {
        outcome(&read(text)).answer
    }

    fn refused(text: &str) -> Option<Refusal> {
        refusal(&read(text))
    }

    fn alone(number: u8) -> Option<Refusal> {
        Some(Refusal::alone(number))
    }

    fn entry(number: u8, row: usize, column: usize) -> Option<Refusal> {
        Some(Refusal::of_entry(number, row, column))
    }

    #[test]
    fn a_call_is_the_same_when_it_was_a_line() {
        let lines = [
            "inverse 4294967295 | 4294967295",
            "order 3 | 2 | 0 1 2 0 | 1 0 | 7 7 7 7",
            "image 3 | 18446744073709551615 |  |  |  | ",
            "stand 3 | 2 | 0 1 2 0 | 1 0 | 8192 | 5*9 | 9 8 7",
            "chain 3 | 2 | 0 1 2 0 |  | 5*9 | 4*0 1 2 3 3 3 3*4",
            "period 2 | 64 | 4096*1",
            "sheet 255 70 3 | 2048*77 1",
            "write 3 | 2 | 0 1 2 0 | 1 0 | 16383 | 22*9 8 7",
        ];
        for (text, name) in lines.into_iter().zip(Name::ALL) {
            let call = read(text);
            assert_eq!(call.name, name);
            assert_eq!(read(&call.line()), call, "{text}");
        }
    }

    #[test]
    fn the_18_bytes_as_calls() {
        let stood = outcome(&read("stand 3 | 2 | 0 1 2 0 | 1 0 | 2 | 5*9 | 9 9"));
        let expected = Answer::Stood {
            proved: true,
            degree: 2,
            taken: 1,
            spent: 2,
            witness: 0,
        };
        assert_eq!(stood.answer, expected);
        assert_eq!(stood.slices[2..], [vec![1, 0, 1, 9, 9], vec![0, 0]]);
        assert_eq!(answer("period 3 | 2 | 0 1 2 0"), Answer::Period(Some(4)));
    }

    #[test]
    fn a_refused_call_writes_nothing() {
        let call = read("order 3 | 2 | 0 1 2 0 | 1 3 | 9 9 9");
        let expected = Outcome {
            answer: Answer::Refused(Refusal::of_entry(ROW_ENTRY, 1, 2)),
            slices: call.slices.clone(),
        };
        assert_eq!(outcome(&call), expected);
    }

    /// None is a result: what is refused is refused for 0 too, and 0 is not.
    #[test]
    fn the_inverse_of_zero_is_none() {
        for p in [2, 3, 251] {
            let of = |a: u64| answer(&format!("inverse {p} | {a}"));
            assert_eq!(of(0), Answer::Inverse(None));
            assert_eq!(of(1), Answer::Inverse(Some(1)));
            assert_eq!(of(p - 1), Answer::Inverse(Some(p - 1)));
            let refused = Answer::Refused(Refusal::of_entry(COEFFICIENT, 0, 1));
            assert_eq!(of(p), refused);
            assert_eq!(of(p + 1), refused);
        }
        assert_eq!(refused("inverse 4 | 0"), alone(PRIME));
    }

    /// The first, a middle and the last place of each thing that a call takes; row and column tell them apart.
    #[test]
    fn a_bad_entry_is_told_with_its_place() {
        let matrix = |m: &str| refused(&format!("period 5 | 3 | {m}"));
        assert_eq!(matrix("5 8*4"), entry(MATRIX_ENTRY, 1, 1));
        assert_eq!(matrix("5*4 5 3*4"), entry(MATRIX_ENTRY, 2, 3));
        assert_eq!(matrix("7*4 6 4"), entry(MATRIX_ENTRY, 3, 2));
        assert_eq!(matrix("8*4 255"), entry(MATRIX_ENTRY, 3, 3));

        let row = |v: &str| refused(&format!("order 5 | 3 | 9*4 | {v} | 4*9"));
        assert_eq!(row("5 4 4"), entry(ROW_ENTRY, 1, 1));
        assert_eq!(row("4 6 4"), entry(ROW_ENTRY, 1, 2));
        assert_eq!(row("4 4 255"), entry(ROW_ENTRY, 1, 3));

        let list = |cs: &str| refused(&format!("stand 5 | 3 | 9*4 | {cs} | 9 | 4*9 | 3*9"));
        assert_eq!(list("5 11*4"), entry(ROW_ENTRY, 1, 1));
        assert_eq!(list("5*4 5 6*4"), entry(ROW_ENTRY, 2, 3));
        assert_eq!(list("9*4 6 4 4"), entry(ROW_ENTRY, 4, 1));
        assert_eq!(list("11*4 255"), entry(ROW_ENTRY, 4, 3));

        let polynomial = |f: &str| refused(&format!("image 5 | 3 | 9*4 | 3*4 | {f} | 3*9"));
        assert_eq!(polynomial("5 7*4"), entry(COEFFICIENT, 0, 1));
        assert_eq!(polynomial("4*4 6 3*4"), entry(COEFFICIENT, 0, 5));
        assert_eq!(polynomial("7*4 255"), entry(COEFFICIENT, 0, 8));
    }

    #[test]
    fn the_last_places_of_all() {
        let of_64 = |slices: &str| refused(&format!("chain 2 | 64 | {slices} | 65*9 | 128*9"));
        assert_eq!(of_64("4095*0 2 | 64*0"), entry(MATRIX_ENTRY, 64, 64));
        assert_eq!(of_64("4096*0 | 8191*0 2"), entry(ROW_ENTRY, 128, 64));
        let of_1 = |slices: &str| refused(&format!("chain 2 | 1 | {slices} | 2*9 | 2*9"));
        assert_eq!(of_1("2 | 128*0"), entry(MATRIX_ENTRY, 1, 1));
        assert_eq!(of_1("0 | 127*0 2"), entry(ROW_ENTRY, 128, 1));
        let image = refused("image 2 | 1 | 0 | 0 | 64*0 2 | 9");
        assert_eq!(image, entry(COEFFICIENT, 0, 65));
    }

    #[test]
    fn of_two_bad_entries_the_first() {
        let matrix = |m: &str| refused(&format!("period 3 | 2 | {m}"));
        assert_eq!(matrix("0 3 3 0"), entry(MATRIX_ENTRY, 1, 2));
        assert_eq!(matrix("0 0 4 255"), entry(MATRIX_ENTRY, 2, 1));
        assert_eq!(matrix("4*3"), entry(MATRIX_ENTRY, 1, 1));
        let list = |cs: &str| refused(&format!("chain 3 | 2 | 4*0 | {cs} | 3*9 | 4*9"));
        assert_eq!(list("0 0 0 3 3 0"), entry(ROW_ENTRY, 2, 2));
        assert_eq!(list("6*3"), entry(ROW_ENTRY, 1, 1));
        let image = |lists: &str| refused(&format!("image 3 | 2 | {lists} | 9 9"));
        assert_eq!(image("4*0 | 3 3 | 1"), entry(ROW_ENTRY, 1, 1));
        assert_eq!(image("4*0 | 0 0 | 1 4 3"), entry(COEFFICIENT, 0, 2));
        assert_eq!(image("3*0 3 | 3 0 | 1"), entry(MATRIX_ENTRY, 2, 2));
        assert_eq!(image("3*0 3 | 0 0 | 3"), entry(MATRIX_ENTRY, 2, 2));
        assert_eq!(image("4*0 | 0 3 | 3"), entry(ROW_ENTRY, 1, 2));
        assert_eq!(image("0 3 0 0 | 3 3 | 3"), entry(MATRIX_ENTRY, 1, 2));
    }

    /// Each test with the next one, so that no two of them can change places.
    #[test]
    fn of_two_neighbouring_tests_the_first() {
        assert_eq!(refused("image 4 | 0 | | | 1 | "), alone(PRIME));
        assert_eq!(refused("image 3 | 65 | | 65*0 | 1 | 65*9"), alone(SIZE));
        assert_eq!(refused("image 3 | 2 | 0 | 0 | 1 | 9 9"), alone(MATRIX));
        assert_eq!(refused("image 3 | 2 | 4*0 | 0 | | 9 9"), alone(ROWS));
        assert_eq!(refused("order 3 | 2 | 3*0 3 | 0 | 3*9"), alone(ROWS));
        let image = |lists: &str| refused(&format!("image 3 | 2 | {lists}"));
        assert_eq!(image("3*0 3 | 0 0 | | 9 9"), alone(POLYNOMIAL));
        assert_eq!(image("3*0 3 | 0 3 | 1 | 9 9"), entry(MATRIX_ENTRY, 2, 2));
        assert_eq!(image("4*0 | 0 3 | 3 | 9 9"), entry(ROW_ENTRY, 1, 2));
        assert_eq!(image("4*0 | 0 0 | 3 | 9"), entry(COEFFICIENT, 0, 1));
        let order = |lists: &str| refused(&format!("order 3 | 2 | {lists} | 9"));
        assert_eq!(order("3*0 3 | 0 0"), entry(MATRIX_ENTRY, 2, 2));
        assert_eq!(order("4*0 | 0 3"), entry(ROW_ENTRY, 1, 2));
        assert_eq!(refused("period 3 | 2 | 3 3 3"), alone(MATRIX));
        assert_eq!(refused("inverse 4 | 4"), alone(PRIME));
    }

    /// n·n is not formed where n is no size.
    #[test]
    fn sizes_without_bound() {
        for n in [0, 65, 1 << 32, (1 << 32) + 2, u64::MAX] {
            let text = format!("period 3 | {n} | 0 1 2 0");
            assert_eq!(refused(&text), alone(SIZE));
        }
    }

    /// The case of 01's 18 bytes, in a buffer of just its length and in longer ones.
    #[test]
    fn the_18_bytes_are_written_with_their_allowance() {
        let case = [
            255, 70, 3, 2, 255, 65, 64, 0, 255, 82, 0, 1, 255, 82, 2, 0, 255, 67, 1, 0, 255, 69,
        ];
        for behind in [&[][..], &[9], &[7, 8, 9]] {
            let call = Call {
                name: Name::Write,
                p: 3,
                n: 2,
                k: 8_192,
                slices: vec![vec![0, 1, 2, 0], vec![1, 0], [&[5; 22], behind].concat()],
            };
            let written = outcome(&call);
            assert_eq!(written.answer, Answer::Length(22));
            assert_eq!(written.slices[2], [&case, behind].concat());
            assert_eq!(written.slices[..2], call.slices[..2]);
        }
    }

    /// The case in a buffer that has just enough bytes.
    fn written(p: u64, n: usize, matrix: &[u64], candidates: &[u64], allowance: u64) -> Vec<u8> {
        let mut call = Call {
            name: Name::Write,
            p: word(p),
            n: n as u64,
            k: word(allowance),
            slices: vec![narrow(matrix), narrow(candidates)],
        };
        let room = call.rooms(n)[0];
        call.slices.push(vec![0; room]);
        let mut outcome = outcome(&call);
        assert_eq!(outcome.answer, Answer::Length(room));
        outcome.slices.swap_remove(2)
    }

    /// Both readers get the values that were lent.
    #[test]
    fn what_is_written_is_read_back() {
        let mut numbers = Numbers(9);
        for allowance in [0, 1, 127, 128, 129, 8_191, 8_192, 16_255, 16_256, 16_383] {
            let (p, n) = (numbers.one_of(&[2, 3, 251]), 1 + numbers.place(4));
            let (m, cs) = (numbers.matrix(p, n), numbers.matrix(p, n));
            let cs = &cs[..numbers.place(n + 1)];
            let file = written(p, n, &m.concat(), &cs.concat(), allowance);
            let case = Case {
                p,
                matrix: m.clone(),
                candidates: cs.to_vec(),
                stated: Some(allowance),
            };
            assert_eq!(Case::read(&file), Ok(case));
            let values = grammar::Case {
                p,
                n: n as u64,
                allowance,
                matrix: m.concat(),
                candidates: cs.concat(),
            };
            assert_eq!(grammar::values(&wide(&file)), Some(values));
        }
    }

    /// Every sample that is a case: one with an `A` record is rewritten to itself; any other gets
    /// one, with the allowance that it has without.
    #[test]
    fn a_case_with_its_allowance_is_rewritten_to_itself() {
        let folder = concat!(env!("CARGO_MANIFEST_DIR"), "/../../cases");
        let (mut stating, mut others) = (0, 0);
        for entry in std::fs::read_dir(folder).expect("the samples are there") {
            let path = entry.expect("a sample").path();
            let file = std::fs::read(&path).expect("a file");
            let Some(case) = grammar::values(&wide(&file)) else {
                continue;
            };
            let (n, a) = (case.n as usize, case.allowance);
            let found = written(case.p, n, &case.matrix, &case.candidates, a);
            if file[5] == b'A' {
                assert_eq!(found, file, "{path:?}");
                stating += 1;
            } else {
                let rest = [&file[..4], &[255, b'A', 64, 0], &file[4..]].concat();
                assert_eq!(found, rest, "{path:?}");
                others += 1;
            }
        }
        assert!(stating != 0 && others != 0, "{stating}, {others}");
    }

    #[test]
    fn an_allowance_that_no_case_can_state() {
        let write = |k: u32| refused(&format!("write 2 | 1 | 0 | | {k} | 13*0"));
        assert_eq!(write(0), None);
        assert_eq!(write(16_383), None);
        for k in [16_384, 1 << 15, 1 << 16, 1 << 31, u32::MAX] {
            assert_eq!(write(k), alone(ALLOWANCE), "{k}");
            let stand = refused(&format!("stand 2 | 1 | 0 | | {k} | 2*0 | 0"));
            assert_eq!(stand, None, "{k}");
        }
    }

    /// Each test of the writer with the next one.
    #[test]
    fn of_two_neighbouring_tests_of_the_writer_the_first() {
        let write = |text: &str| refused(&format!("write {text}"));
        assert_eq!(write("4 | 0 | | | 9 | 10*0"), alone(PRIME));
        assert_eq!(write("3 | 65 | | | 9 | 4365*0"), alone(SIZE));
        assert_eq!(write("3 | 2 | 3*0 | 0 | 9 | 18*0"), alone(MATRIX));
        assert_eq!(write("3 | 2 | 3*0 3 | 0 | 9 | 18*0"), alone(ROWS));
        assert_eq!(write("3 | 2 | 4*0 | 258*0 | 9 | 534*0"), alone(ROWS));
        let bad = entry(MATRIX_ENTRY, 2, 2);
        assert_eq!(write("3 | 2 | 3*0 3 | 0 3 | 9 | 22*0"), bad);
        assert_eq!(write("3 | 2 | 3*0 3 | 0 0 | 16384 | 22*0"), bad);
        let bad = entry(ROW_ENTRY, 1, 2);
        assert_eq!(write("3 | 2 | 4*0 | 0 3 | 16384 | 22*0"), bad);
        assert_eq!(write("3 | 2 | 4*0 | 0 3 | 9 | 21*0"), bad);
        assert_eq!(write("3 | 2 | 4*0 | 0 0 | 16384 | 21*0"), alone(ALLOWANCE));
        assert_eq!(write("3 | 2 | 4*0 | 0 0 | 9 | 21*0"), alone(BUFFERS));
        assert_eq!(write("3 | 2 | 4*0 | 0 0 | 9 | 22*0"), None);
    }

    #[test]
    fn a_sheet_is_refused_for_its_buffer_alone() {
        assert_eq!(refused("sheet  | 2047*0"), alone(BUFFERS));
        assert_eq!(answer("sheet  | 2048*0"), Answer::Length(10));
    }
}
