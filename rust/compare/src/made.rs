//! Cases that look random and are the same in every run: machines of many kinds, with candidates and allowances of many kinds, and files with faults.
use independent::case::{Case, MOST_CANDIDATES, MOST_STATED};
use independent::naive::{
    companion, identity, is_prime, times_matrix, unit_row, Matrix, Row, LARGEST_PRIME,
};
use independent::numbers::Numbers;

/// Every modulus that a call takes.
pub fn primes() -> Vec<u64> {
    (2..=LARGEST_PRIME).filter(|&p| is_prime(p)).collect()
}

fn zeros(n: usize) -> Matrix {
    vec![vec![0; n]; n]
}

fn dense(numbers: &mut Numbers, p: u64, n: usize) -> Matrix {
    numbers.matrix(p, n)
}

fn sparse(numbers: &mut Numbers, p: u64, n: usize) -> Matrix {
    let mut m = zeros(n);
    for _ in 0..2 * n {
        m[numbers.place(n)][numbers.place(n)] = numbers.below(p);
    }
    m
}

fn zero(_: &mut Numbers, _: u64, n: usize) -> Matrix {
    zeros(n)
}

fn one(_: &mut Numbers, _: u64, n: usize) -> Matrix {
    identity(n)
}

fn scalar(numbers: &mut Numbers, p: u64, n: usize) -> Matrix {
    let k = numbers.below(p);
    (0..n)
        .map(|i| unit_row(n, i).iter().map(|x| k * x).collect())
        .collect()
}

fn diagonal(numbers: &mut Numbers, p: u64, n: usize) -> Matrix {
    let few = 1 + numbers.below(p.min(4));
    let mut m = zeros(n);
    for (i, row) in m.iter_mut().enumerate() {
        row[i] = numbers.below(few);
    }
    m
}

/// Nonzero above the diagonal alone.
fn nilpotent(numbers: &mut Numbers, p: u64, n: usize) -> Matrix {
    let mut m = zeros(n);
    for (i, row) in m.iter_mut().enumerate() {
        for x in &mut row[i + 1..] {
            *x = numbers.below(p);
        }
    }
    m
}

/// Ones on the diagonal, numbers above it: a power of p is the period.
fn unipotent(numbers: &mut Numbers, p: u64, n: usize) -> Matrix {
    let mut m = nilpotent(numbers, p, n);
    for (i, row) in m.iter_mut().enumerate() {
        row[i] = 1;
    }
    m
}

fn for_rows(numbers: &mut Numbers, p: u64, n: usize) -> Matrix {
    companion(&numbers.row(p, n))
}

/// A companion turned over: what it would be if columns were the states.
fn for_columns(numbers: &mut Numbers, p: u64, n: usize) -> Matrix {
    let m = for_rows(numbers, p, n);
    (0..n)
        .map(|i| m.iter().map(|row| row[i]).collect())
        .collect()
}

/// Two small companions, or the zero or identity matrix among them, each put on the diagonal again and again.
fn blocks(numbers: &mut Numbers, p: u64, n: usize) -> Matrix {
    let mut choices = vec![];
    for _ in 0..2 {
        let size = 1 + numbers.place(n.min(4));
        choices.push(match numbers.below(6) {
            0 => zeros(size),
            1 => identity(size),
            _ => for_rows(numbers, p, size),
        });
    }
    let mut m = zeros(n);
    let mut at = 0;
    while at < n {
        let block = &choices[numbers.place(2)];
        let size = block.len().min(n - at);
        for (i, row) in block[..size].iter().enumerate() {
            m[at + i][at..at + size].copy_from_slice(&row[..size]);
        }
        at += size;
    }
    m
}

fn permutation(numbers: &mut Numbers, _: u64, n: usize) -> Matrix {
    let mut m = identity(n);
    for i in 1..n {
        m.swap(i, numbers.place(i + 1));
    }
    m
}

/// A dense matrix whose last row depends on the others.
fn singular(numbers: &mut Numbers, p: u64, n: usize) -> Matrix {
    let mut m = numbers.matrix(p, n);
    m[n - 1] = vec![0; n];
    let coefficients = numbers.row(p, n);
    m[n - 1] = times_matrix(p, &coefficients, &m);
    m
}

type Kind = fn(&mut Numbers, u64, usize) -> Matrix;

const KINDS: [(&str, Kind); 14] = [
    ("dense", dense),
    ("sparse", sparse),
    ("zero", zero),
    ("identity", one),
    ("scalar", scalar),
    ("diagonal", diagonal),
    ("nilpotent", nilpotent),
    ("unipotent", unipotent),
    ("companion", for_rows),
    ("companion for columns", for_columns),
    ("repeated blocks", blocks),
    ("permutation", permutation),
    ("singular", singular),
    ("dense", dense),
];

/// The same machine seen in another basis: k times row j is added to row i, and k times column i taken from column j, some times over.
fn conjugate(numbers: &mut Numbers, p: u64, m: &mut Matrix) {
    let n = m.len();
    for _ in 0..2 * n {
        let (i, j, k) = (numbers.place(n), numbers.place(n), numbers.below(p));
        if i == j {
            continue;
        }
        let added = m[j].clone();
        for (x, y) in m[i].iter_mut().zip(added) {
            *x = (*x + k * y) % p;
        }
        for row in m.iter_mut() {
            row[j] = (row[j] + (p - k) * row[i]) % p;
        }
    }
}

pub fn candidates(numbers: &mut Numbers, p: u64, m: &Matrix) -> Vec<Row> {
    let n = m.len();
    let most = if n <= 6 && numbers.once_in(20) {
        MOST_CANDIDATES
    } else {
        6
    };
    let count = numbers.place(most + 1);
    let kind = numbers.below(8);
    let mut rows: Vec<Row> = vec![];
    for k in 0..count {
        let choice = if kind < 5 { kind } else { numbers.below(5) };
        let row = match choice {
            0 => vec![0; n],
            1 => unit_row(n, numbers.place(n)),
            2 if 0 < k => rows[numbers.place(k)].clone(),
            3 if 0 < k => times_matrix(p, &rows[k - 1], m),
            _ => numbers.row(p, n),
        };
        rows.push(row);
    }
    rows
}

/// The allowance that a case states, where it states one.
pub fn stated(numbers: &mut Numbers, n: usize) -> Option<u64> {
    match numbers.below(8) {
        0 => Some(0),
        1..=3 => Some(numbers.below(3 * n as u64 + 1)),
        4 => Some(MOST_STATED),
        5 => Some(numbers.below(MOST_STATED + 1)),
        _ => None,
    }
}

/// A machine, and the name of its kind.
pub fn machine(numbers: &mut Numbers, p: u64, n: usize) -> (Matrix, &'static str) {
    let (name, kind) = numbers.one_of(&KINDS);
    let mut matrix = kind(numbers, p, n);
    if numbers.once_in(2) {
        conjugate(numbers, p, &mut matrix);
    }
    (matrix, name)
}

/// A case of some size, and the name of its machine's kind.
pub fn case(numbers: &mut Numbers, primes: &[u64]) -> (Case, &'static str) {
    let p = match numbers.below(4) {
        0 => 2,
        1 => numbers.one_of(&[3, 5, 7]),
        _ => numbers.one_of(primes),
    };
    let n = match numbers.below(200) {
        0 => 64,
        1 => 31 + numbers.place(33),
        2..=6 => 13 + numbers.place(18),
        _ => 1 + numbers.place(12),
    };
    case_of(numbers, p, n)
}

/// A case of n rows modulo p, and the name of its machine's kind.
pub fn case_of(numbers: &mut Numbers, p: u64, n: usize) -> (Case, &'static str) {
    let (matrix, name) = machine(numbers, p, n);
    let case = Case {
        p,
        candidates: candidates(numbers, p, &matrix),
        stated: stated(numbers, n),
        matrix,
    };
    (case, name)
}

/// The first byte of every record.
pub const MARK: u8 = 255;

/// Bytes that mean something somewhere in a case.
const TELLING: [u8; 12] = [0, 1, 2, 4, 65, 67, 69, 70, 82, 127, 128, 255];

/// A place; every other time one of the first few, which say what the rest of a file must be.
fn among(numbers: &mut Numbers, length: usize, few: usize) -> usize {
    if numbers.once_in(2) {
        numbers.place(length)
    } else {
        numbers.place(length.min(few))
    }
}

/// A fault in the sequence of records: one written twice, left out or swapped with another, or one put in: an allowance, a row or a candidate of
/// zeros, an end; or so many candidates that there are 128, 129 or 130; or a number at the end of its range or just behind it. There is a record.
pub fn shuffle(numbers: &mut Numbers, mut records: Vec<Vec<u8>>, p: u8, n: usize) -> Vec<u8> {
    let at = among(numbers, records.len(), 3);
    let zeros = vec![0; n];
    let (row, candidate) = (
        [&[MARK, b'R'], &zeros[..]].concat(),
        [&[MARK, b'C'], &zeros[..]].concat(),
    );
    match numbers.below(12) {
        0 => records.insert(at, records[at].clone()),
        1 => {
            records.remove(at);
        }
        2 => {
            let other = numbers.place(records.len());
            records.swap(at, other);
        }
        3 => records.insert(at, vec![MARK, b'A', 0, 9]),
        4 => records.insert(at, row),
        5 => records.insert(at, candidate),
        6 => records.insert(at, vec![MARK, b'E']),
        7 => {
            let end = records.len() - 1;
            let there = records.iter().filter(|r| r.get(1) == Some(&b'C')).count();
            let count = MOST_CANDIDATES.saturating_sub(there) + numbers.place(3);
            records.splice(end..end, vec![candidate; count]);
        }
        _ if records[at].len() <= 2 => {}
        _ => {
            let place = 2 + numbers.place(records[at].len() - 2);
            records[at][place] = match (records[at][1], place) {
                (b'F', 2) => numbers.one_of(&[0, 1, 4, 251, 253, 255]),
                (b'F', _) => numbers.one_of(&[0, 65]),
                (b'A', _) => numbers.one_of(&[127, 128]),
                _ => p.wrapping_sub(1).wrapping_add(numbers.place(2) as u8),
            };
        }
    }
    records.concat()
}

/// A fault in the bytes: some cut off, changed, appended, put in, taken out or written twice.
pub fn smudge(numbers: &mut Numbers, file: &mut Vec<u8>) {
    let byte = match numbers.below(2) {
        0 => numbers.one_of(&TELLING),
        _ => numbers.below(256) as u8,
    };
    if file.is_empty() {
        file.push(byte);
        return;
    }
    let at = among(numbers, file.len(), 20);
    match numbers.below(8) {
        0 => file.truncate(at),
        1 => file.push(byte),
        2 => file.insert(at, byte),
        3 => {
            file.remove(at);
        }
        4 => {
            let to = (at + 1 + numbers.place(12)).min(file.len());
            let stretch = file[at..to].to_vec();
            file.splice(at..at, stretch);
        }
        5 => file[at] = file[at].wrapping_add(1),
        _ => file[at] = byte,
    }
}

/// The file with a fault in its records, in its bytes or both.
pub fn damaged(numbers: &mut Numbers, case: &Case) -> Vec<u8> {
    let faults = numbers.one_of(&[
        (true, 0),
        (true, 0),
        (true, 1),
        (false, 1),
        (false, 1),
        (false, 2),
    ]);
    let mut file = if faults.0 {
        shuffle(numbers, case.records(), case.p as u8, case.matrix.len())
    } else {
        case.bytes()
    };
    for _ in 0..faults.1 {
        smudge(numbers, &mut file);
    }
    file
}
#[cfg(test)]
mod tests {
    use super::*;
    use independent::sheet::{printed, printed_by_grammar};

    /// The two readers of the independent implementation, on sound files and on damaged ones.
    #[test]
    fn shapes_and_grammar_print_the_same() {
        let mut numbers = Numbers(1);
        for _ in 0..150 {
            let (case, _) = case_of(&mut numbers, 2, 3);
            let files = [case.bytes(), damaged(&mut numbers, &case)];
            for file in files {
                assert_eq!(printed_by_grammar(&file), printed(&file), "{file:?}");
            }
        }
    }
}
