//! Case files (01, "Case file, house layout"). The layout is written down once, as the bytes of a case. A file is well-formed when it is the bytes
//! of a case whose numbers are in their ranges, and bytes begin a well-formed case when they stand at the front of such a file; each of the few
//! shapes of a case is tried. Nothing here goes through a file record by record.
use crate::naive::{is_prime, Matrix, Row};

pub const DEFAULT_ALLOWANCE: u64 = 8_192;
pub const MOST_CANDIDATES: usize = 128;
/// The largest allowance that a case can state: both numbers of its `A` record are at most 127.
pub const MOST_STATED: u64 = 128 * 127 + 127;

#[derive(Debug, Clone, PartialEq, Eq)]
pub struct Case {
    pub p: u64,
    pub matrix: Matrix,
    pub candidates: Vec<Row>,
    /// What the `A` record says, where there is one.
    pub stated: Option<u64>,
}

impl Case {
    pub fn allowance(&self) -> u64 {
        self.stated.unwrap_or(DEFAULT_ALLOWANCE)
    }

    /// The same values with the allowance stated.
    pub fn stating(self) -> Case {
        Case {
            stated: Some(self.allowance()),
            ..self
        }
    }

    /// The records of the case file, in order.
    pub fn records(&self) -> Vec<Vec<u8>> {
        let mut records = vec![];
        let mut record = |letter: u8, numbers: &[u64]| {
            let mut bytes = vec![255, letter];
            bytes.extend(numbers.iter().map(|&x| x as u8));
            records.push(bytes);
        };
        record(b'F', &[self.p, self.matrix.len() as u64]);
        if let Some(allowance) = self.stated {
            record(b'A', &[allowance / 128, allowance % 128]);
        }
        for row in &self.matrix {
            record(b'R', row);
        }
        for row in &self.candidates {
            record(b'C', row);
        }
        record(b'E', &[]);
        records
    }

    /// The case file.
    pub fn bytes(&self) -> Vec<u8> {
        self.records().concat()
    }

    fn in_range(&self) -> bool {
        let n = self.matrix.len();
        let mut rows = self.matrix.iter().chain(&self.candidates);
        is_prime(self.p)
            && (1..=64).contains(&n)
            && self.candidates.len() <= MOST_CANDIDATES
            && self.stated.unwrap_or(0) <= MOST_STATED
            && rows.all(|row| row.len() == n && row.iter().all(|&x| x < self.p))
    }

    /// The case of a shape, with or without an `A` record and with so many candidates, that has the numbers of the front where its file would
    /// have them. Behind the front's end p is 2, n is 1 and all else is 0, which is in range wherever anything is.
    fn shaped(front: &[u8], stated: bool, count: usize) -> Option<Case> {
        let number = |place: usize, beyond: u64| front.get(place).map_or(beyond, |&x| x.into());
        let (p, n) = (number(2, 2), number(3, 1) as usize);
        let first = if stated { 8 } else { 4 };
        let entries = |k: usize| first + k * (n + 2) + 2;
        let row = |k: usize| (0..n).map(|j| number(entries(k) + j, 0)).collect();
        let case = Case {
            p,
            matrix: (0..n).map(row).collect(),
            candidates: (n..n + count).map(row).collect(),
            stated: stated.then(|| 128 * number(6, 0) + number(7, 0)),
        };
        case.in_range().then_some(case)
    }

    /// The cases that a file with this front can be, one for each shape.
    fn of_front(front: &[u8]) -> impl Iterator<Item = Case> + '_ {
        let shapes = [false, true]
            .into_iter()
            .flat_map(|stated| (0..=MOST_CANDIDATES).map(move |count| (stated, count)));
        shapes.filter_map(move |(stated, count)| Case::shaped(front, stated, count))
    }

    /// The case in a file, or the place where the file stops being a well-formed case.
    pub fn read(file: &[u8]) -> Result<Case, usize> {
        let found = Case::of_front(file).find(|case| case.bytes() == file);
        found.ok_or_else(|| place(file))
    }
}

/// The bytes of a case that states its allowance: those of `F`, `A` and `E`, and the mark and the
/// entries of each row and candidate.
pub fn stating_length(n: usize, candidates: usize) -> usize {
    4 + 4 + 2 + (n + candidates) * (2 + n)
}

/// Whether some continuation makes the front a well-formed case.
pub fn begins(front: &[u8]) -> bool {
    Case::of_front(front).any(|case| case.bytes().starts_with(front))
}

/// The first offset such that the bytes up to it and including it begin no well-formed case, or the length. What begins a case does so however
/// much is cut off, so the offset is found by halving.
pub fn place(file: &[u8]) -> usize {
    let lengths: Vec<usize> = (1..=file.len()).collect();
    lengths.partition_point(|&length| begins(&file[..length]))
}

#[cfg(test)]
mod tests {
    use super::*;

    const EIGHTEEN: [u8; 18] = [
        255, 70, 3, 2, 255, 82, 0, 1, 255, 82, 2, 0, 255, 67, 1, 0, 255, 69,
    ];

    #[test]
    fn eighteen_bytes() {
        let case = Case::read(&EIGHTEEN).expect("01 prints its sheet");
        assert_eq!(case.p, 3);
        assert_eq!(case.matrix, [[0, 1], [2, 0]]);
        assert_eq!(case.candidates, [[1, 0]]);
        assert_eq!(case.allowance(), 8_192);
    }

    #[test]
    fn longest_case() {
        let case = Case {
            p: 251,
            matrix: vec![vec![250; 64]; 64],
            candidates: vec![vec![250; 64]; 128],
            stated: Some(MOST_STATED),
        };
        let mut file = case.bytes();
        assert_eq!(file.len(), 12_682);
        assert_eq!(stating_length(64, 128), 12_682);
        assert_eq!(file[4..8], [255, b'A', 127, 127]);
        assert_eq!(Case::read(&file), Ok(case));
        file.push(255);
        assert_eq!(Case::read(&file), Err(12_682));
    }

    /// The places of faults that 01 names or that follow from it at once.
    #[test]
    fn places() {
        let refused = |file: &[u8], at: usize| assert_eq!(Case::read(file), Err(at), "{file:?}");
        refused(&[], 0);
        refused(&[254], 0);
        refused(&[255], 1);
        refused(&[255, 69], 1);
        refused(&[255, 70, 4], 2);
        refused(&[255, 70, 251], 3);
        refused(&[255, 70, 253, 1], 2);
        refused(&[255, 70, 2, 0], 3);
        refused(&[255, 70, 2, 65], 3);
        refused(&[255, 70, 2, 64, 255, 82, 2], 6);
        refused(&[255, 70, 2, 1, 255, 67], 5);
        refused(&[255, 70, 2, 1, 255, 65, 128], 6);
        refused(&[255, 70, 2, 1, 255, 65, 127, 128], 7);
        refused(&[255, 70, 2, 1, 255, 65, 0, 0, 255, 65], 9);
        refused(&[255, 70, 2, 1, 255, 82, 1, 255, 82], 8);
        refused(&[255, 70, 2, 1, 255, 82, 1, 255, 65], 8);
        refused(&[255, 70, 2, 1, 255, 82, 1, 255, 67, 1, 255, 82], 11);
        refused(&EIGHTEEN[..17], 17);
        refused(&[&EIGHTEEN[..], &[0]].concat(), 18);
    }

    #[test]
    fn one_candidate_too_many() {
        let mut file = vec![255, 70, 2, 1, 255, 82, 1];
        for _ in 0..129 {
            file.extend([255, 67, 0]);
        }
        file.extend([255, 69]);
        assert_eq!(Case::read(&file), Err(7 + 128 * 3 + 1));
    }

    /// Against the definition: all continuations of up to five bytes, over the bytes that matter, of fronts that so few can complete.
    #[test]
    fn begins_where_a_continuation_is_well_formed() {
        let letters = [0, 1, 2, 65, 67, 69, 82, 255];
        let well_formed = |file: &[u8]| {
            let shapes = [false, true].map(|stated| [0, 1, 2].map(|count| (stated, count)));
            let mut cases = shapes
                .as_flattened()
                .iter()
                .filter_map(|&(stated, count)| Case::shaped(file, stated, count));
            cases.any(|case| case.bytes() == file)
        };
        let continued = |front: &[u8]| {
            (0..=5).any(|length| {
                (0..letters.len().pow(length)).any(|mut code| {
                    let mut file = front.to_vec();
                    for _ in 0..length {
                        file.push(letters[code % letters.len()]);
                        code /= letters.len();
                    }
                    well_formed(&file)
                })
            })
        };
        let fronts: [&[u8]; 7] = [
            &[255],
            &[255, 82, 1],
            &[255, 82, 1, 255],
            &[255, 82, 0, 255, 67, 1],
            &[255, 82, 1, 255, 69],
            &[255, 65, 0, 1],
            &[255, 65, 0, 1, 255, 82],
        ];
        for rest in fronts {
            let mut front = [&[255, 70, 2, 1], rest].concat();
            let last = front.len() - 1;
            for letter in letters {
                front[last] = letter;
                assert_eq!(begins(&front), continued(&front), "{front:?}");
            }
        }
    }
}
