//! The case file (01, "Case file, house layout"), read by its grammar. A record is tried where the layout may have it; a try either succeeds, meets a
//! byte that does not fit, or runs out of bytes. Whatever runs out can be continued, since every number has a value that fits.
use crate::naive;

const MARK: u64 = 255;
const MOST_CANDIDATES: usize = 128;
const DEFAULT_ALLOWANCE: u64 = 8192;

/// A record with the numbers behind its mark, which are the bytes from `start` to `end`.
#[derive(Clone, Debug, PartialEq)]
pub struct Record {
    pub letter: u8,
    pub start: usize,
    pub numbers: Vec<u64>,
}

impl Record {
    pub fn end(&self) -> usize {
        self.start + self.numbers.len()
    }
}

#[derive(Debug, PartialEq)]
pub struct Case {
    pub p: u64,
    pub n: u64,
    pub allowance: u64,
    pub matrix: Vec<u64>,
    pub candidates: Vec<u64>,
}

/// Why a part of the grammar is not there.
#[derive(PartialEq)]
enum Stop {
    RanOut,
    Wrong,
}

/// The byte at an offset, if it fits.
fn byte(s: &[u64], at: usize, fits: impl Fn(u64) -> bool) -> Result<u64, Stop> {
    let &x = s.get(at).ok_or(Stop::RanOut)?;
    if fits(x) {
        Ok(x)
    } else {
        Err(Stop::Wrong)
    }
}

/// A record of some numbers, the i-th of which must fit.
fn record(
    s: &[u64],
    at: usize,
    letter: u8,
    count: usize,
    fits: impl Fn(usize, u64) -> bool,
) -> Result<Record, Stop> {
    byte(s, at, |x| x == MARK)?;
    byte(s, at + 1, |x| x == u64::from(letter))?;
    let start = at + 2;
    let numbers = (0..count).map(|i| byte(s, start + i, |x| fits(i, x)));
    Ok(Record {
        letter,
        start,
        numbers: numbers.collect::<Result<_, _>>()?,
    })
}

/// The whole records as far as the grammar goes, and whether it comes to its end.
struct Parse<'a> {
    s: &'a [u64],
    records: Vec<Record>,
}

impl Parse<'_> {
    fn at(&self) -> usize {
        self.records.last().map_or(0, Record::end)
    }

    fn one(
        &mut self,
        letter: u8,
        count: usize,
        fits: impl Fn(usize, u64) -> bool,
    ) -> Result<(), Stop> {
        let found = record(self.s, self.at(), letter, count, fits)?;
        self.records.push(found);
        Ok(())
    }

    /// As many as there are, up to a limit.
    fn up_to(
        &mut self,
        limit: usize,
        letter: u8,
        count: usize,
        fits: impl Fn(usize, u64) -> bool,
    ) -> Result<(), Stop> {
        if limit == 0 {
            return Ok(());
        }
        match self.one(letter, count, &fits) {
            Ok(()) => self.up_to(limit - 1, letter, count, fits),
            Err(Stop::Wrong) => Ok(()),
            Err(Stop::RanOut) => Err(Stop::RanOut),
        }
    }

    fn case(&mut self) -> Result<(), Stop> {
        self.one(b'F', 2, |i, x| match i {
            0 => naive::is_prime(x),
            _ => (1..=64).contains(&x),
        })?;
        let field = &self.records[0].numbers;
        let (p, n) = (field[0], field[1] as usize);
        self.up_to(1, b'A', 2, |_, x| x <= 127)?;
        for _ in 0..n {
            self.one(b'R', n, |_, x| x < p)?;
        }
        self.up_to(MOST_CANDIDATES, b'C', n, |_, x| x < p)?;
        self.one(b'E', 0, |_, _| true)?;
        if self.at() == self.s.len() {
            Ok(())
        } else {
            Err(Stop::Wrong)
        }
    }
}

fn parse(s: &[u64]) -> (Vec<Record>, Result<(), Stop>) {
    let mut parse = Parse { s, records: vec![] };
    let end = parse.case();
    (parse.records, end)
}

/// Whether some continuation makes the bytes a well-formed case.
pub fn begins(s: &[u64]) -> bool {
    parse(s).1 != Err(Stop::Wrong)
}

/// The first offset where the bytes up to it and including it begin no well-formed case; the length if all could still be continued. What begins
/// a case does so however much is cut off, so the offset is found by halving.
pub fn place(s: &[u64]) -> usize {
    let lengths: Vec<usize> = (1..=s.len()).collect();
    lengths.partition_point(|&length| begins(&s[..length]))
}

/// The records that lie wholly before the place.
pub fn records(s: &[u64]) -> Vec<Record> {
    parse(&s[..place(s)]).0
}

/// The values of a well-formed case.
pub fn values(s: &[u64]) -> Option<Case> {
    let (records, end) = parse(s);
    end.ok()?;
    let of = |letter: u8| records.iter().filter(move |r| r.letter == letter);
    let entries = |letter: u8| of(letter).flat_map(|r| r.numbers.clone()).collect();
    let field = &records[0].numbers;
    let allow = of(b'A').next();
    Some(Case {
        p: field[0],
        n: field[1],
        allowance: allow.map_or(DEFAULT_ALLOWANCE, |a| 128 * a.numbers[0] + a.numbers[1]),
        matrix: entries(b'R'),
        candidates: entries(b'C'),
    })
}

#[cfg(test)]
mod tests {
    use super::*;
    use crate::numbers::Numbers;

    const SAMPLE: [u64; 18] = [
        255, 70, 3, 2, 255, 82, 0, 1, 255, 82, 2, 0, 255, 67, 1, 0, 255, 69,
    ];

    fn longest() -> Vec<u64> {
        let mut s = vec![255, 70, 251, 64, 255, 65, 127, 127];
        for letter in [[82; 64].as_slice(), &[67; 128]].concat() {
            s.extend([255, letter]);
            s.extend([250; 64]);
        }
        s.extend([255, 69]);
        s
    }

    /// The module `case` finds the place in another way.
    #[test]
    fn two_ways_to_find_the_place_agree() {
        let allowed = [&SAMPLE[..4], &[255, 65, 1, 2], &SAMPLE[4..]].concat();
        let bytes = [0, 1, 2, 3, 65, 67, 69, 70, 82, 127, 128, 254, 255];
        let mut numbers = Numbers(7);
        for _ in 0..40 {
            let mut s = numbers.one_of(&[SAMPLE.as_slice(), &allowed]).to_vec();
            for _ in 0..=numbers.below(3) {
                let at = numbers.place(s.len());
                match numbers.below(3) {
                    0 => s[at] = numbers.one_of(&bytes),
                    1 => s.insert(at, numbers.one_of(&bytes)),
                    _ => drop(s.remove(at)),
                }
            }
            let narrow: Vec<u8> = s.iter().map(|&x| x as u8).collect();
            assert_eq!(crate::case::place(&narrow), place(&s), "{s:?}");
            assert_eq!(
                crate::case::Case::read(&narrow).is_ok(),
                values(&s).is_some(),
                "{s:?}"
            );
        }
    }

    /// A front that begins no case has no continuation that does: the place may be found by halving.
    #[test]
    fn halving_finds_the_first_place() {
        let bytes = [0, 1, 3, 65, 67, 69, 82, 255];
        let mut numbers = Numbers(8);
        for _ in 0..200 {
            let mut s = SAMPLE.to_vec();
            for _ in 0..3 {
                s[numbers.place(SAMPLE.len())] = numbers.one_of(&bytes);
            }
            let first = (0..s.len()).find(|&k| !begins(&s[..=k]));
            assert_eq!(place(&s), first.unwrap_or(s.len()), "{s:?}");
        }
    }

    #[test]
    fn an_empty_file_gives_0() {
        assert!(begins(&[]));
        assert_eq!(values(&[]), None);
        assert_eq!(place(&[]), 0);
    }

    #[test]
    fn the_18_bytes() {
        let expected = Case {
            p: 3,
            n: 2,
            allowance: 8192,
            matrix: vec![0, 1, 2, 0],
            candidates: vec![1, 0],
        };
        assert_eq!(values(&SAMPLE), Some(expected));
        assert_eq!(place(&SAMPLE), 18);
        let letters: Vec<u8> = records(&SAMPLE).iter().map(|r| r.letter).collect();
        assert_eq!(letters, b"FRRCE");
    }

    #[test]
    fn a_cut_case_can_be_continued() {
        for k in 0..18 {
            assert_eq!(place(&SAMPLE[..k]), k);
            assert_eq!(values(&SAMPLE[..k]), None);
        }
    }

    #[test]
    fn nothing_after_the_end() {
        let mut s = SAMPLE.to_vec();
        s.push(255);
        assert_eq!(values(&s), None);
        assert_eq!(place(&s), 18);
        assert_eq!(records(&s).len(), 5);
    }

    #[test]
    fn the_longest_case_has_12682_bytes() {
        let s = longest();
        assert_eq!(s.len(), 12_682);
        let case = values(&s).expect("it is well-formed");
        assert_eq!(case.allowance, 128 * 127 + 127);
        assert_eq!((case.matrix.len(), case.candidates.len()), (4096, 8192));
    }

    #[test]
    fn candidates_128_and_no_more() {
        let mut s = vec![255, 70, 2, 1, 255, 82, 1];
        for _ in 0..128 {
            s.extend([255, 67, 0]);
        }
        let body = s.len();
        s.extend([255, 69]);
        assert!(values(&s).is_some());
        s[body + 1] = 67;
        assert_eq!(place(&s), body + 1);
    }

    #[test]
    fn the_allowance_once_and_before_the_rows() {
        let once = [255, 70, 2, 1, 255, 65, 1, 2, 255, 82, 0, 255, 69];
        assert_eq!(values(&once).map(|c| c.allowance), Some(130));
        let twice = [255, 70, 2, 1, 255, 65, 1, 2, 255, 65, 1, 2];
        assert_eq!(place(&twice), 9);
        let late = [255, 70, 2, 1, 255, 82, 0, 255, 65, 1, 2];
        assert_eq!(place(&late), 8);
        let high = [255, 70, 2, 1, 255, 65, 128, 2];
        assert_eq!(place(&high), 6);
    }
}
