//! A design's text, as a spreadsheet saves it (#101, the program for designers): the case that it
//! says, or the first thing in it that is wrong.
//!
//! ```text
//! field,3,2         p and n
//! allowance,8192    at most once; without it, it is 8,192
//! row,0,1           n times, n entries each
//! candidate,1,0     0 to 128 times, n entries each
//! ```
//!
//! The text is cut into lines and these into cells; then line after line is taken where the layout
//! may have it. Empty cells at the end of a line are none, so that whatever is a cell has to fit.
use crate::calls::WIDEST;
use crate::case::{Case, MOST_CANDIDATES, MOST_STATED};
use crate::naive::{is_prime, Row, LARGEST_PRIME};
use std::fmt::{Display, Formatter};

/// A number that may stand in a cell.
#[derive(Debug, Clone, Copy, PartialEq, Eq)]
pub enum Number {
    Prime,
    Size,
    /// From 0 on.
    UpTo(u64),
}

impl Number {
    fn fits(self, x: u64) -> bool {
        match self {
            Number::Prime => is_prime(x),
            Number::Size => (1..=WIDEST).contains(&x),
            Number::UpTo(most) => x <= most,
        }
    }
}

impl Display for Number {
    fn fmt(&self, f: &mut Formatter) -> std::fmt::Result {
        match self {
            Number::Prime => write!(f, "a prime from 2 to {LARGEST_PRIME}"),
            Number::Size => write!(f, "a number from 1 to {WIDEST}"),
            Number::UpTo(most) => write!(f, "a number from 0 to {most}"),
        }
    }
}

/// What would go on to a right text.
#[derive(Debug, Clone, Copy, PartialEq, Eq)]
pub enum Expected {
    Field,
    AllowanceOrRow,
    Row,
    CandidateOrEnd,
    EndOfText,
    Number(Number),
    EndOfLine,
}

impl Display for Expected {
    fn fmt(&self, f: &mut Formatter) -> std::fmt::Result {
        f.write_str(match self {
            Expected::Field => "the word field",
            Expected::AllowanceOrRow => "the word allowance or the word row",
            Expected::Row => "the word row",
            Expected::CandidateOrEnd => "the word candidate or the end of the text",
            Expected::EndOfText => "the end of the text",
            Expected::Number(number) => return number.fmt(f),
            Expected::EndOfLine => "the end of the line",
        })
    }
}

/// The first thing that is wrong: where it is, both counted from 1, and what was expected there.
#[derive(Debug, Clone, Copy, PartialEq, Eq)]
pub struct Mistake {
    pub line: usize,
    pub cell: usize,
    pub expected: Expected,
}

impl Display for Mistake {
    fn fmt(&self, f: &mut Formatter) -> std::fmt::Result {
        let Mistake {
            line,
            cell,
            expected,
        } = self;
        write!(f, "line {line}, cell {cell}: expected {expected}")
    }
}

// A text is cut.

const BYTE_ORDER_MARK: &[u8] = &[0xEF, 0xBB, 0xBF];

/// A line that has cells.
struct Line<'a> {
    /// Counted from 1, with the lines that have none.
    number: usize,
    cells: Vec<&'a [u8]>,
}

fn cut(text: &[u8]) -> Vec<Line<'_>> {
    let text = text.strip_prefix(BYTE_ORDER_MARK).unwrap_or(text);
    let separator = separator(text);
    let lines = (1..).zip(text.split(|&x| x == b'\n'));
    lines
        .map(|(number, line)| Line {
            number,
            cells: cells(line, separator),
        })
        .filter(|line| !line.cells.is_empty())
        .collect()
}

/// The one that comes first; a comma where there is none.
fn separator(text: &[u8]) -> u8 {
    let first = text.iter().find(|x| b",;\t".contains(x));
    first.copied().unwrap_or(b',')
}

fn cells(line: &[u8], separator: u8) -> Vec<&[u8]> {
    let line = line.strip_suffix(b"\r").unwrap_or(line);
    let mut cells: Vec<&[u8]> = line.split(|&x| x == separator).collect();
    while cells.last().is_some_and(|cell| cell.is_empty()) {
        cells.pop();
    }
    cells
}

/// What the digits of a cell say. What 64 bits do not hold is the largest number that they do,
/// which is too large for any place.
fn number(cell: &[u8]) -> Option<u64> {
    let digits = !cell.is_empty() && cell.iter().all(u8::is_ascii_digit);
    let value = |x: u64, digit: &u8| x.saturating_mul(10).saturating_add((digit - b'0').into());
    digits.then(|| cell.iter().fold(0, value))
}

// A text is read.

impl Line<'_> {
    /// A cell, counted from 1.
    fn cell(&self, k: usize) -> Option<&[u8]> {
        self.cells.get(k - 1).copied()
    }

    fn begins_with(&self, word: &str) -> bool {
        self.cell(1) == Some(word.as_bytes())
    }

    fn mistake(&self, cell: usize, expected: Expected) -> Mistake {
        Mistake {
            line: self.number,
            cell,
            expected,
        }
    }

    /// The numbers behind the word: those that are asked for, and no cell more.
    fn numbers(&self, asked: &[Number]) -> Result<Row, Mistake> {
        let mut numbers = vec![];
        for (k, &asked) in (2..).zip(asked) {
            let found = self.cell(k).and_then(number).filter(|&x| asked.fits(x));
            numbers.push(found.ok_or(self.mistake(k, Expected::Number(asked)))?);
        }
        let behind = asked.len() + 2;
        match self.cell(behind) {
            Some(_) => Err(self.mistake(behind, Expected::EndOfLine)),
            None => Ok(numbers),
        }
    }
}

/// The lines that were not taken yet.
struct Rest<'a> {
    lines: &'a [Line<'a>],
    /// The line behind the text's last one that has cells; line 1 where there is none.
    end: usize,
}

impl Rest<'_> {
    /// The numbers of the next line, which is taken if it begins with the word.
    fn maybe(&mut self, word: &str, asked: &[Number]) -> Result<Option<Row>, Mistake> {
        match self.lines.split_first() {
            Some((line, rest)) if line.begins_with(word) => {
                self.lines = rest;
                line.numbers(asked).map(Some)
            }
            _ => Ok(None),
        }
    }

    /// The numbers of the next line, which has to begin with the word.
    fn one(&mut self, word: &str, asked: &[Number], expected: Expected) -> Result<Row, Mistake> {
        let numbers = self.maybe(word, asked)?;
        numbers.ok_or_else(|| self.mistake(expected))
    }

    /// The next line, or the end of the text, is not what was expected.
    fn mistake(&self, expected: Expected) -> Mistake {
        Mistake {
            line: self.lines.first().map_or(self.end, |line| line.number),
            cell: 1,
            expected,
        }
    }
}

/// The rows of M, where an allowance may stand in front of them if none has come.
fn rows(rest: &mut Rest, entries: &[Number], stated: bool) -> Result<Vec<Row>, Mistake> {
    let mut rows = vec![];
    for k in 0..entries.len() {
        let expected = if k == 0 && !stated {
            Expected::AllowanceOrRow
        } else {
            Expected::Row
        };
        rows.push(rest.one("row", entries, expected)?);
    }
    Ok(rows)
}

/// The candidates, and the end of the text behind them.
fn candidates(rest: &mut Rest, entries: &[Number]) -> Result<Vec<Row>, Mistake> {
    let mut rows = vec![];
    let mut expected = Expected::EndOfText;
    while rows.len() < MOST_CANDIDATES {
        let Some(row) = rest.maybe("candidate", entries)? else {
            expected = Expected::CandidateOrEnd;
            break;
        };
        rows.push(row);
    }
    match rest.lines {
        [] => Ok(rows),
        _ => Err(rest.mistake(expected)),
    }
}

/// The case that a text says, which states its allowance where the text does.
pub fn read(text: &[u8]) -> Result<Case, Mistake> {
    let lines = cut(text);
    let mut rest = Rest {
        lines: &lines,
        end: lines.last().map_or(1, |line| line.number + 1),
    };
    let field = rest.one("field", &[Number::Prime, Number::Size], Expected::Field)?;
    let (p, n) = (field[0], field[1] as usize);
    let allowance = rest.maybe("allowance", &[Number::UpTo(MOST_STATED)])?;
    let stated = allowance.map(|numbers| numbers[0]);
    let entries = vec![Number::UpTo(p - 1); n];
    Ok(Case {
        p,
        matrix: rows(&mut rest, &entries, stated.is_some())?,
        candidates: candidates(&mut rest, &entries)?,
        stated,
    })
}

#[cfg(test)]
mod tests {
    use super::*;
    use crate::grammar;
    use crate::numbers::Numbers;

    const EIGHTEEN: &str = "field,3,2\nrow,0,1\nrow,2,0\ncandidate,1,0\n";

    /// The case of 01's 18 bytes.
    fn eighteen() -> Case {
        Case {
            p: 3,
            matrix: vec![vec![0, 1], vec![2, 0]],
            candidates: vec![vec![1, 0]],
            stated: None,
        }
    }

    fn is_eighteen(text: &str) {
        assert_eq!(read(text.as_bytes()), Ok(eighteen()), "{text:?}");
    }

    /// The text is wrong, and this is what is told of it.
    fn told(text: impl AsRef<[u8]>, line: usize, cell: usize, expected: &str) {
        let text = text.as_ref();
        let mistake = read(text).expect_err("the text is wrong");
        let message = format!("line {line}, cell {cell}: expected {expected}");
        assert_eq!(mistake.to_string(), message, "{:?}", text.escape_ascii());
    }

    #[test]
    fn a_text_says_a_case() {
        is_eighteen(EIGHTEEN);
        let unpaid = EIGHTEEN.replacen('\n', "\nallowance,1\n", 1);
        let mut expected = eighteen();
        expected.stated = Some(1);
        assert_eq!(read(unpaid.as_bytes()), Ok(expected));
        let none = read(b"field,2,1\nrow,0").expect("no candidate is needed");
        assert_eq!((none.p, none.matrix), (2, vec![vec![0]]));
        assert_eq!((none.candidates.len(), none.stated), (0, None));
    }

    #[test]
    fn what_a_spreadsheet_may_change() {
        for separator in [",", ";", "\t"] {
            for ending in ["\n", "\r\n"] {
                for front in ["", "\u{feff}"] {
                    let text = EIGHTEEN.replace(',', separator).replace('\n', ending);
                    let text = format!("{front}{text}");
                    is_eighteen(&text);
                    is_eighteen(&text[..text.len() - 1]);
                    is_eighteen(text.trim_end());
                }
            }
        }
        is_eighteen(&EIGHTEEN.replace('\n', ",,\n"));
        is_eighteen(&EIGHTEEN.replace('\n', ",\r\n"));
        for blank in ["\n", "\r\n", ",\n", ",,,\r\n", "\n,\n\n"] {
            is_eighteen(&EIGHTEEN.replace('\n', &format!("\n{blank}")));
            is_eighteen(&format!("{blank}{EIGHTEEN}{blank}"));
        }
        let zeros = "0".repeat(300);
        is_eighteen(&EIGHTEEN.replace(',', &format!(",{zeros}")));
    }

    #[test]
    fn the_ends_of_the_ranges() {
        for p in 0..600 {
            let text = format!("field,{p},1\nrow,1");
            if is_prime(p) {
                assert_eq!(read(text.as_bytes()).map(|case| case.p), Ok(p));
            } else {
                told(text, 1, 2, "a prime from 2 to 251");
            }
        }
        for n in [1, 2, 63, 64] {
            let row = format!("row{}\n", ",1".repeat(n));
            let text = format!("field,2,{n}\n{}", row.repeat(n));
            let case = read(text.as_bytes()).expect("n is from 1 to 64");
            assert_eq!(case.matrix, vec![vec![1; n]; n]);
        }
        for k in [0, 1, 127, 128, 8_192, 16_383] {
            let case = read(format!("field,2,1\nallowance,{k}\nrow,1").as_bytes());
            assert_eq!(case.map(|case| case.stated), Ok(Some(k)));
        }
        let size = "a number from 1 to 64";
        for (n, k) in [(0, 16_384), (65, 65_536), (256, 1 << 32), (257, u64::MAX)] {
            told(format!("field,2,{n}\nrow,1"), 1, 3, size);
            let allowance = format!("field,2,1\nallowance,{k}\nrow,1");
            told(allowance, 2, 2, "a number from 0 to 16383");
        }
        told("field,251,1\nrow,251", 2, 2, "a number from 0 to 250");
        told("field,2,1\nrow,2", 2, 2, "a number from 0 to 1");
    }

    /// No number comes round to a small one, however long it is.
    #[test]
    fn numbers_of_any_length() {
        assert_eq!(number(b"18446744073709551614"), Some(u64::MAX - 1));
        let zeros = "0".repeat(300);
        let many = ["259", "65539", "4294967299", "18446744073709551619"];
        for large in many.into_iter().chain([&format!("3{zeros}")[..]]) {
            told(format!("field,{large},2"), 1, 2, "a prime from 2 to 251");
            told(format!("field,3,0{large}"), 1, 3, "a number from 1 to 64");
        }
    }

    #[test]
    fn no_numbers() {
        for cell in [
            "", "x", "-1", "+1", " 1", "1 ", "1.0", "1.", "\"1\"", "1e0", "0x1", "1/", "1:", "1;",
            "1\t", "1\r", "\r1", "1\0", "\u{661}", "1\u{a0}",
        ] {
            told(format!("field,{cell},1"), 1, 2, "a prime from 2 to 251");
            let row = format!("field,2,2\nrow,{cell},1");
            told(row, 2, 2, "a number from 0 to 1");
        }
    }

    #[test]
    fn no_words() {
        for word in [
            "Field", "FIELD", "fiel", "fields", " field", "field ", "'field'", "F", "end", "3",
            "row", ",field", ",,field", ";field", "\rfield", "\0field",
        ] {
            told(format!("{word},3,2\n"), 1, 1, "the word field");
        }
        told("\"field\",3,2\n", 1, 1, "the word field");
        told("\u{feff}\u{feff}field,3,2\n", 1, 1, "the word field");
        let due = "the word allowance or the word row";
        for word in ["Row", "rows", "field", "candidate", "end", "0", ",row"] {
            told(format!("field,3,2\n{word},0,1\n"), 2, 1, due);
        }
    }

    /// What is expected where the text ends, or another line stands, behind each line.
    #[test]
    fn the_lines_that_are_due() {
        let last = "the word candidate or the end of the text";
        for (front, line, expected) in [
            ("", 1, "the word field"),
            ("field,3,2\n", 2, "the word allowance or the word row"),
            ("field,3,2\nallowance,1\n", 3, "the word row"),
            ("field,3,2\nrow,0,1\n", 3, "the word row"),
            ("field,3,2\nallowance,1\nrow,0,1\n", 4, "the word row"),
        ] {
            told(front, line, 1, expected);
            told(format!("{front}\n,\n"), line, 1, expected);
            told(format!("{front}end"), line, 1, expected);
            told(format!("{front}\n,\nend"), line + 2, 1, expected);
            told(format!("{front}candidate,1,0"), line, 1, expected);
        }
        for word in ["row", "field", "allowance", "end"] {
            told(format!("field,3,2\nrow,0,1\nrow,2,0\n{word}"), 4, 1, last);
            told(format!("{EIGHTEEN}{word}"), 5, 1, last);
        }
        let two = "field,3,2\nallowance,1\nallowance,1\n";
        told(two, 3, 1, "the word row");
    }

    #[test]
    fn candidates_128_and_no_more() {
        let front = "field,2,1\nrow,1\n";
        let of = |count: usize| format!("{front}{}", "candidate,0\n".repeat(count));
        let case = read(of(128).as_bytes()).expect("128 may come");
        assert_eq!(case.candidates, vec![vec![0]; 128]);
        told(of(129), 131, 1, "the end of the text");
        told(of(128) + "row,1", 131, 1, "the end of the text");
        let last = "the word candidate or the end of the text";
        told(of(127) + "row,1", 130, 1, last);
        assert_eq!(read((of(128) + "\n,\n").as_bytes()), Ok(case));
    }

    #[test]
    fn too_few_cells_and_too_many() {
        let (end, entry) = ("the end of the line", "a number from 0 to 2");
        told("field", 1, 2, "a prime from 2 to 251");
        told("field,3", 1, 3, "a number from 1 to 64");
        told("field,3,,", 1, 3, "a number from 1 to 64");
        told("field,3,2,x", 1, 4, end);
        told("field,3,2,,,x", 1, 4, end);
        let due = "a number from 0 to 16383";
        told("field,3,2\nallowance\nrow,0,1", 2, 2, due);
        told("field,3,2\nallowance,1,0", 2, 3, end);
        for front in ["field,3,2\n", "field,3,2\nrow,0,1\n"] {
            let line = front.lines().count() + 1;
            told(format!("{front}row"), line, 2, entry);
            told(format!("{front}row,1"), line, 3, entry);
            told(format!("{front}row,,1"), line, 2, entry);
            told(format!("{front}row,1,0,1"), line, 4, end);
        }
        told(format!("{EIGHTEEN}candidate,1"), 5, 3, entry);
        told(format!("{EIGHTEEN}candidate,1,0,1"), 5, 4, end);
    }

    /// The first of the three bytes, however far behind, and no other is the separator.
    #[test]
    fn one_separator() {
        let blank = "\r\n".repeat(300);
        is_eighteen(&format!("{blank}{}", EIGHTEEN.replace(',', ";")));
        told("field,3;2", 1, 2, "a prime from 2 to 251");
        told("field;3,2", 1, 2, "a prime from 2 to 251");
        told("field\t3\t2,", 1, 3, "a number from 1 to 64");
        told("field\t3\t2;\n", 1, 3, "a number from 1 to 64");
        told(",\nfield;3;2", 2, 1, "the word field");
        let due = "the word allowance or the word row";
        told("field,3,2\n;\nrow,0,1", 2, 1, due);
        told("field 3 2", 1, 1, "the word field");
    }

    /// One return is the line's end, another one stands in a cell.
    #[test]
    fn returns() {
        told("field,3,2\r\r\n", 1, 3, "a number from 1 to 64");
        told("field,3,2,\r\r\n", 1, 4, "the end of the line");
        told("field,3,2\rrow,0,1\r", 1, 3, "a number from 1 to 64");
        told("\r\r\n", 1, 1, "the word field");
    }

    /// Each sample that is a case has a text beside it that says the same, its allowance only where
    /// the case states it; no other sample has one.
    #[test]
    fn sample_texts() {
        let folder = concat!(env!("CARGO_MANIFEST_DIR"), "/../../cases");
        let mut count = 0;
        for entry in std::fs::read_dir(folder).expect("the samples are there") {
            let path = entry.expect("a sample").path();
            if path.extension().is_some_and(|e| e == "case") {
                let file = std::fs::read(&path).expect("a case");
                let text = std::fs::read(path.with_extension("csv")).ok();
                let wide: Row = file.iter().map(|&x| x.into()).collect();
                let expected = grammar::values(&wide).map(|_| Ok(file));
                let found = text.map(|text| read(&text).map(|case| case.bytes()));
                assert_eq!(found, expected, "{path:?}");
                count += usize::from(found.is_some());
            }
        }
        assert_ne!(count, 0);
    }

    /// Every right text of up to two candidates whose numbers are 0, 1, 67 and 17,000: cells, and
    /// `/` for the end of a line. p is 67 and n is 1, since no other of these fits there.
    fn right_texts() -> Vec<Vec<&'static str>> {
        let mut texts = vec![];
        for allowance in ["", "allowance 0 /", "allowance 1 /", "allowance 67 /"] {
            for row in ["row 0 /", "row 1 /"] {
                for first in ["", "candidate 0 /", "candidate 1 /"] {
                    for second in ["", "candidate 0 /", "candidate 1 /"] {
                        let lines = ["field 67 1 /", allowance, row, first, second];
                        texts.push(lines.into_iter().flat_map(str::split_whitespace).collect());
                    }
                }
            }
        }
        texts
    }

    /// A right text of at most one candidate with up to two changes.
    fn changed(numbers: &mut Numbers) -> Vec<&'static str> {
        let fronts = ["field 67 1 / row 1", "field 67 1 / allowance 0 / row 1"];
        let text = [
            numbers.one_of(&fronts),
            numbers.one_of(&["", "/ candidate 0"]),
        ];
        let mut cells: Vec<&str> = text.into_iter().flat_map(str::split_whitespace).collect();
        let words = "field allowance row candidate end 0 1 67 17000 /";
        let words: Vec<&str> = words.split(' ').collect();
        for _ in 0..numbers.below(3) {
            let at = numbers.place(cells.len());
            match numbers.below(3) {
                0 => cells[at] = numbers.one_of(&words),
                1 => cells.insert(at, numbers.one_of(&words)),
                _ => drop(cells.remove(at)),
            }
        }
        cells
    }

    /// The line and the cell of the first cell, end of a line or end of the text such that what is
    /// read up to there and with it begins no right text.
    fn first_place(right: &[Vec<&str>], cells: &[&str]) -> Option<(usize, usize)> {
        if right.iter().any(|text| text == cells) {
            return None;
        }
        let begins = |k: &usize| right.iter().any(|text| text.starts_with(&cells[..*k]));
        let read = (1..=cells.len()).take_while(begins).count();
        let lines: Vec<&[&str]> = cells[..read].split(|&cell| cell == "/").collect();
        Some((lines.len(), lines[lines.len() - 1].len() + 1))
    }

    #[test]
    fn the_first_place_that_cannot_be_continued() {
        let right = right_texts();
        let mut numbers = Numbers(5);
        let (mut fine, mut wrong) = (0, 0);
        for _ in 0..5_000 {
            let mut cells = changed(&mut numbers);
            cells.push("/");
            // No line without cells, which would be passed over.
            cells.dedup_by(|a, b| *a == "/" && *b == "/");
            if cells[0] == "/" {
                continue;
            }
            let text: String = cells.iter().map(|cell| format!("{cell},")).collect();
            let found = read(text.replace("/,", "\n").as_bytes());
            let place = found.err().map(|mistake| (mistake.line, mistake.cell));
            assert_eq!(place, first_place(&right, &cells), "{text}");
            match place {
                Some(_) => wrong += 1,
                None => fine += 1,
            }
        }
        assert!(1_000 < fine && 1_000 < wrong, "{fine}, {wrong}");
    }
}
