//! Test lines: a word, then decimal numbers in groups. The groups are separated by `|`, the first one follows the word, and `k*x` stands for k
//! numbers x. Comment lines, which begin with `#`, and empty ones are printed as they are.
use std::io::Read;

pub struct Line<'a> {
    pub word: &'a str,
    groups: Vec<Vec<u64>>,
}

impl<'a> Line<'a> {
    pub fn parse(text: &'a str) -> Self {
        let (word, rest) = text.split_once(' ').unwrap_or((text, ""));
        let groups = rest.split('|').map(numbers).collect();
        Line { word, groups }
    }

    pub fn group(&self, k: usize) -> &[u64] {
        self.groups.get(k).map_or(&[], Vec::as_slice)
    }

    /// A group's first number, or 0.
    pub fn number(&self, k: usize) -> u64 {
        self.group(k).first().copied().unwrap_or(0)
    }
}

/// The numbers of a group.
fn numbers(text: &str) -> Vec<u64> {
    let number = |s: &str| s.parse().unwrap_or_else(|_| panic!("{s} is no number"));
    let mut list = vec![];
    for token in text.split_whitespace() {
        match token.split_once('*') {
            Some((count, x)) => list.extend((0..number(count)).map(|_| number(x))),
            None => list.push(number(token)),
        }
    }
    list
}

pub fn list(numbers: &[u64]) -> String {
    let words: Vec<String> = numbers.iter().map(u64::to_string).collect();
    words.join(" ")
}

/// A run of so many equal bytes and more is written as one word.
const LONG_RUN: usize = 4;

/// The bytes as a group has them.
pub fn short_list(bytes: &[u8]) -> String {
    let runs = bytes.chunk_by(|a, b| a == b);
    let words: Vec<String> = runs.map(short_run).collect();
    words.join(" ")
}

/// Equal bytes.
fn short_run(run: &[u8]) -> String {
    if LONG_RUN <= run.len() {
        format!("{}*{}", run.len(), run[0])
    } else {
        vec![run[0].to_string(); run.len()].join(" ")
    }
}

/// Whether a line of a file says nothing: it is a comment or empty.
pub fn is_comment(text: &str) -> bool {
    text.is_empty() || text.starts_with('#')
}

/// Prints the word and the answer of each line of numbers on standard input.
pub fn answer_all(answer: impl Fn(&Line) -> String) {
    print_all(|text| {
        let line = Line::parse(text);
        format!("{} {}", line.word, answer(&line))
    });
}

/// Prints what each line on standard input is to print.
pub fn print_all(printed: impl Fn(&str) -> String) {
    let mut text = String::new();
    std::io::stdin()
        .read_to_string(&mut text)
        .expect("the lines are text");
    for text in text.lines() {
        if is_comment(text) {
            println!("{text}");
        } else {
            println!("{}", printed(text).trim_end());
        }
    }
}
