//! How many inputs there were: of each call, answered and refused by number. A sheet that says REFUSED is counted under 8, the number of a file
//! that is no case.
use crate::lend::Seen;
use independent::calls::{Name, TABLE};
use std::collections::BTreeMap;
use std::fmt;

/// What is counted under the number of a refusal; an answer is counted under 0.
const ANSWERED: u8 = 0;
const NO_CASE: u8 = 8;

#[derive(Default, Clone, PartialEq, Eq, Debug)]
pub struct Tally(BTreeMap<(Name, u8), u64>);

impl Tally {
    pub fn count(&mut self, name: Name, seen: &Seen) {
        let refusal = seen.numbers[0] as u8;
        let no_case = || name == Name::Sheet && seen.slices[1].starts_with(b"REFUSED");
        let sort = if refusal == ANSWERED && no_case() {
            NO_CASE
        } else {
            refusal
        };
        *self.0.entry((name, sort)).or_default() += 1;
    }

    pub fn add(&mut self, other: &Tally) {
        for (&key, count) in &other.0 {
            *self.0.entry(key).or_default() += count;
        }
    }

    fn sum(&self, of: impl Fn(Name, u8) -> bool) -> u64 {
        let kept = self.0.iter().filter(|((name, sort), _)| of(*name, *sort));
        kept.map(|(_, count)| count).sum()
    }

    pub fn inputs(&self) -> u64 {
        self.sum(|_, _| true)
    }

    pub fn answered(&self) -> u64 {
        self.sum(|_, sort| sort == ANSWERED)
    }
}

/// A row for each call and one for all, a column for each number.
impl fmt::Display for Tally {
    fn fmt(&self, f: &mut fmt::Formatter) -> fmt::Result {
        write!(f, "{:8}{:>10}{:>10}", "call", "inputs", "answered")?;
        for number in TABLE.into_iter().chain([NO_CASE]) {
            write!(f, "{number:>10}")?;
        }
        for name in Name::ALL {
            self.row(f, name.word(), |of| of == name)?;
        }
        self.row(f, "all", |_| true)
    }
}

impl Tally {
    fn row(&self, f: &mut fmt::Formatter, word: &str, kept: impl Fn(Name) -> bool) -> fmt::Result {
        let inputs = self.sum(|name, _| kept(name));
        write!(f, "\n{word:8}{inputs:>10}")?;
        for sort in [ANSWERED].into_iter().chain(TABLE).chain([NO_CASE]) {
            write!(f, "{:>10}", self.sum(|name, s| kept(name) && s == sort))?;
        }
        Ok(())
    }
}

#[cfg(test)]
mod tests {
    use super::*;
    use independent::calls::Call;
    use independent::lines::Line;

    #[test]
    fn what_is_counted() {
        let mut tally = Tally::default();
        let lines = [
            "inverse 4 | 3",
            "inverse 5 | 3",
            "inverse 5 | 5",
            "order 5 | 1 | 5 | 0 | 2*0",
            "order 5 | 1 | 0 | 5 | 2*0",
            "sheet | 2048*0",
            "write 5 | 1 | 0 | | 16384 | 13*0",
            "write 5 | 1 | 0 | | 16383 | 13*0",
        ];
        for text in lines {
            let call = Call::of_line(&Line::parse(text));
            tally.count(call.name, &Seen::expected(&call));
        }
        let mut twice = tally.clone();
        twice.add(&tally);
        assert_eq!((twice.inputs(), twice.answered()), (16, 4));
        assert_eq!(twice.sum(|_, sort| sort == NO_CASE), 2);
        let lines: Vec<String> = twice.to_string().lines().map(str::to_string).collect();
        assert_eq!(lines.len(), 2 + Name::ALL.len());
        let words = |k: usize| lines[k].split_whitespace().collect::<Vec<&str>>().join(" ");
        assert_eq!(words(0), "call inputs answered 1 2 3 4 7 5 10 11 9 6 8");
        assert_eq!(words(9), "all 16 4 2 0 0 0 0 2 2 2 2 0 2");
    }
}
