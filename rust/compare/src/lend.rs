//! The built library, asked through the program `lend` (`c/lend.c`), which makes the calls that it reads, with every lent slice against a page that
//! may not be touched. All numbers are little-endian. A batch is a count of four bytes and so many requests; a request is
//!
//! ```text
//! call, sides            a byte each; bit k of the sides: slice k ends at the page behind it, else it begins at the page in front
//! p, n, k                4, 8 and 4 bytes
//! length, bytes          of each slice, the length in 4 bytes
//! ```
//!
//! and the response to it eight numbers of 8 bytes, the refusal's number, row and column and the other fields of the answer, and every slice as it
//! is after the call.
use crate::program::Program;
use independent::calls::{outcome, Answer, Call, Refusal};
use independent::lines::{list, short_list};
use std::fmt;
use std::io::{BufReader, Read, Write};
use std::process::{Child, ChildStdin, ChildStdout, Stdio};

/// The longest slice that can be lent.
pub const LONGEST: usize = 1 << 16;

/// A call and the sides on which its slices lie.
#[derive(Debug, Clone, PartialEq, Eq)]
pub struct Input {
    pub call: Call,
    pub sides: u8,
}

impl Input {
    /// The call with its slices on every choice of sides.
    pub fn on_all_sides(call: &Call) -> Vec<Input> {
        let choices = 0..=all_behind(call);
        choices.map(|sides| Input::new(call, sides)).collect()
    }

    /// The call with all slices at the pages in front of them, and with all at those behind.
    pub fn on_both_sides(call: &Call) -> [Input; 2] {
        [0, all_behind(call)].map(|sides| Input::new(call, sides))
    }

    fn new(call: &Call, sides: u8) -> Input {
        Input {
            call: call.clone(),
            sides,
        }
    }

    fn request(&self) -> Vec<u8> {
        let call = &self.call;
        let mut bytes = vec![call.name as u8, self.sides];
        bytes.extend(call.p.to_le_bytes());
        bytes.extend(call.n.to_le_bytes());
        bytes.extend(call.k.to_le_bytes());
        for slice in &call.slices {
            assert!(slice.len() <= LONGEST, "a slice is too long to be lent");
            bytes.extend((slice.len() as u32).to_le_bytes());
            bytes.extend(slice);
        }
        bytes
    }
}

fn all_behind(call: &Call) -> u8 {
    (1 << call.name.slices()) - 1
}

fn batch(inputs: &[Input]) -> Vec<u8> {
    let mut bytes = (inputs.len() as u32).to_le_bytes().to_vec();
    for input in inputs {
        bytes.extend(input.request());
    }
    bytes
}

/// The fields of the refusal and the other fields of an answer, with zeros behind them.
const NUMBERS: usize = 8;

/// The refusal's number, row and column.
const REFUSAL: usize = 3;

/// What an inverse's field has where there is none, `KINARSOP_NO_INVERSE` in include/kinarsop.h: above every modulus, so that every call refuses it
/// as an entry, a coefficient or a scalar.
pub const NO_INVERSE: u8 = 255;

/// What is seen of a call from outside.
#[derive(Debug, Clone, PartialEq, Eq)]
pub struct Seen {
    pub numbers: [u64; NUMBERS],
    pub slices: Vec<Vec<u8>>,
}

impl Seen {
    /// What is to be seen, by the independent implementation.
    pub fn expected(call: &Call) -> Seen {
        let outcome = outcome(call);
        Seen {
            numbers: numbers(&outcome.answer),
            slices: outcome.slices,
        }
    }

    fn read(from: &mut impl Read, call: &Call) -> std::io::Result<Seen> {
        let mut numbers = [0; NUMBERS];
        for x in &mut numbers {
            let mut bytes = [0; 8];
            from.read_exact(&mut bytes)?;
            *x = u64::from_le_bytes(bytes);
        }
        let mut slices = call.slices.clone();
        for slice in &mut slices {
            from.read_exact(slice)?;
        }
        Ok(Seen { numbers, slices })
    }
}

impl fmt::Display for Seen {
    fn fmt(&self, f: &mut fmt::Formatter) -> fmt::Result {
        f.write_str(&list(&self.numbers))?;
        for slice in &self.slices {
            write!(f, " | {}", short_list(slice))?;
        }
        Ok(())
    }
}

/// An answer in the sequence of the C struct's fields.
fn numbers(answer: &Answer) -> [u64; NUMBERS] {
    match *answer {
        Answer::Refused(refusal) => refused(refusal),
        Answer::Inverse(found) => answered(&[found.unwrap_or(NO_INVERSE.into())]),
        Answer::Degree(degree) => answered(&[degree as u64]),
        Answer::Written => answered(&[]),
        Answer::Stood {
            proved,
            degree,
            taken,
            spent,
            witness,
        } => answered(&[
            proved.into(),
            degree as u64,
            taken as u64,
            spent,
            witness as u64,
        ]),
        Answer::Stages(count) => answered(&[count as u64]),
        Answer::Period(found) => answered(&[found.unwrap_or(0)]),
        Answer::Length(length) => answered(&[length as u64]),
    }
}

/// All but the refusal is 0, and where it has no place, that too.
fn refused(refusal: Refusal) -> [u64; NUMBERS] {
    let mut numbers = [0; NUMBERS];
    numbers[0] = refusal.number.into();
    if let Some(place) = refusal.place {
        numbers[1..REFUSAL].copy_from_slice(&[place.row as u64, place.column as u64]);
    }
    numbers
}

/// All of the refusal is 0.
fn answered(fields: &[u64]) -> [u64; NUMBERS] {
    let mut numbers = [0; NUMBERS];
    numbers[REFUSAL..][..fields.len()].copy_from_slice(fields);
    numbers
}

/// The running program.
pub struct Lender<'a> {
    program: &'a Program,
    child: Child,
    requests: Option<ChildStdin>,
    responses: BufReader<ChildStdout>,
}

/// The first input of a batch at which the library does not what it is to do.
#[derive(Debug)]
pub struct Difference {
    pub place: usize,
    /// What was seen, or how the program ended.
    pub found: Result<Seen, String>,
}

impl<'a> Lender<'a> {
    pub fn start(program: &'a Program) -> Result<Self, String> {
        let mut child = program.spawn(Stdio::piped())?;
        let responses = child.stdout.take().expect("the output is a pipe");
        Ok(Lender {
            program,
            requests: child.stdin.take(),
            responses: BufReader::new(responses),
            child,
        })
    }

    /// What the program answers to a batch; where it ends before, what it answered until then. The requests are written by a thread of their own,
    /// so that a full pipe of responses does not keep the program from reading.
    fn ask(&mut self, inputs: &[Input]) -> Vec<Seen> {
        let bytes = batch(inputs);
        let requests = self.requests.as_mut().expect("the input is open");
        let responses = &mut self.responses;
        std::thread::scope(|scope| {
            scope.spawn(move || requests.write_all(&bytes).and_then(|()| requests.flush()));
            let seen = inputs.iter().map(|x| Seen::read(responses, &x.call));
            seen.map_while(Result::ok).collect()
        })
    }

    /// The first difference of a batch from what is expected of it.
    pub fn difference(&mut self, inputs: &[Input], expected: &[Seen]) -> Option<Difference> {
        let mut seen = self.ask(inputs);
        let place = (0..seen.len()).find(|&k| seen[k] != expected[k]);
        if let Some(place) = place {
            let found = Ok(seen.swap_remove(place));
            return Some(Difference { place, found });
        }
        if seen.len() == inputs.len() {
            return None;
        }
        let ended = self.end();
        let alone = self.one_by_one(inputs, expected);
        Some(alone.unwrap_or(Difference {
            place: seen.len(),
            found: Err(ended),
        }))
    }

    /// The same where a batch was not answered to its end: each input is a batch of its own, of a new program.
    fn one_by_one(&self, inputs: &[Input], expected: &[Seen]) -> Option<Difference> {
        let mut lender = match Lender::start(self.program) {
            Ok(lender) => lender,
            Err(found) => {
                return Some(Difference {
                    place: 0,
                    found: Err(found),
                })
            }
        };
        (0..inputs.len()).find_map(|place| {
            let found = match lender.ask(&inputs[place..=place]).pop() {
                Some(seen) if seen == expected[place] => return None,
                Some(seen) => Ok(seen),
                None => Err(lender.end()),
            };
            Some(Difference { place, found })
        })
    }

    /// Closes the input, reads what is still written, and says how the program ended; nothing where it wrote no more and all is well.
    fn close(&mut self) -> Option<String> {
        drop(self.requests.take());
        let more = self.responses.by_ref().bytes().count();
        match self.child.wait() {
            Ok(status) if !status.success() => Some(format!("the program ended, {status}")),
            Ok(_) if more != 0 => Some(format!("the program wrote {more} bytes too many")),
            Ok(_) => None,
            Err(e) => Some(format!("the program cannot be waited for: {e}")),
        }
    }

    /// How a program ended that did not answer.
    fn end(&mut self) -> String {
        let ended = self.close();
        ended.unwrap_or_else(|| "the program ended before it answered".to_string())
    }

    /// Where all batches were answered, the program is to write no more, and to end with status 0.
    pub fn finish(mut self) -> Result<(), String> {
        self.close().map_or(Ok(()), Err)
    }
}

#[cfg(test)]
mod tests {
    use super::*;
    use independent::calls::{ALLOWANCE, WIDEST};
    use independent::case::{stating_length, MOST_CANDIDATES, MOST_STATED};
    use independent::lines::Line;

    fn call(text: &str) -> Call {
        Call::of_line(&Line::parse(text))
    }

    #[test]
    fn the_bytes_of_a_batch() {
        let inputs = [
            Input::new(&call("inverse 258 | 3"), 0),
            Input::new(&call("order 3 | 4294967298 | 7 | | 9 9"), 0b101),
        ];
        let count = [2, 0, 0, 0];
        let inverse = [0, 0, 2, 1, 0, 0, 0, 0, 0, 0, 0, 0, 0, 0, 3, 0, 0, 0];
        let order = [1, 5, 3, 0, 0, 0, 2, 0, 0, 0, 1, 0, 0, 0, 0, 0, 0, 0];
        let slices = [1, 0, 0, 0, 7, 0, 0, 0, 0, 2, 0, 0, 0, 9, 9];
        let expected = [&count[..], &inverse, &order, &slices].concat();
        assert_eq!(batch(&inputs), expected);
    }

    #[test]
    fn sides() {
        let sides = |inputs: &[Input]| inputs.iter().map(|x| x.sides).collect::<Vec<u8>>();
        let (none, three) = (call("inverse 5 | 3"), call("order 5 | 1 | 1 | 1 | 1"));
        assert_eq!(sides(&Input::on_all_sides(&none)), [0]);
        assert_eq!(sides(&Input::on_both_sides(&none)), [0, 0]);
        assert_eq!(
            sides(&Input::on_all_sides(&three)),
            [0, 1, 2, 3, 4, 5, 6, 7]
        );
        assert_eq!(sides(&Input::on_both_sides(&three)), [0, 7]);
    }

    #[test]
    fn the_numbers_of_an_answer() {
        let seen = |text: &str| {
            let numbers = Seen::expected(&call(text)).numbers;
            assert_eq!(numbers[..REFUSAL], [0; REFUSAL], "{text}");
            numbers[REFUSAL..].to_vec()
        };
        assert_eq!(seen("inverse 5 | 3"), [2, 0, 0, 0, 0]);
        assert_eq!(seen("inverse 5 | 0"), [255, 0, 0, 0, 0]);
        assert_eq!(seen("order 2 | 1 | 0 | 1 | 2*0"), [1, 0, 0, 0, 0]);
        assert_eq!(seen("image 2 | 1 | 0 | 1 | 1 | 0"), [0; 5]);
        let proved = seen("stand 3 | 2 | 0 1 2 0 | 1 0 | 9 | 3*0 | 2*0");
        assert_eq!(proved, [1, 2, 1, 2, 0]);
        let short = seen("stand 3 | 2 | 1 0 0 2 | 1 0 1 0 | 9 | 3*0 | 2*0");
        assert_eq!(short, [0, 1, 2, 2, 2]);
        assert_eq!(seen("chain 2 | 1 | 0 | | 2*0 | 2*0"), [1, 0, 0, 0, 0]);
        assert_eq!(seen("period 3 | 2 | 0 1 2 0"), [4, 0, 0, 0, 0]);
        assert_eq!(seen("period 2 | 1 | 0"), [0; 5]);
        assert_eq!(seen("sheet | 2048*0"), [10, 0, 0, 0, 0]);
        assert_eq!(seen("write 2 | 1 | 0 | | 9 | 13*0"), [13, 0, 0, 0, 0]);
    }

    /// Number, row and column, and nothing behind them.
    #[test]
    fn the_numbers_of_a_refusal() {
        let seen = |text: &str| {
            let numbers = Seen::expected(&call(text)).numbers;
            assert_eq!(numbers[REFUSAL..], [0; NUMBERS - REFUSAL], "{text}");
            numbers[..REFUSAL].to_vec()
        };
        assert_eq!(seen("inverse 4 | 3"), [1, 0, 0]);
        assert_eq!(seen("inverse 5 | 5"), [11, 0, 1]);
        assert_eq!(seen("period 3 | 2 | 0 1 3 0"), [5, 2, 1]);
        assert_eq!(seen("order 3 | 2 | 4*0 | 0 3 | 3*0"), [10, 1, 2]);
        assert_eq!(seen("image 3 | 1 | 0 | 0 | 1 0 3 | 0"), [11, 0, 3]);
        assert_eq!(seen("sheet | 0"), [6, 0, 0]);
        assert_eq!(seen("write 2 | 1 | 0 | | 16384 | 13*0"), [9, 0, 0]);
    }

    /// Numbers are passed on as they come, so that the header could name others.
    #[test]
    fn the_header_has_the_numbers() {
        let header = include_str!("../../../include/kinarsop.h");
        let longest = stating_length(WIDEST as usize, MOST_CANDIDATES) as u64;
        for (name, number) in [
            ("NO_INVERSE", NO_INVERSE.into()),
            ("ALLOWANCE", ALLOWANCE.into()),
            ("MOST_STATED", MOST_STATED),
            ("LONGEST_CASE", longest),
        ] {
            let named = format!("KINARSOP_{name} = {number}");
            let mut lines = header.lines().map(|line| line.trim().trim_end_matches(','));
            assert!(lines.any(|line| line == named), "{named}");
        }
    }

    #[test]
    fn a_response_is_read_whole() {
        let call = call("order 3 | 2 | 4*0 | 2*0 | 4*7");
        let expected = Seen::expected(&call);
        let mut bytes: Vec<u8> = vec![];
        for x in expected.numbers {
            bytes.extend(x.to_le_bytes());
        }
        bytes.extend(expected.slices.concat());
        let seen = Seen::read(&mut bytes.as_slice(), &call);
        assert_eq!(seen.expect("the bytes are there"), expected);
        assert!(Seen::read(&mut &bytes[1..], &call).is_err());
    }

    /// What is not there cannot be started, and a program that ends at once answers nothing.
    #[test]
    fn a_program_that_does_not_answer() {
        let program = |word: &str| Program(vec![word.to_string()]);
        assert!(Lender::start(&program("no-such-program")).is_err());
        let ended = program("false");
        let call = call("inverse 5 | 3");
        let mut lender = Lender::start(&ended).expect("there is such a program");
        let inputs = Input::on_both_sides(&call);
        let expected = vec![Seen::expected(&call); 2];
        let difference = lender.difference(&inputs, &expected);
        let difference = difference.expect("nothing is answered");
        assert_eq!(difference.place, 0);
        assert!(difference.found.is_err());
    }
}
