//! What the program `trial_designs` must print for the lines on standard input, by the independent
//! implementation. The stored answers were made with it, from the repository's root:
//!
//!     cargo run --release --manifest-path rust/Cargo.toml --bin trial_designs \
//!         < crates/trial_designs/stdin > crates/trial_designs/stdout
//!
//! A line is the word `text`, a space and a design's text (`design.rs`), which is all that stands
//! behind the space; the word alone is the empty text. `\n`, `\r`, `\t` and `\\` are a line feed, a
//! return, a tab and a backslash, `\` with three decimal digits the byte of that number. Any other
//! byte stands for itself. For each line one of these is printed:
//!
//!     text case 22 | 255 70 3 2 ..                     the case file: how many bytes, and which
//!     text line 1, cell 2: expected a prime from 2 to 251
use independent::design;
use independent::lines;

/// The byte at the front of a stored text, and how long it is there.
fn first_byte(text: &[u8]) -> (u8, usize) {
    match text {
        [b'\\', b'n', ..] => (b'\n', 2),
        [b'\\', b'r', ..] => (b'\r', 2),
        [b'\\', b't', ..] => (b'\t', 2),
        [b'\\', b'\\', ..] => (b'\\', 2),
        [b'\\', digits @ ..] => (numbered(&digits[..3]), 4),
        [byte, ..] => (*byte, 1),
        [] => panic!("there is no byte"),
    }
}

fn numbered(digits: &[u8]) -> u8 {
    let digits = std::str::from_utf8(digits).expect("a number is text");
    digits.parse().expect("a byte is a number up to 255")
}

/// The bytes that a stored text stands for.
fn bytes(stored: &str) -> Vec<u8> {
    let mut rest = stored.as_bytes();
    let mut bytes = vec![];
    while !rest.is_empty() {
        let (byte, length) = first_byte(rest);
        bytes.push(byte);
        rest = &rest[length..];
    }
    bytes
}

fn answer(text: &[u8]) -> String {
    match design::read(text) {
        Ok(case) => {
            let file = case.stating().bytes();
            let numbers: Vec<String> = file.iter().map(u8::to_string).collect();
            format!("case {} | {}", file.len(), numbers.join(" "))
        }
        Err(mistake) => mistake.to_string(),
    }
}

fn printed(line: &str) -> String {
    let (word, stored) = line.split_once(' ').unwrap_or((line, ""));
    assert_eq!(word, "text", "a line is a text");
    format!("{word} {}", answer(&bytes(stored)))
}

fn main() {
    lines::print_all(printed);
}

#[cfg(test)]
mod tests {
    use super::*;

    #[test]
    fn stored_bytes() {
        assert_eq!(bytes(""), b"");
        assert_eq!(bytes("row, 1"), b"row, 1");
        assert_eq!(bytes(r"a\n\r\t\\n"), b"a\n\r\t\\n");
        assert_eq!(bytes(r"\0001\255\\032\032"), b"\x001\xff\\032 ");
    }

    #[test]
    fn both_answers() {
        let case = "text case 13 | 255 70 2 1 255 65 64 0 255 82 1 255 69";
        assert_eq!(printed(r"text field,2,1\nrow,1"), case);
        let mistake = "text line 1, cell 1: expected the word field";
        assert_eq!(printed("text"), mistake);
        assert_eq!(printed("text "), mistake);
    }
}
