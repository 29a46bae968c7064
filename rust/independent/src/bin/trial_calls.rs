//! What the program `trial_calls` must print for the lines on standard input, by the independent implementation. The stored answers were made with it,
//! from the repository's root:
//!
//!     cargo run --release --manifest-path rust/Cargo.toml --bin trial_calls < crates/trial_calls/stdin > crates/trial_calls/stdout
//!
//! A line is a call (`calls.rs`). Its word, the answer and each result buffer as the call leaves it are printed.
use independent::calls::{outcome, Answer, Call, Refusal};
use independent::lines::{self, Line};

fn refused(refusal: &Refusal) -> String {
    let number = refusal.number;
    match refusal.place {
        Some(place) => format!("refused {number} row {} column {}", place.row, place.column),
        None => format!("refused {number}"),
    }
}

fn shown(answer: &Answer) -> String {
    match answer {
        Answer::Refused(refusal) => refused(refusal),
        Answer::Inverse(Some(inverse)) => inverse.to_string(),
        Answer::Inverse(None) => "none".to_string(),
        Answer::Degree(degree) => format!("degree {degree}"),
        Answer::Written => "written".to_string(),
        Answer::Stood {
            proved,
            degree,
            taken,
            spent,
            witness,
        } => {
            let counts = format!("degree {degree} taken {taken} spent {spent}");
            if *proved {
                format!("proved {counts}")
            } else {
                format!("short {counts} witness {witness}")
            }
        }
        Answer::Stages(count) => format!("stages {count}"),
        Answer::Period(Some(t)) => format!("least {t}"),
        Answer::Period(None) => "never".to_string(),
        Answer::Length(length) => format!("length {length}"),
    }
}

/// The answer, and each buffer after the call.
fn answer(line: &Line) -> String {
    let call = Call::of_line(line);
    let outcome = outcome(&call);
    let mut text = shown(&outcome.answer);
    for buffer in &outcome.slices[call.name.results()] {
        text.push_str(" |");
        for x in buffer {
            text.push_str(&format!(" {x}"));
        }
    }
    text
}

fn main() {
    lines::answer_all(answer);
}
