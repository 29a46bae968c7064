//! A compiled program that is run on given bytes.
use std::io::Write;
use std::process::{Child, Command, Stdio};
use std::thread::sleep;
use std::time::Duration;

/// The words of its command: its path, after the words of an emulator where it needs one.
pub struct Program(pub Vec<String>);

impl Program {
    /// The words in front of the word `--`, and the program whose command is behind it.
    pub fn behind_dashes(mut words: Vec<String>) -> Option<(Vec<String>, Program)> {
        let at = words.iter().position(|word| word == "--")?;
        let command = words.split_off(at + 1);
        words.pop();
        (!command.is_empty()).then_some((words, Program(command)))
    }

    /// What it writes when it reads the input. It may leave a part of the input unread.
    pub fn run(&self, input: &[u8]) -> Vec<u8> {
        let child = self.start(input, Stdio::piped());
        let output = child.wait_with_output().expect("the program ends");
        assert!(
            output.status.success(),
            "the program fails: {}",
            output.status
        );
        output.stdout
    }

    /// How many seconds of a processor it takes from its start to its end when it reads the input: those of the clock would count what else the
    /// machine does. What it writes goes nowhere. Linux keeps the count of a program that has ended until it is waited for.
    pub fn seconds(&self, input: &[u8]) -> f64 {
        let mut child = self.start(input, Stdio::null());
        while !has_ended(&child) {
            sleep(Duration::from_micros(100));
        }
        let told = of_process(&child, "schedstat");
        let status = child.wait().expect("the program ends");
        assert!(status.success(), "the program fails: {status}");
        let nanoseconds = told.split(' ').next().and_then(|x| x.parse::<f64>().ok());
        nanoseconds.expect("the time is a number") / 1e9
    }

    /// A run whose input is a pipe that is still open, or why there is none.
    pub fn spawn(&self, output: Stdio) -> Result<Child, String> {
        Command::new(&self.0[0])
            .args(&self.0[1..])
            .stdin(Stdio::piped())
            .stdout(output)
            .spawn()
            .map_err(|e| format!("{} does not start: {e}", self.0[0]))
    }

    fn start(&self, input: &[u8], output: Stdio) -> Child {
        let mut child = self.spawn(output).unwrap_or_else(|e| panic!("{e}"));
        let mut pipe = child.stdin.take().expect("the input is a pipe");
        let _ = pipe.write_all(input);
        drop(pipe);
        child
    }
}

/// A file that Linux keeps of a program.
fn of_process(child: &Child, file: &str) -> String {
    let path = format!("/proc/{}/{file}", child.id());
    std::fs::read_to_string(&path).unwrap_or_else(|e| panic!("{path}: {e}"))
}

/// The letter of the state stands behind the name, which is in parentheses.
fn has_ended(child: &Child) -> bool {
    let told = of_process(child, "stat");
    told.rsplit(')').next().is_some_and(|x| x.starts_with(" Z"))
}
