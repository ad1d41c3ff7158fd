//! A built program as a process, its input fed in some way.

use crate::program::{shown, Program};
use std::fs::File;
use std::io::{ErrorKind, Write};
use std::path::PathBuf;
use std::process::{ChildStdin, Command, Output, Stdio};
use std::thread::sleep;
use std::time::Duration;

/// How the input comes.
#[derive(Clone, Copy, PartialEq, Eq, Debug)]
pub enum Feed {
    /// Through a pipe, in one write.
    Whole,
    /// Through a pipe, so many bytes at a time.
    Short(usize),
    /// The same, with a pause after each write.
    Slow(usize),
}

pub struct Process {
    program: Program,
    built: PathBuf,
}

impl Process {
    pub fn of(program: Program) -> Process {
        let built = program.built();
        Process { program, built }
    }

    /// The program answers an input as told, and says nothing else.
    pub fn assert_answer(&self, feed: Feed, input: &[u8], told: &[u8]) {
        let output = match feed {
            Feed::Whole => self.piped(input, input.len().max(1), None),
            Feed::Short(bytes) => self.piped(input, bytes, None),
            Feed::Slow(bytes) => self.piped(input, bytes, Some(Duration::from_micros(300))),
        };
        assert!(
            quiet(&output) && output.stdout == told,
            "{}, {feed:?}, input {}\nanswer: {}\nexpected: {}",
            self.program.name(),
            shown(input),
            shown(&output.stdout),
            shown(told)
        );
    }

    fn piped(&self, input: &[u8], bytes: usize, pause: Option<Duration>) -> Output {
        let mut child = Command::new(&self.built)
            .stdin(Stdio::piped())
            .stdout(Stdio::piped())
            .stderr(Stdio::piped())
            .spawn()
            .unwrap();
        feed(child.stdin.take().unwrap(), input, bytes, pause);
        child.wait_with_output().unwrap()
    }

    /// What the program does with this standard input.
    pub fn with_input(&self, input: File) -> Output {
        Command::new(&self.built).stdin(input).output().unwrap()
    }

    /// What it does with standard input closed.
    pub fn with_closed_input(&self) -> Output {
        Command::new("sh")
            .args(["-c", "exec \"$0\" <&-"])
            .arg(&self.built)
            .output()
            .unwrap()
    }

    /// What it does with an input, and with this standard output.
    pub fn with_output(&self, input: &[u8], output: File) -> Output {
        let mut child = Command::new(&self.built)
            .stdin(Stdio::piped())
            .stdout(output)
            .stderr(Stdio::piped())
            .spawn()
            .unwrap();
        feed(child.stdin.take().unwrap(), input, input.len(), None);
        child.wait_with_output().unwrap()
    }
}

/// The program ended well, and wrote nothing on the error stream.
pub fn quiet(output: &Output) -> bool {
    output.status.success() && output.stderr.is_empty()
}

/// Writes the input so many bytes at a time. A program that has read enough may have ended before.
fn feed(mut pipe: ChildStdin, input: &[u8], bytes: usize, pause: Option<Duration>) {
    for part in input.chunks(bytes.max(1)) {
        match pipe.write_all(part) {
            Err(error) if error.kind() == ErrorKind::BrokenPipe => return,
            written => written.unwrap(),
        }
        pause.into_iter().for_each(sleep);
    }
}
