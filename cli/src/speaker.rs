//! Standard output and standard error. Colour and progress appear on terminals only.

use crate::status::Status;
use std::env;
use std::io::{self, ErrorKind, IsTerminal, Write};

pub struct Speaker {
    colour: bool,
    progress: bool,
    /// The first error of standard output.
    broken: Option<io::Error>,
}

const GREEN: &str = "\x1b[32m";
const RED: &str = "\x1b[31m";
const PLAIN: &str = "\x1b[0m";
const CLEAR_LINE: &str = "\r\x1b[K";

impl Speaker {
    pub fn new() -> Speaker {
        let wanted = env::var_os("NO_COLOR").is_none_or(|value| value.is_empty());
        Speaker {
            colour: wanted && io::stdout().is_terminal(),
            progress: io::stderr().is_terminal(),
            broken: None,
        }
    }

    /// A line on standard output.
    pub fn say(&mut self, line: &str) {
        self.write(format!("{line}\n").as_bytes());
    }

    /// Bytes on standard output.
    pub fn write(&mut self, bytes: &[u8]) {
        self.clear_progress();
        if self.broken.is_some() {
            return;
        }
        let mut output = io::stdout().lock();
        let written = output.write_all(bytes).and_then(|()| output.flush());
        self.broken = written.err();
    }

    /// A line on standard error.
    pub fn complain(&mut self, line: &str) {
        self.clear_progress();
        // Where standard error is gone, the exit status has to do.
        let _ = writeln!(io::stderr(), "{line}");
    }

    /// How far the work is, where someone looks on.
    pub fn progress(&mut self, line: &str) {
        if self.progress {
            let _ = write!(io::stderr(), "{CLEAR_LINE}{line}");
        }
    }

    pub fn clear_progress(&mut self) {
        self.progress("");
    }

    /// A verdict's text in its colour.
    pub fn coloured(&self, text: &str, status: Status) -> String {
        if !self.colour {
            return text.to_string();
        }
        let colour = match status {
            Status::Accepted => GREEN,
            _ => RED,
        };
        format!("{colour}{text}{PLAIN}")
    }

    /// The status at the end: an output that could not be written is told, unless its reader left.
    pub fn finish(mut self, status: Status) -> Status {
        match self.broken.take() {
            None => status,
            Some(error) => {
                if error.kind() != ErrorKind::BrokenPipe {
                    self.complain(&format!("standard output: cannot be written: {error}"));
                }
                Status::Refused
            }
        }
    }
}
