//! A list's text judged by the library.

use crate::status::Status;
use crate::ROOM;
use dowrhesk::{read_candidate, Function, Refused, Verdict};

/// A list that was read, and the verdict on it.
#[derive(Clone, PartialEq, Eq, Debug)]
pub struct Judged {
    pub list: Vec<u32>,
    pub verdict: Verdict,
}

/// Reads a list for a function and judges it.
pub fn judge(function: &Function, text: &[u8]) -> Result<Judged, Refused> {
    let list = read_candidate(function.columns(), text, ROOM)?;
    let verdict = function.check(&list)?;
    Ok(Judged { list, verdict })
}

impl Judged {
    pub fn status(&self) -> Status {
        match self.verdict {
            Verdict::Accept => Status::Accepted,
            _ => Status::Faulty,
        }
    }
}
