//! `dowrhesk list`.

use crate::arguments::List;
use crate::files::{read, same_file, write, Input};
use crate::plain::is_refusal;
use crate::speaker::Speaker;
use crate::status::Status;
use crate::{words, RECORDS, ROOM};
use dowrhesk::{list_answer, write_list, Function, Refused};
use std::ffi::OsStr;
use std::path::Path;

pub fn run(asked: &List, speaker: &mut Speaker) -> Status {
    let done = read(&asked.function).and_then(|input| listed(asked, &input, speaker));
    match done {
        Ok(status) => status,
        Err(said) => {
            speaker.complain(&said);
            Status::Refused
        }
    }
}

/// The list of an input goes where it is asked for.
fn listed(asked: &List, input: &Input, speaker: &mut Speaker) -> Result<Status, String> {
    if asked.plain {
        let answer = list_answer(&input.text);
        if is_refusal(&answer) {
            speaker.write(&answer);
            return Ok(Status::Refused);
        }
        put(asked, &answer, speaker)?;
        return Ok(Status::Accepted);
    }
    let (text, summary) =
        made(&input.text).map_err(|refused| words::refusal(&input.name, &input.text, refused))?;
    put(asked, &text, speaker)?;
    speaker.complain(&format!("{}: {summary}", input.name));
    Ok(Status::Accepted)
}

/// A list goes to standard output, or to a file that is not the function's own.
fn put(asked: &List, text: &[u8], speaker: &mut Speaker) -> Result<(), String> {
    match asked.out.as_deref().filter(|out| *out != "-") {
        None => {
            speaker.write(text);
            Ok(())
        }
        Some(out) => store(&asked.function, out, text),
    }
}

/// The text of a function's list, and a line about it.
fn made(text: &[u8]) -> Result<(Vec<u8>, String), Refused> {
    let mut function = Function::read(text, RECORDS)?;
    let list = function.list(ROOM)?;
    let written = write_list(function.columns(), &list)?;
    let (used, there) = (words::grouped(function.records()), words::grouped(RECORDS));
    let summary = format!("{}, {used} of {there} records used", words::size(&list));
    Ok((written, summary))
}

fn store(function: &OsStr, out: &OsStr, text: &[u8]) -> Result<(), String> {
    let (function, out) = (Path::new(function), Path::new(out));
    if same_file(function, out) {
        return Err(format!(
            "{}: not written, it is the function itself",
            out.display()
        ));
    }
    write(out, text)
}
