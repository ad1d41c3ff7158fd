//! `dowrhesk list`, `dowrhesk check` and `dowrhesk release`: the proved library at a person's desk.
//! Files, words and pages are made here; every list and every verdict is the library's.

mod arguments;
mod check;
mod files;
mod folder;
mod help;
mod judging;
mod list;
mod map;
mod page;
mod place;
mod plain;
mod release;
mod sheet;
mod speaker;
mod status;
mod words;

use arguments::Asked;
use speaker::Speaker;
use status::Status;
use std::env;
use std::process::ExitCode;

/// The sizes of the proved programs: the records of the table, and the cubes of the list room.
const RECORDS: usize = dowrhesk::MOST_RECORDS;
const ROOM: usize = 1_536;

fn main() -> ExitCode {
    let mut speaker = Speaker::new();
    let status = match arguments::parse(env::args_os().skip(1)) {
        Ok(asked) => run(asked, &mut speaker),
        Err(said) => {
            speaker.complain(&format!("dowrhesk: {said}"));
            Status::Refused
        }
    };
    ExitCode::from(speaker.finish(status) as u8)
}

fn run(asked: Asked, speaker: &mut Speaker) -> Status {
    match asked {
        Asked::Help(text) => {
            speaker.say(text.trim_end());
            Status::Accepted
        }
        Asked::List(asked) => list::run(&asked, speaker),
        Asked::Check(asked) => check::run(&asked, speaker),
        Asked::Release(asked) => release::run(&asked, speaker),
    }
}
