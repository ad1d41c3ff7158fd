//! Measures the proved code. Without a word it times the checker on the greatest lists, by the library
//! and by the second program. `bench speed` writes the table of the two programs and the generator, on
//! the corpus and on hard inputs, `bench targets` what was asked of the speed, and `bench corpus FOLDER`
//! the programs on every text of the corpus beside those of another build, which stand in a folder.
//! Other words make one call, for counting instructions.

mod generations;
mod inputs;
mod lists;
mod measure;
mod others;
mod plain;
mod rivals;
mod speed;
mod targets;

use crate::generations::GENERATIONS;
use crate::lists::CASES;
use crate::measure::counted;
use programs::program::{Program, ROOM};
use std::env;
use std::io::Read;
use std::process::ExitCode;

const USE: &str = "bench [speed | targets | corpus FOLDER | LIST library|second | \
    GENERATION library|second|plain | pla_list|pla_check library|second < INPUT]";

/// Who makes a call: the proved library, the second program, or the plain version of the generator.
#[derive(Clone, Copy, PartialEq, Eq)]
pub enum Who {
    Library,
    Second,
    Plain,
}

impl Who {
    const ALL: [(&str, Who); 3] = [
        ("library", Who::Library),
        ("second", Who::Second),
        ("plain", Who::Plain),
    ];

    fn named(word: &str) -> Option<Who> {
        let found = Who::ALL.into_iter().find(|&(name, _)| name == word);
        found.map(|(_, who)| who)
    }
}

fn main() -> ExitCode {
    let words: Vec<String> = env::args().skip(1).collect();
    let words: Vec<&str> = words.iter().map(String::as_str).collect();
    let done = match words[..] {
        [] => {
            CASES.iter().for_each(lists::Case::compare);
            true
        }
        ["speed"] => {
            speed::write();
            true
        }
        ["targets"] => {
            targets::write();
            true
        }
        ["corpus", folder] => {
            others::write(folder.as_ref());
            true
        }
        [name, who] => Who::named(who).is_some_and(|who| one_call(name, who)),
        _ => false,
    };
    if done {
        return ExitCode::SUCCESS;
    }
    eprintln!("{USE}");
    ExitCode::FAILURE
}

/// Makes the call of this name once, and tells whether there is one.
fn one_call(name: &str, who: Who) -> bool {
    if let Some(case) = GENERATIONS.iter().find(|case| case.name == name) {
        case.generate(who);
        return true;
    }
    if who == Who::Plain {
        return false;
    }
    let library = who == Who::Library;
    if let Some(case) = CASES.iter().find(|case| case.name == name) {
        case.judge(library);
        return true;
    }
    let named = |program: &Program| program.name() == name;
    let program = Program::BOTH.into_iter().find(named);
    program.inspect(|&program| answer(program, library)).is_some()
}

/// Answers standard input.
fn answer(program: Program, library: bool) {
    let mut input = Vec::new();
    std::io::stdin().read_to_end(&mut input).unwrap();
    if library {
        counted(|| program.in_room(&input, ROOM));
    } else {
        counted(|| program.by_second(&input));
    }
}
