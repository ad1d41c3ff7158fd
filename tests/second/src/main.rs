//! `second list` and `second check`: the two programs from standard input to standard output.

use second::programs::{check_program, list_program};
use std::io::{self, Read, Write};
use std::process::ExitCode;

fn main() -> ExitCode {
    let asked: Vec<String> = std::env::args().skip(1).collect();
    match program_named(&asked).map(run) {
        Some(Ok(())) => ExitCode::SUCCESS,
        Some(Err(error)) => {
            eprintln!("second: {error}");
            ExitCode::from(2)
        }
        None => {
            eprintln!("use: second list | second check");
            ExitCode::from(2)
        }
    }
}

/// A program, from its input to its output.
type Program = fn(&[u8]) -> Vec<u8>;

fn program_named(asked: &[String]) -> Option<Program> {
    match asked {
        [name] if name == "list" => Some(list_program),
        [name] if name == "check" => Some(check_program),
        _ => None,
    }
}

fn run(program: Program) -> io::Result<()> {
    let mut input = Vec::new();
    io::stdin().read_to_end(&mut input)?;
    let mut output = io::stdout().lock();
    output.write_all(&program(&input))?;
    output.flush()
}
