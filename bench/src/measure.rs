//! Times and counts of instructions.

use std::fs::File;
use std::hint::black_box;
use std::path::Path;
use std::process::{Command, Stdio};
use std::time::{Duration, Instant};

/// The least time of five runs; of fewer, if they take long.
pub fn best(mut run: impl FnMut()) -> Duration {
    let begun = Instant::now();
    let mut least = Duration::MAX;
    for _ in 0..5 {
        let one = Instant::now();
        run();
        least = least.min(one.elapsed());
        if begun.elapsed() > Duration::from_secs(10) {
            break;
        }
    }
    least
}

/// Makes a call within which instructions are counted.
#[inline(never)]
pub fn counted<T>(call: impl FnOnce() -> T) -> T {
    black_box(call())
}

/// The name of that place.
const COUNTED: &str = "*measure::counted*";

/// The instructions of a call that this program makes by itself, with these words.
pub fn own_instructions(words: &[&str], input: Option<&Path>) -> Option<u64> {
    let itself = std::env::current_exe().ok()?;
    instructions(&itself, words, COUNTED, input)
}

/// A program of this name can be run.
pub fn installed(name: &str) -> bool {
    let found = |folder: &Path| folder.join(name).is_file();
    let folders = std::env::var_os("PATH").unwrap_or_default();
    std::env::split_paths(&folders).any(|folder| found(&folder))
}

/// The instructions that a program with these words and this input takes within a function; none
/// where valgrind is not installed.
pub fn instructions(
    program: &Path,
    words: &[&str],
    within: &str,
    input: Option<&Path>,
) -> Option<u64> {
    let mut valgrind = callgrind()?;
    valgrind
        .arg(format!("--toggle-collect={within}"))
        .arg(program)
        .args(words);
    collected(valgrind, input)
}

/// The C library zeroes memory by vectors: of its other way valgrind counts every byte as an instruction.
const BY_VECTORS: (&str, &str) = (
    "GLIBC_TUNABLES",
    "glibc.cpu.x86_rep_stosb_threshold=100000000",
);

/// The instructions of a program's whole run with this input, from its start to its end.
pub fn whole_instructions(program: &Path, input: &Path) -> Option<u64> {
    let mut valgrind = callgrind()?;
    valgrind.env(BY_VECTORS.0, BY_VECTORS.1).arg(program);
    collected(valgrind, Some(input))
}

/// The command that counts, where valgrind is installed.
fn callgrind() -> Option<Command> {
    let mut valgrind = installed("valgrind").then(|| Command::new("valgrind"))?;
    valgrind.args(["--tool=callgrind", "--callgrind-out-file=/dev/null"]);
    Some(valgrind)
}

/// What it counts with an input.
fn collected(mut valgrind: Command, input: Option<&Path>) -> Option<u64> {
    let input = input.map_or(Stdio::null(), |file| File::open(file).unwrap().into());
    let output = valgrind.stdin(input).output().unwrap();
    let told = String::from_utf8_lossy(&output.stderr);
    let line = told.lines().find_map(|line| line.split_once("Collected :"));
    line.and_then(|(_, count)| count.trim().parse().ok())
}
