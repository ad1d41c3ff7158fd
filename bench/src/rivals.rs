//! Other minimisers of two-level logic, where they are installed.

use crate::measure::{best, installed};
use std::path::Path;
use std::process::{Command, Output, Stdio};
use std::time::Duration;

/// The time of a whole run, and the rows of its list.
pub struct Run {
    pub time: Duration,
    pub rows: Option<usize>,
}

/// Espresso on a text.
pub fn espresso(input: &Path) -> Option<Run> {
    run("espresso", |command| command.arg(input))
}

/// ABC on a text: its list of a function's diagram, in the order of the columns.
pub fn abc(input: &Path) -> Option<Run> {
    let made = std::env::temp_dir().join("bench-abc.pla");
    let (from, to) = (input.display(), made.display());
    let script = format!("read_pla {from}; collapse -r; sop; write_pla {to}");
    let mut told = run("berkeley-abc", |command| command.args(["-q", &script]))?;
    told.rows = rows(&std::fs::read(&made).unwrap_or_default());
    let _ = std::fs::remove_file(made);
    Some(told)
}

/// ABC without any work.
pub fn abc_alone() -> Option<Run> {
    run("berkeley-abc", |command| command.args(["-q", "quit"]))
}

/// The rule's list over BuDDy's diagrams, by a program of this folder, which is compiled where BuDDy is installed.
pub fn buddy(input: &Path) -> Option<Run> {
    let program = std::env::temp_dir().join("bench-buddy");
    let source = Path::new(env!("CARGO_MANIFEST_DIR")).join("rivals/buddy.c");
    if !program.exists() {
        let mut compile = Command::new("cc");
        compile.arg("-O2").arg("-o").arg(&program).arg(source);
        let made = compile.arg("-lbdd").stderr(Stdio::null()).status();
        made.ok().filter(|status| status.success())?;
    }
    run(program.to_str()?, |command| command.arg(input))
}

fn run(name: &str, words: impl Fn(&mut Command) -> &mut Command) -> Option<Run> {
    if !installed(name) {
        return None;
    }
    let mut output: Option<Output> = None;
    let time = best(|| {
        let mut command = Command::new(name);
        command.stdin(Stdio::null());
        output = words(&mut command).output().ok();
    });
    let rows = output.and_then(|output| rows(&output.stdout));
    Some(Run { time, rows })
}

/// The number behind `.p` in a text.
fn rows(text: &[u8]) -> Option<usize> {
    let text = String::from_utf8_lossy(text);
    let count = text.lines().find_map(|line| line.strip_prefix(".p "));
    count.and_then(|count| count.trim().parse().ok())
}
