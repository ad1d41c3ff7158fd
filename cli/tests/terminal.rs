//! Colour and progress: on a terminal, and nowhere else.

mod common;

use common::{Desk, EXAMPLE, EXAMPLE_LIST};
use std::process::{Command, Stdio};

fn desk() -> Desk {
    Desk::with(&[
        ("line/f.pla", EXAMPLE),
        ("line/f.old.pla", ".i 2\n.o 1\n-- 1\n.e\n"),
        ("line/g.pla", EXAMPLE),
        ("line/g.old.pla", EXAMPLE_LIST),
    ])
}

/// What a terminal gets of a release, if there is `script` to make one.
fn on_a_terminal(desk: &Desk, before: &str) -> Option<String> {
    let command = format!("{before} {} release line", env!("CARGO_BIN_EXE_dowrhesk"));
    let run = Command::new("script")
        .args(["--quiet", "--return", "--command", &command, "/dev/null"])
        .current_dir(&desk.folder)
        .env_remove("NO_COLOR")
        .stdin(Stdio::null())
        .output();
    match run {
        Ok(output) => {
            assert_eq!(output.status.code(), Some(1), "{output:?}");
            Some(String::from_utf8(output.stdout).unwrap())
        }
        Err(_) => {
            println!("skipped: script is not installed");
            None
        }
    }
}

#[test]
fn a_terminal_gets_colour_and_progress() {
    let desk = desk();
    let Some(shown) = on_a_terminal(&desk, "") else {
        return;
    };
    for part in [
        "1 of 2: f",
        "2 of 2: g",
        "\x1b[31mfaulty: covers an off point\x1b[0m",
        "\x1b[32maccepted\x1b[0m",
    ] {
        assert!(shown.contains(part), "{part:?} in {shown:?}");
    }
}

#[test]
fn colour_can_be_declined() {
    let desk = desk();
    if let Some(shown) = on_a_terminal(&desk, "NO_COLOR=1") {
        assert!(shown.contains("1 of 2: f") && !shown.contains("\x1b[3"));
    }
}

#[test]
fn a_pipe_gets_neither() {
    let run = desk().run(&["release", "line"]);
    assert_eq!((run.status, &*run.err), (1, ""));
    assert!(!run.out.contains('\x1b') && !run.out.contains('\r'));
}
