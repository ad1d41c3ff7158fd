//! The commands in docs/GUIDE.md and README.md: each is run, and its output is the one shown.

mod common;

use common::{top, Desk};
use std::fs;
use std::os::unix::fs::symlink;
use std::process::Command;

/// The commands of a page, which stand after `$`, each with the lines shown below it.
fn commands(page: &str) -> Vec<(String, String)> {
    let mut commands: Vec<(String, String)> = Vec::new();
    let mut open = false;
    for line in page.lines() {
        if let Some(command) = line.strip_prefix("    $ ") {
            commands.push((command.to_string(), String::new()));
            open = true;
        } else if let (Some(shown), Some((_, output))) = (shown(line), commands.last_mut()) {
            if open {
                output.push_str(shown);
                output.push('\n');
            }
        } else {
            open = false;
        }
    }
    for (_, output) in &mut commands {
        *output = output.trim_end_matches('\n').to_string();
    }
    commands
}

/// A line of a block without its indent; within a block, lines may be empty.
fn shown(line: &str) -> Option<&str> {
    match line {
        "" => Some(""),
        _ => line.strip_prefix("    "),
    }
}

/// Runs a page's commands one after the other, on a desk with the examples and the binary.
fn follow(page: &str) -> usize {
    let desk = Desk::new();
    for entry in fs::read_dir(top().join("examples")).unwrap() {
        let path = entry.unwrap().path();
        let name = path.file_name().unwrap().to_str().unwrap();
        desk.put(
            &format!("examples/{name}"),
            &fs::read_to_string(&path).unwrap(),
        );
    }
    symlink(env!("CARGO_BIN_EXE_dowrhesk"), desk.path("dowrhesk")).unwrap();
    let commands = commands(&fs::read_to_string(top().join(page)).unwrap());
    for (command, expected) in &commands {
        let run = Command::new("sh")
            .args(["-c", &format!("({command}) 2>&1")])
            .current_dir(&desk.folder)
            .output()
            .unwrap();
        let output = String::from_utf8(run.stdout).unwrap();
        assert_eq!(output.trim_end_matches('\n'), expected, "{page}: {command}");
    }
    commands.len()
}

#[test]
fn the_guide() {
    assert!(follow("docs/GUIDE.md") >= 9);
}

#[test]
fn the_readme() {
    assert!(follow("README.md") >= 2);
}
