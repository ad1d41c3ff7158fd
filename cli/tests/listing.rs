//! `dowrhesk list` as a person uses it.

mod common;

use common::{run, Desk, EXAMPLE, EXAMPLE_LIST};
use std::fs;
use std::os::unix::fs::{FileTypeExt, PermissionsExt};
use std::os::unix::process::CommandExt;
use std::process::Command;

/// The number of the user without rights.
const NOBODY: u32 = 65_534;

const SUMMARY: &str = "2 rows, 2 literals, 7 of 4,096 records used\n";

#[test]
fn the_whole_example() {
    let desk = Desk::with(&[("f.pla", EXAMPLE)]);
    let summary = format!("f.pla: {SUMMARY}");
    assert_eq!(desk.run(&["list", "f.pla"]), run(0, EXAMPLE_LIST, &summary));
    assert_eq!(
        desk.run(&["list", "f.pla", "-o", "out.pla"]),
        run(0, "", &summary)
    );
    assert_eq!(desk.text("out.pla"), EXAMPLE_LIST);
    assert_eq!(desk.names("."), ["f.pla", "out.pla"]);
}

#[test]
fn standard_input_and_output() {
    let desk = Desk::new();
    let expected = run(0, EXAMPLE_LIST, &format!("standard input: {SUMMARY}"));
    assert_eq!(desk.run_with(&["list", "-"], EXAMPLE), expected);
    assert_eq!(desk.run_with(&["list", "-", "-o", "-"], EXAMPLE), expected);
    assert!(desk.names(".").is_empty());
    let refused = "standard input:1: text fault (11)\n    x\n";
    assert_eq!(desk.run_with(&["list", "-"], "x\n"), run(2, "", refused));
}

#[test]
fn plain_gives_the_programs_answer_alone() {
    let desk = Desk::with(&[("f.pla", EXAMPLE), ("bad.pla", ".i 2\n.o 1\n01\n")]);
    let list = |file| desk.run(&["list", file, "--plain"]);
    assert_eq!(list("f.pla"), run(0, EXAMPLE_LIST, ""));
    assert_eq!(list("bad.pla"), run(2, "refused 11 3\n", ""));
    let input = " ".repeat(32_769);
    let long = desk.run_with(&["list", "-", "--plain"], &input);
    assert_eq!(long, run(2, "refused 10 0\n", ""));
}

#[test]
fn refusals_in_words() {
    let desk = Desk::with(&[
        (
            "fault.pla",
            ".i 2\n.o 1\n\n# rows\n01 1\n10 1\n1\t0 1\n.e\n",
        ),
        ("odd.pla", ".i 2\n.o 1\n\x1b[31m\u{e9} 1\n"),
        ("empty.pla", ""),
        ("both.pla", ".i 1\n.o 1\n.type fr\n1 1\n- 0\n.e\n"),
        ("long.pla", &"#".repeat(32_769)),
        ("nodes.pla", &common::too_many_records()),
        ("rows.pla", &common::too_many_rows()),
    ]);
    for (file, said) in [
        ("fault.pla", "fault.pla:7: text fault (11)\n    1\\t0 1\n"),
        ("odd.pla", "odd.pla:3: text fault (11)\n    \\x1b[31m\\xc3\\xa9 1\n"),
        ("empty.pla", "empty.pla:1: text fault (11)\n    (the end of the text)\n"),
        ("both.pla", "both.pla: a point is both on and off (12)\n"),
        ("long.pla", "long.pla: text over 32,768 bytes (10)\n"),
        (
            "nodes.pla",
            "nodes.pla: node room lacking (7): more than 4,096 records are needed, there are 4,096\n",
        ),
        (
            "rows.pla",
            "rows.pla: list longer than its room (8): 1,792 rows are needed, there is room for 1,536\n",
        ),
    ] {
        let listed = desk.run(&["list", file, "-o", "out.pla"]);
        assert_eq!(listed, run(2, "", said));
        assert!(!desk.path("out.pla").exists());
    }
}

#[test]
fn the_limits_are_taken() {
    let mut longest = EXAMPLE.to_string();
    longest += &" ".repeat(32_768 - longest.len());
    let desk = Desk::with(&[("long.pla", &longest), ("full.pla", &common::a_full_room())]);
    assert_eq!(desk.run(&["list", "long.pla"]).out, EXAMPLE_LIST);
    let full = desk.run(&["list", "full.pla"]);
    assert_eq!(full.status, 0);
    assert!(full.out.starts_with(".i 16\n.o 1\n.p 1536\n"));
    assert!(full.err.starts_with("full.pla: 1,536 rows, "));
}

#[test]
fn what_cannot_be_read() {
    let desk = Desk::with(&[("file", "")]);
    fs::create_dir(desk.path("folder")).unwrap();
    for (file, reason) in [
        ("none.pla", "No such file or directory (os error 2)"),
        ("folder", "Is a directory (os error 21)"),
        ("file/f.pla", "Not a directory (os error 20)"),
    ] {
        let said = format!("{file}: cannot be read: {reason}\n");
        assert_eq!(desk.run(&["list", file]), run(2, "", &said));
    }
}

#[test]
fn what_cannot_be_written() {
    let desk = Desk::with(&[("f.pla", EXAMPLE), ("file", "kept")]);
    fs::create_dir(desk.path("folder")).unwrap();
    for (file, reason) in [
        ("none/out.pla", "No such file or directory (os error 2)"),
        ("folder", "Is a directory (os error 21)"),
        ("file/out.pla", "Not a directory (os error 20)"),
    ] {
        let said = format!("{file}: cannot be written: {reason}\n");
        assert_eq!(desk.run(&["list", "f.pla", "-o", file]), run(2, "", &said));
    }
    assert_eq!(desk.names("."), ["f.pla", "file", "folder"]);
    assert_eq!(desk.text("file"), "kept");
}

/// A user who may write into every folder runs the binary as one who may not.
#[test]
fn a_folder_without_rights() {
    let folder = std::env::temp_dir().join(format!("dowrhesk-rights-{}", std::process::id()));
    let shut = folder.join("shut");
    fs::create_dir_all(&shut).unwrap();
    fs::write(folder.join("f.pla"), EXAMPLE).unwrap();
    fs::write(shut.join("old.pla"), "kept").unwrap();
    let binary = folder.join("dowrhesk");
    fs::copy(env!("CARGO_BIN_EXE_dowrhesk"), &binary).unwrap();
    fs::set_permissions(&folder, fs::Permissions::from_mode(0o755)).unwrap();
    fs::set_permissions(&shut, fs::Permissions::from_mode(0o555)).unwrap();
    let mut command = Command::new(&binary);
    command.args(["list", "f.pla", "-o", "shut/old.pla"]);
    if fs::write(shut.join("probe"), "").is_ok() {
        fs::remove_file(shut.join("probe")).unwrap();
        command.uid(NOBODY).gid(NOBODY);
    }
    let listed = command.current_dir(&folder).output().unwrap();
    let said = "shut/old.pla: cannot be written: Permission denied (os error 13)\n";
    assert_eq!(String::from_utf8_lossy(&listed.stderr), said);
    assert_eq!(listed.status.code(), Some(2));
    assert_eq!(fs::read_to_string(shut.join("old.pla")).unwrap(), "kept");
    fs::set_permissions(&shut, fs::Permissions::from_mode(0o755)).unwrap();
    fs::remove_dir_all(folder).unwrap();
}

#[test]
fn an_older_file_is_replaced_whole_or_not_at_all() {
    let desk = Desk::with(&[("f.pla", EXAMPLE), ("bad.pla", "x"), ("out.pla", "older")]);
    fs::set_permissions(desk.path("out.pla"), fs::Permissions::from_mode(0o640)).unwrap();
    // Another name of the older file shows that its bytes are not written over.
    fs::hard_link(desk.path("out.pla"), desk.path("older.pla")).unwrap();
    assert_eq!(desk.run(&["list", "bad.pla", "-o", "out.pla"]).status, 2);
    assert_eq!(desk.text("out.pla"), "older");
    assert_eq!(desk.run(&["list", "f.pla", "-o", "out.pla"]).status, 0);
    assert_eq!(desk.text("out.pla"), EXAMPLE_LIST);
    assert_eq!(desk.text("older.pla"), "older");
    let mode = fs::metadata(desk.path("out.pla"))
        .unwrap()
        .permissions()
        .mode();
    assert_eq!(mode & 0o777, 0o640);
    assert_eq!(
        desk.names("."),
        ["bad.pla", "f.pla", "older.pla", "out.pla"]
    );
}

#[test]
fn the_function_is_not_written_over() {
    let desk = Desk::with(&[("f.pla", EXAMPLE)]);
    let said = "./f.pla: not written, it is the function itself\n";
    assert_eq!(
        desk.run(&["list", "f.pla", "-o", "./f.pla"]),
        run(2, "", said)
    );
    assert_eq!(desk.text("f.pla"), EXAMPLE);
}

#[test]
fn a_device_is_written_to_and_stays_one() {
    let desk = Desk::with(&[("f.pla", EXAMPLE)]);
    assert_eq!(desk.run(&["list", "f.pla", "-o", "/dev/null"]).status, 0);
    let device = fs::metadata("/dev/null").unwrap().file_type();
    assert!(device.is_char_device());
}

#[test]
fn a_full_output_is_told() {
    let full = fs::OpenOptions::new()
        .write(true)
        .open("/dev/full")
        .unwrap();
    let desk = Desk::with(&[("f.pla", EXAMPLE)]);
    let output = std::process::Command::new(env!("CARGO_BIN_EXE_dowrhesk"))
        .args(["list", "f.pla"])
        .current_dir(&desk.folder)
        .stdout(full)
        .output()
        .unwrap();
    assert_eq!(output.status.code(), Some(2));
    let said = String::from_utf8(output.stderr).unwrap();
    assert!(
        said.contains("standard output: cannot be written: No space left"),
        "{said}"
    );
}
