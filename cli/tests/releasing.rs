//! `dowrhesk release` as a person uses it, without its page.

mod common;

use common::{run, Desk, EXAMPLE, EXAMPLE_LIST};
use std::fs;

const FAULTY: &str = ".i 2\n.o 1\n-1 1\n-- 1\n.e\n";

#[test]
fn old_and_new_lists_of_a_folder() {
    let desk = Desk::with(&[
        ("line/gate.pla", EXAMPLE),
        ("line/gate.old.pla", FAULTY),
        ("line/horn.pla", ".i 1\n.o 1\n1 1\n.e\n"),
        ("line/horn.old.pla", ".i 1\n.o 1\n1 1\n.e\n"),
        ("line/lamp.pla", ".i 3\n.o 1\n.e\n"),
        ("line/notes.txt", "passed over"),
        ("line/.hidden.pla", "passed over"),
    ]);
    let released = desk.run(&["release", "line"]);
    let table = "\
line/gate.old.pla:4: row 2 \"-- 1\" covers point 00, where the function is off
function  columns  list  rows  literals  verdict
gate            2  old      2         1  faulty: covers an off point
                   new      2         2  accepted
horn            1  old      1         1  accepted
                   new      1         1  accepted
lamp            3  new      0         0  accepted
3 functions: 4 lists accepted, 1 faulty
";
    assert_eq!(released, run(1, table, ""));
    assert_eq!(desk.text("line/gate.new.pla"), EXAMPLE_LIST);
    assert_eq!(desk.text("line/gate.old.pla"), FAULTY);
    assert_eq!(desk.text("line/lamp.new.pla"), ".i 3\n.o 1\n.p 0\n.e\n");
    let names = desk.names("line");
    assert_eq!(names.len(), 10, "{names:?}");
    // A second release finds the new lists and makes them anew.
    assert_eq!(desk.run(&["release", "line"]), released);
}

#[test]
fn old_and_new_may_differ_and_both_be_honest() {
    let desk = Desk::with(&[
        (
            "f.pla",
            ".i 3\n.o 1\n001 1\n010 1\n011 1\n100 1\n101 1\n110 1\n.e\n",
        ),
        ("f.old.pla", ".i 3\n.o 1\n01- 1\n-01 1\n1-0 1\n.e\n"),
    ]);
    let table = "\
function  columns  list  rows  literals  verdict
f               3  old      3         6  accepted
                   new      4         8  accepted
1 function: 2 lists accepted, 0 faulty
";
    assert_eq!(desk.run(&["release", "."]), run(0, table, ""));
}

#[test]
fn what_is_refused_is_told_and_the_rest_is_done() {
    let desk = Desk::with(&[
        ("bad.pla", ".i 2\n.o 1\n0 1\n.e\n"),
        ("bad.old.pla", EXAMPLE_LIST),
        ("good.pla", EXAMPLE),
        ("good.old.pla", ".i 3\n.o 1\n.e\n"),
        ("nodes.pla", &common::too_many_records()),
        ("rows.pla", &common::too_many_rows()),
        ("stray.old.pla", EXAMPLE_LIST),
    ]);
    let released = desk.run(&["release", "."]);
    let out = "\
function  columns  list  rows  literals  verdict
bad             -  -        -         -  refused: text fault (11)
good            2  old      -         -  refused: text fault (11)
                   new      2         2  accepted
nodes           -  -        -         -  refused: node room lacking (7)
rows           16  new      -         -  refused: list longer than its room (8)
4 functions: 1 list accepted, 0 faulty, 2 refused; 2 functions refused
";
    let err = "\
./stray.old.pla: a list without its function beside it
./bad.pla:3: text fault (11)
    0 1
./good.old.pla:1: text fault (11)
    .i 3
./nodes.pla: node room lacking (7): more than 4,096 records are needed, there are 4,096
./rows.pla: list longer than its room (8): 1,792 rows are needed, there is room for 1,536
";
    assert_eq!(released, run(2, out, err));
    assert!(desk.path("good.new.pla").exists());
    assert!(!desk.path("bad.new.pla").exists() && !desk.path("rows.new.pla").exists());
}

#[test]
fn a_new_list_that_cannot_be_written() {
    let desk = Desk::with(&[("f.pla", EXAMPLE)]);
    fs::create_dir(desk.path("f.new.pla")).unwrap();
    let released = desk.run(&["release", "."]);
    assert_eq!(released.status, 2);
    let said = "./f.new.pla: cannot be written: Is a directory (os error 21)\n";
    assert_eq!(released.err, said);
    assert!(released.out.contains("new      -         -  not written\n"));
}

#[test]
fn folders_without_functions_and_no_folders() {
    let desk = Desk::with(&[("file", ""), ("empty/notes.txt", "")]);
    for (folder, said) in [
        ("empty", "empty: no function (NAME.pla) in this folder\n"),
        (
            "none",
            "none: cannot be read: No such file or directory (os error 2)\n",
        ),
        (
            "file",
            "file: cannot be read: Not a directory (os error 20)\n",
        ),
    ] {
        assert_eq!(desk.run(&["release", folder]), run(2, "", said));
    }
}

#[test]
fn the_binary_and_check_say_the_same() {
    let desk = Desk::with(&[("f.pla", EXAMPLE), ("f.old.pla", FAULTY)]);
    let released = desk.run(&["release", "."]);
    let checked = desk.run(&["check", "./f.pla", "./f.old.pla"]);
    assert_eq!(released.out.lines().next(), checked.out.lines().next());
}
