//! `dowrhesk check` as a person uses it.

mod common;

use common::{run, Desk, EXAMPLE, EXAMPLE_LIST};

const DIRECTIVES: &str = "# old\n.i 2\n.o 1\n\n";

/// A list whose first row is in line 5.
fn list(rows: &str) -> String {
    format!("{DIRECTIVES}{rows}.e\n")
}

#[test]
fn each_verdict_in_words_and_plain() {
    for (rows, status, said, plain) in [
        (
            "1- 1\n-1 1\n",
            0,
            "old.pla: accepted, 2 rows, 2 literals",
            "accept",
        ),
        (
            "-1 1\n# all\n\t22\t1 # dashes\n",
            1,
            "old.pla:7: row 2 \"22 1\" covers point 00, where the function is off",
            "off 2 00",
        ),
        (
            "1- 1\n",
            1,
            "old.pla: no row covers point 01, where the function is on",
            "missing 01",
        ),
        (
            "1- 1\n01   1\n",
            1,
            "old.pla:6: row 2 \"01   1\" has a literal too many in column 1: \
             without it no off point is covered",
            "literal 2 1",
        ),
        (
            "1- 1\n-1 1\n1- 1\n",
            1,
            "old.pla:5: row 1 \"1- 1\" is a row too many: \
             without it every on point is still covered",
            "cube 1",
        ),
    ] {
        let desk = Desk::with(&[("f.pla", EXAMPLE), ("old.pla", &list(rows))]);
        let words = desk.run(&["check", "f.pla", "old.pla"]);
        assert_eq!(words, run(status, &format!("{said}\n"), ""));
        let short = desk.run(&["check", "--plain", "f.pla", "old.pla"]);
        assert_eq!(short, run(status, &format!("{plain}\n"), ""));
    }
}

#[test]
fn the_greatest_status_of_several_lists_counts() {
    let desk = Desk::with(&[
        ("f.pla", EXAMPLE),
        ("good.pla", EXAMPLE_LIST),
        ("bad.pla", &list("1- 1\n")),
        ("fault.pla", ".i 2\n.o 1\n01 -\n"),
    ]);
    let good = "good.pla: accepted, 2 rows, 2 literals\n";
    let bad = "bad.pla: no row covers point 01, where the function is on\n";
    let fault = "fault.pla:3: text fault (11)\n    01 -\n";
    let none = "none.pla: cannot be read: No such file or directory (os error 2)\n";
    let check = |files: &[&str]| desk.run(&[&["check", "f.pla"], files].concat());
    assert_eq!(
        check(&["good.pla", "good.pla"]),
        run(0, &good.repeat(2), "")
    );
    assert_eq!(
        check(&["good.pla", "bad.pla", "good.pla"]),
        run(1, &format!("{good}{bad}{good}"), "")
    );
    assert_eq!(
        check(&["bad.pla", "fault.pla", "none.pla", "good.pla"]),
        run(2, &format!("{bad}{good}"), &format!("{fault}{none}"))
    );
    assert_eq!(
        check(&["--plain", "bad.pla", "fault.pla", "good.pla"]),
        run(2, "missing 01\nrefused 11 3\naccept\n", "")
    );
}

#[test]
fn standard_input_is_the_function_or_a_list() {
    let desk = Desk::with(&[("f.pla", EXAMPLE), ("good.pla", EXAMPLE_LIST)]);
    let accepted = "good.pla: accepted, 2 rows, 2 literals\n";
    assert_eq!(
        desk.run_with(&["check", "-", "good.pla"], EXAMPLE),
        run(0, accepted, "")
    );
    let said = "standard input:3: row 1 \"-- 1\" covers point 00, where the function is off\n";
    assert_eq!(
        desk.run_with(&["check", "f.pla", "-"], ".i 2\n.o 1\n-- 1"),
        run(1, said, "")
    );
}

#[test]
fn the_function_is_refused_first() {
    let desk = Desk::with(&[
        ("bad.pla", ".i 2\n.o 1\n.type fr\n01 1\n0- 0\n"),
        ("list.pla", "x"),
    ]);
    assert_eq!(
        desk.run(&["check", "bad.pla", "list.pla", "none.pla"]),
        run(2, "", "bad.pla: a point is both on and off (12)\n")
    );
    assert_eq!(
        desk.run(&["check", "bad.pla", "list.pla", "list.pla", "--plain"]),
        run(2, "refused 12 0\nrefused 12 0\n", "")
    );
    assert_eq!(
        desk.run(&["check", "none.pla", "list.pla"]),
        run(
            2,
            "",
            "none.pla: cannot be read: No such file or directory (os error 2)\n"
        )
    );
}

#[test]
fn lists_are_refused_in_words() {
    let rows = format!(".i 1\n.o 1\n{}.e\n", "1 1\n".repeat(1_537));
    let desk = Desk::with(&[
        ("f.pla", ".i 1\n.o 1\n1 1\n.e\n"),
        ("nodes.pla", &common::too_many_records()),
        ("rows.pla", &rows),
        ("other.pla", EXAMPLE_LIST),
        ("count.pla", ".i 1\n.o 1\n.p 2\n1 1\n.e\n"),
        ("long.pla", &"#".repeat(32_769)),
    ]);
    for (list, said, plain) in [
        (
            "rows.pla",
            "rows.pla: list longer than its room (8): 1,537 rows are needed, there is room for 1,536\n",
            "refused 8 1537\n",
        ),
        ("other.pla", "other.pla:1: text fault (11)\n    .i 2\n", "refused 11 1\n"),
        ("count.pla", "count.pla:5: text fault (11)\n    .e\n", "refused 11 5\n"),
        ("long.pla", "long.pla: text over 32,768 bytes (10)\n", "refused 10 0\n"),
    ] {
        assert_eq!(desk.run(&["check", "f.pla", list]), run(2, "", said));
        let short = desk.run(&["check", "f.pla", list, "--plain"]);
        assert_eq!(short, run(2, plain, ""));
    }
    let said =
        "nodes.pla: node room lacking (7): more than 4,096 records are needed, there are 4,096\n";
    assert_eq!(desk.run(&["check", "nodes.pla", "f.pla"]), run(2, "", said));
}

#[test]
fn a_long_function_and_a_long_list() {
    // Each fits by itself; the program takes both as one input, and there they do not.
    let text = common::a_full_room();
    let desk = Desk::with(&[("f.pla", &text)]);
    assert_eq!(desk.run(&["list", "f.pla", "-o", "list.pla"]).status, 0);
    let words = desk.run(&["check", "f.pla", "list.pla"]);
    assert_eq!((words.status, &*words.err), (0, ""));
    assert!(words.out.starts_with("list.pla: accepted, 1,536 rows, "));
    let plain = desk.run(&["check", "f.pla", "list.pla", "--plain"]);
    assert_eq!(plain, run(2, "refused 10 0\n", ""));
}

#[test]
fn plain_joins_the_texts_at_the_end_of_the_function() {
    let bare = ".i 2\n.o 1\n01 1\n10 1\n11 -";
    for function in [
        bare.to_string(),
        format!("{bare}\n"),
        format!("{bare}\n.e"),
        format!("{bare}\n \t.e # the end\nunread\n.e\n"),
    ] {
        let desk = Desk::with(&[("f.pla", &function), ("l.pla", EXAMPLE_LIST)]);
        let plain = desk.run(&["check", "--plain", "f.pla", "l.pla"]);
        assert_eq!(plain, run(0, "accept\n", ""), "{function}");
    }
    // The line of a fault that is known only at the end stays what it is.
    for (function, line) in [(".i 2", 2), (".i 2\n", 2), (".i 2\n.e\nx\n", 2), ("", 1)] {
        let desk = Desk::with(&[("f.pla", function), ("l.pla", EXAMPLE_LIST)]);
        let plain = desk.run(&["check", "--plain", "f.pla", "l.pla"]);
        assert_eq!(plain, run(2, &format!("refused 11 {line}\n"), ""));
        let words = desk.run(&["check", "f.pla", "l.pla"]);
        assert!(words
            .err
            .starts_with(&format!("f.pla:{line}: text fault (11)\n")));
    }
}
