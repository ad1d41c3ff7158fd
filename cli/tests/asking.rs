//! The words of the command line: help, and what is wrong with them.

mod common;

use common::Desk;

#[test]
fn help_on_every_command() {
    let desk = Desk::new();
    for (words, first) in [
        (&["--help"][..], "Dowrhesk makes a list of rows"),
        (&["-h"], "Dowrhesk makes a list of rows"),
        (&["help"], "Dowrhesk makes a list of rows"),
        (&["list", "--help"], "use: dowrhesk list FUNCTION.pla"),
        (
            &["check", "--help"],
            "use: dowrhesk check FUNCTION.pla LIST",
        ),
        (&["check", "no.pla", "-h"], "use: dowrhesk check FUNCTION"),
        (&["release", "--help"], "use: dowrhesk release FOLDER"),
    ] {
        let run = desk.run(words);
        assert_eq!((run.status, &*run.err), (0, ""), "{words:?}");
        assert!(run.out.starts_with(first), "{words:?}: {}", run.out);
        assert!(run.out.ends_with('\n') && !run.out.ends_with("\n\n"));
        assert!(run.out.contains("exit status:"));
        assert!(run.out.lines().all(|line| line.chars().count() <= 90));
    }
}

#[test]
fn help_explains_the_names_of_a_release() {
    let run = Desk::new().run(&["release", "--help"]);
    for name in ["NAME.pla", "NAME.WORD.pla", "NAME.old.pla", "NAME.new.pla"] {
        assert!(run.out.contains(name), "{name}");
    }
}

#[test]
fn wrong_words_are_told_with_the_help_to_read() {
    let desk = Desk::new();
    for (words, said) in [
        (&[][..], "no command is given; see `dowrhesk --help`"),
        (&["lst"], "there is no command `lst`; see `dowrhesk --help`"),
        (
            &["list"],
            "list takes one function; see `dowrhesk list --help`",
        ),
        (
            &["list", "a", "b"],
            "list takes one function; see `dowrhesk list --help`",
        ),
        (
            &["list", "a", "-o"],
            "list takes one file after -o; see `dowrhesk list --help`",
        ),
        (
            &["list", "a", "--html", "b"],
            "list knows no option `--html`; see `dowrhesk list --help`",
        ),
        (
            &["check", "a"],
            "check takes a function and one list or more; see `dowrhesk check --help`",
        ),
        (
            &["check", "-", "-"],
            "check can take standard input (-) only once; see `dowrhesk check --help`",
        ),
        (
            &["check", "a", "b", "-o", "c"],
            "check knows no option `-o`; see `dowrhesk check --help`",
        ),
        (
            &["release"],
            "release takes one folder; see `dowrhesk release --help`",
        ),
        (
            &["release", "a", "--html", "a/f.pla"],
            "release writes its page to a file of its own; see `dowrhesk release --help`",
        ),
        (
            &["release", "a", "--html", "-"],
            "release writes its page to a file of its own; see `dowrhesk release --help`",
        ),
        (
            &["release", "a", "--plain"],
            "release knows no option `--plain`; see `dowrhesk release --help`",
        ),
    ] {
        let expected = common::run(2, "", &format!("dowrhesk: {said}\n"));
        assert_eq!(desk.run(words), expected, "{words:?}");
    }
}

#[test]
fn after_two_dashes_every_word_is_a_file() {
    let desk = Desk::with(&[("--plain", common::EXAMPLE)]);
    let run = desk.run(&["list", "--", "--plain"]);
    assert_eq!((run.status, &*run.out), (0, common::EXAMPLE_LIST));
}
