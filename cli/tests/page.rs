//! The page of a release: what stands in it, and what a browser shows of it.

mod common;

use common::{run, top, Desk, EXAMPLE};
use std::fs;
use std::process::Command;

/// A desk with the repository's example in `line`, released with its page.
fn released() -> Desk {
    let desk = Desk::new();
    for file in [
        "reject_gate.pla",
        "reject_gate.old.pla",
        "reject_gate.mended.pla",
    ] {
        let text = fs::read_to_string(top().join("examples").join(file)).unwrap();
        desk.put(&format!("line/{file}"), &text);
    }
    let run = desk.run(&["release", "line", "--html", "page.html"]);
    assert_eq!((run.status, &*run.err), (1, ""));
    desk
}

#[test]
fn the_example_on_a_page() {
    let desk = released();
    let page = desk.text("page.html");
    assert_eq!(desk.names("."), ["line", "page.html"]);
    for part in [
        "<title>Release of line</title>",
        "1 function: 2 lists accepted, 1 faulty",
        "<td class=\"faulty\">faulty: covers an off point</td>",
        "<td class=\"accepted\">accepted</td>",
        "line/reject_gate.old.pla:11: row 3 &quot;1-01-- 1&quot; covers point 110100, where the \
         function is off",
    ] {
        assert!(page.contains(part), "{part}");
    }
    // The fault is marked in one map, on its point, with its row.
    assert_eq!(page.matches(" fault\" data-point").count(), 1);
    assert!(page.contains(
        "<td class=\"off fault\" data-point=\"110100\" title=\"point 110100: off, covered by row 3\">"
    ));
    assert_eq!(page.matches("<tr class=\"fault\">").count(), 1);
    // Three maps of 64 points: on, off and don't care as the function says, the same in each.
    assert_eq!(page.matches("data-point=").count(), 3 * 64);
    for (class, number) in [("on", 30), ("off", 26), ("care", 8)] {
        let opens = [
            format!("class=\"{class}\" data"),
            format!("class=\"{class} fault\" data"),
        ];
        let found: usize = opens
            .iter()
            .map(|open| page.matches(open.as_str()).count())
            .sum();
        assert_eq!(found, 3 * number, "{class}");
    }
}

#[test]
fn the_page_needs_nothing_else() {
    let page = released().text("page.html");
    for outside in ["http:", "https:", "src=", "<script", "@import", "url("] {
        assert!(!page.contains(outside), "{outside}");
    }
}

#[test]
fn names_are_not_read_as_html() {
    let desk = Desk::with(&[("line/a<b>&.pla", EXAMPLE)]);
    let run = desk.run(&["release", "line", "--html", "page.html"]);
    assert_eq!(run.status, 0);
    let page = desk.text("page.html");
    assert!(page.contains("a&lt;b&gt;&amp;") && !page.contains("a<b>"));
}

#[test]
fn every_kind_of_fault_and_refusal() {
    let list = |rows: &str| format!(".i 2\n.o 1\n{rows}.e\n");
    let wide = ".i 7\n.o 1\n1------ 1\n.e\n";
    let desk = Desk::with(&[
        ("line/f.pla", EXAMPLE),
        ("line/f.missing.pla", &list("1- 1\n")),
        ("line/f.literal.pla", &list("1- 1\n01 1\n")),
        ("line/f.cube.pla", &list("1- 1\n-1 1\n1- 1\n")),
        ("line/f.refused.pla", &list("11 0\n")),
        ("line/g.pla", "x"),
        ("line/one.pla", ".i 1\n.o 1\n1 1\n.e\n"),
        ("line/wide.pla", wide),
    ]);
    let run = desk.run(&["release", "line", "--html", "page.html"]);
    assert_eq!(run.status, 2);
    let page = desk.text("page.html");
    for part in [
        "<td class=\"on fault\" data-point=\"01\" title=\"point 01: on, covered by no row\">",
        "<td class=\"signs\"><mark>0</mark>1 1</td>",
        "<tr class=\"fault\"><td><span class=\"row c0\">1</span></td>",
        "<td class=\"refused\">refused: text fault (11)</td>",
        "line/g.pla:1: text fault (11)\n    x",
        "title=\"point 11: don&#39;t care, covered by rows 1, 2, 3\"",
        "<details><summary>the rows</summary>",
    ] {
        assert!(page.contains(part), "{part}\n{page}");
    }
    // Four lists of two columns with a map, one of one column, none of seven.
    assert_eq!(page.matches("data-point=").count(), 4 * 4 + 2);
}

#[test]
fn a_page_that_cannot_be_written() {
    let desk = Desk::with(&[("line/f.pla", EXAMPLE)]);
    let released = desk.run(&["release", "line", "--html", "none/page.html"]);
    let said = "none/page.html: cannot be written: No such file or directory (os error 2)\n";
    assert_eq!(released, run(2, &released.out, said));
}

/// The arguments of a browser without a window.
const HEADLESS: [&str; 6] = [
    "--headless",
    "--no-sandbox",
    "--disable-gpu",
    "--disable-dev-shm-usage",
    "--hide-scrollbars",
    "--window-size=1200,2600",
];

#[test]
fn a_browser_shows_it() {
    let desk = released();
    let address = format!("file://{}", desk.path("page.html").display());
    let browser = |asked: &[&str]| {
        Command::new("chromium")
            .args(HEADLESS)
            .arg(format!(
                "--user-data-dir={}",
                desk.path("browser").display()
            ))
            .args(asked)
            .arg(&address)
            .output()
    };
    let Ok(shown) = browser(&["--dump-dom"]) else {
        println!("skipped: chromium is not installed");
        return;
    };
    assert!(shown.status.success(), "{shown:?}");
    let shown = String::from_utf8(shown.stdout).unwrap();
    // The browser's own telling of the page, after it was read: nothing was repaired away.
    assert_eq!(shown.matches("data-point=").count(), 3 * 64);
    assert_eq!(shown.matches("class=\"off fault\"").count(), 1);
    assert!(shown.contains("covers point 110100, where the function is off"));
    let picture = desk.path("page.png");
    let taken = browser(&[&format!("--screenshot={}", picture.display())]).unwrap();
    assert!(taken.status.success(), "{taken:?}");
    let png = fs::read(picture).unwrap();
    assert!(png.starts_with(b"\x89PNG") && png.len() > 10_000);
}
