//! The tables of `docs/SPEED.md`: each program and the generator, beside the second program and others.

use crate::generations::{self, GENERATIONS};
use crate::inputs::{hard, named};
use crate::measure::{best, instructions, own_instructions};
use crate::rivals::{self, Run};
use programs::corpus::{cases, Case};
use programs::process::Process;
use programs::program::{Program, ROOM};
use std::fs::{self, File};
use std::hint::black_box;
use std::path::PathBuf;
use std::time::Duration;

pub fn write() {
    println!("| program | input | bytes | answer | instructions | second program's | ratio | time | second program's | whole run | ABC, whole run | BuDDy, whole run | espresso, whole run |");
    println!("|---|---|---|---|---|---|---|---|---|---|---|---|---|");
    for case in named().iter().chain(&hard()) {
        program_row(case);
    }
    println!();
    println!("| generator | answer | instructions | second program's | ratio | time | second program's |");
    println!("|---|---|---|---|---|---|---|");
    GENERATIONS.iter().for_each(generation_row);
    println!();
    whole_corpus();
    if let Some(run) = rivals::abc_alone() {
        println!("ABC without any work: {}", time(run.time));
    }
}

/// An input in a file, for those that are run as processes.
fn file(case: &Case) -> PathBuf {
    let file = std::env::temp_dir().join(format!("bench-{}.pla", case.name));
    fs::write(&file, &case.input).unwrap();
    file
}

fn program_row(case: &Case) {
    let (program, input) = (case.program, &case.input);
    let told = program.by_second(input);
    program.assert_answer(input, ROOM, &told);
    let file = file(case);
    let proved = instructions(&program.built(), &[], "main", Some(&file));
    let second = own_instructions(&[program.name(), "second"], Some(&file));
    let by_library = best(|| drop(black_box(program.in_room(input, ROOM))));
    let by_second = best(|| drop(black_box(program.by_second(input))));
    let process = Process::of(program);
    let whole = best(|| drop(process.with_input(File::open(&file).unwrap())));
    let listing = program == Program::List;
    let abc = listing.then(|| rivals::abc(&file)).flatten();
    let buddy = listing.then(|| rivals::buddy(&file)).flatten();
    let espresso = listing.then(|| rivals::espresso(&file)).flatten();
    println!(
        "| `{}` | {} | {} | {} | {} | {} | {} | {} | {} | {} | {} | {} | {} |",
        program.name(),
        case.name,
        input.len(),
        short(&told),
        millions(proved),
        millions(second),
        ratio(proved, second),
        time(by_library),
        time(by_second),
        time(whole),
        other(abc),
        other(buddy),
        other(espresso)
    );
    fs::remove_file(file).unwrap();
}

fn generation_row(case: &generations::Case) {
    let asked = case.asked();
    let proved = own_instructions(&[case.name, "library"], None);
    let second = own_instructions(&[case.name, "second"], None);
    let by_library = best(|| case.right(&asked.by_library()));
    let by_second = best(|| case.right(&asked.by_second()));
    println!(
        "| {} | {} | {} | {} | {} | {} | {} |",
        case.name,
        case.answer(),
        millions(proved),
        millions(second),
        ratio(proved, second),
        time(by_library),
        time(by_second)
    );
}

/// All inputs of the corpus one after the other.
fn whole_corpus() {
    for program in Program::BOTH {
        let all: Vec<Case> = cases()
            .into_iter()
            .filter(|case| case.program == program)
            .collect();
        let by_library = best(|| {
            all.iter()
                .for_each(|case| drop(black_box(program.in_room(&case.input, ROOM))));
        });
        let by_second = best(|| {
            all.iter()
                .for_each(|case| drop(black_box(program.by_second(&case.input))));
        });
        println!(
            "The {} inputs of the corpus for `{}`: {}, second program {}",
            all.len(),
            program.name(),
            time(by_library),
            time(by_second)
        );
    }
}

/// An answer in a word: the rows of a list, or the line itself.
fn short(answer: &[u8]) -> String {
    let text = String::from_utf8_lossy(answer);
    let rows = text.lines().find_map(|line| line.strip_prefix(".p "));
    rows.map_or(text.trim().to_string(), |rows| format!("{rows} rows"))
}

pub fn millions(count: Option<u64>) -> String {
    count.map_or("-".into(), |count| format!("{:.2} M", count as f64 / 1e6))
}

pub fn ratio(proved: Option<u64>, second: Option<u64>) -> String {
    let (Some(proved), Some(second)) = (proved, second) else {
        return "-".into();
    };
    format!("{:.2}", second as f64 / proved as f64)
}

pub fn time(time: Duration) -> String {
    format!("{:.2} ms", time.as_secs_f64() * 1e3)
}

fn other(run: Option<Run>) -> String {
    let Some(run) = run else {
        return "-".into();
    };
    let rows = run
        .rows
        .map_or("no list".into(), |rows| format!("{rows} rows"));
    format!("{}, {rows}", time(run.time))
}
