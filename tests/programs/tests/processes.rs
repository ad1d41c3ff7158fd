//! The built programs as processes: 2,000 runs and more on random inputs, fed through pipes in one write,
//! in short ones and in slow ones; and what they do without an input, or without a place to write.

use compare::damage::change;
use compare::random::Random;
use compare::texts::{good, Form};
use programs::candidate::{with_candidate, Change};
use programs::process::{quiet, Feed, Process};
use programs::program::Program;
use std::fs::{File, OpenOptions};

const EXAMPLE: &[u8] = b".i 2\n.o 1\n01 1\n10 1\n11 -\n.e\n";

/// A way for an input to come, slow ones for short inputs alone.
fn some_feed(random: &mut Random, bytes: usize) -> Feed {
    match random.below(4) {
        0 => Feed::Short(1 + random.below(7)),
        1 if bytes < 200 => Feed::Slow(1 + bytes / 8),
        2 => Feed::Short(1 + bytes / 2),
        _ => Feed::Whole,
    }
}

/// A function text, for the second program with a candidate, and perhaps with a change.
fn some_input(random: &mut Random, program: Program) -> Vec<u8> {
    let (columns, rows) = (1 + random.below(6), random.below(9));
    let mut input = good(random, Form::Function, columns, rows).bytes();
    if program == Program::Check {
        let change = random.pick(&Change::ALL);
        input = with_candidate(&input, change, random.below(1_000));
    }
    if random.below(2) == 0 {
        change(random, &mut input);
    }
    input
}

fn random_runs(program: Program, seed: u64) {
    let process = Process::of(program);
    let mut random = Random::new(seed);
    for _ in 0..1_100 {
        let input = some_input(&mut random, program);
        let feed = some_feed(&mut random, input.len());
        process.assert_answer(feed, &input, &program.by_second(&input));
    }
}

#[test]
fn random_runs_of_the_first_program() {
    random_runs(Program::List, 211);
}

#[test]
fn random_runs_of_the_second_program() {
    random_runs(Program::Check, 212);
}

/// Inputs as long as may be, longer, and longer than a pipe holds.
#[test]
fn long_inputs() {
    for program in Program::BOTH {
        let process = Process::of(program);
        for bytes in [32_767, 32_768, 32_769, 65_536, 65_537, 200_000, 1_000_000] {
            let mut input = [EXAMPLE, EXAMPLE].concat();
            input.resize(bytes, b'\n');
            let told = program.by_second(&input);
            for feed in [Feed::Whole, Feed::Short(4_095), Feed::Slow(10_000)] {
                process.assert_answer(feed, &input, &told);
            }
        }
    }
}

#[test]
fn an_empty_input() {
    for program in Program::BOTH {
        Process::of(program).assert_answer(Feed::Whole, b"", b"refused 11 1\n");
    }
}

/// Standard input closed, a folder, or open for writing alone: each counts as empty.
#[test]
fn an_input_that_cannot_be_read() {
    for program in Program::BOTH {
        let process = Process::of(program);
        let folder = File::open(env!("CARGO_MANIFEST_DIR")).unwrap();
        let written_alone = OpenOptions::new().write(true).open("/dev/null").unwrap();
        for output in [
            process.with_closed_input(),
            process.with_input(folder),
            process.with_input(written_alone),
        ] {
            assert!(quiet(&output));
            assert_eq!(output.stdout, b"refused 11 1\n");
        }
    }
}

/// A device that takes nothing: the program ends and says nothing.
#[test]
fn an_output_that_is_full() {
    for program in Program::BOTH {
        let full = OpenOptions::new().write(true).open("/dev/full").unwrap();
        assert!(quiet(&Process::of(program).with_output(EXAMPLE, full)));
    }
}
