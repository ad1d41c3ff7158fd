//! What was asked of the speed: the generator against its plain version, in instructions and in time
//! within one run; the 32 KB text and the greatest lists of the checker in time. Nothing is asserted.

use crate::generations::{Case, GENERATIONS};
use crate::inputs::runs_of_four;
use crate::lists::CASES;
use crate::measure::{best, own_instructions};
use crate::speed::{millions, ratio, time};
use programs::program::{Program, ROOM};
use std::hint::black_box;
use std::time::Duration;

/// How many times faster than plainly each list is to be generated.
const TIMES: [(&str, f64); 3] = [
    ("threshold_8_of_16", 20.0),
    ("parity_16", 50.0),
    ("9sym", 5.0),
];

/// The time that a list of the checker may take, in milliseconds.
const CHECKS: [(&str, u64); 2] = [("dashes", 60), ("threshold", 40)];

/// The time that the 32 KB text may take, in milliseconds.
const TEXT: u64 = 100;

pub fn write() {
    println!("| generated | asked | instructions, plain | instructions | ratio | time, plain | time | ratio |");
    println!("|---|---|---|---|---|---|---|---|");
    for (name, times) in TIMES {
        let case = GENERATIONS.iter().find(|case| case.name == name).unwrap();
        generation_row(case, times);
    }
    println!();
    println!("| call | asked | time | asked and met |");
    println!("|---|---|---|---|");
    let text = runs_of_four();
    let reading = best(|| drop(black_box(Program::List.in_room(&text, ROOM))));
    limit_row("`pla_list` on the 32 KB text", TEXT, reading);
    for (name, most) in CHECKS {
        let case = CASES.iter().find(|case| case.name == name).unwrap();
        limit_row(&format!("checker, {name}"), most, case.by_library());
    }
}

fn generation_row(case: &Case, times: f64) {
    let asked = case.asked();
    let plain = own_instructions(&[case.name, "plain"], None);
    let proved = own_instructions(&[case.name, "library"], None);
    let plain_time = best(|| drop(black_box(case.plainly(&asked))));
    let proved_time = best(|| case.right(&asked.by_library()));
    println!(
        "| {} | {times} times | {} | {} | {} | {} | {} | {:.1} |",
        case.name,
        millions(plain),
        millions(proved),
        ratio(proved, plain),
        time(plain_time),
        time(proved_time),
        plain_time.as_secs_f64() / proved_time.as_secs_f64()
    );
}

fn limit_row(call: &str, most: u64, taken: Duration) {
    let met = if taken < Duration::from_millis(most) {
        "yes"
    } else {
        "no"
    };
    println!("| {call} | under {most} ms | {} | {met} |", time(taken));
}
