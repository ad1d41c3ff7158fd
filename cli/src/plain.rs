//! The proved programs' own answers.

use crate::status::Status;
use dowrhesk::{check_answer, read_candidate};

/// The line that the program writes for a function and a list, and what it means.
pub fn checked(function: &[u8], list: &[u8]) -> (Vec<u8>, Status) {
    let answer = check_answer(&one_input(function, list));
    let status = match &answer[..] {
        b"accept\n" => Status::Accepted,
        answer if is_refusal(answer) => Status::Refused,
        _ => Status::Faulty,
    };
    (answer, status)
}

/// Whether an answer is a refusal's.
pub fn is_refusal(answer: &[u8]) -> bool {
    answer.starts_with(b"refused ")
}

/// The one input that the program has: the function text up to its `.e` line, which is added where
/// it is missing, and then the list.
fn one_input(function: &[u8], list: &[u8]) -> Vec<u8> {
    let mut input = Vec::new();
    for line in function.split_inclusive(|&byte| byte == b'\n') {
        input.extend(line.strip_suffix(b"\n").unwrap_or(line));
        input.push(b'\n');
        if ends(line) {
            return [input, list.to_vec()].concat();
        }
    }
    [&input, &b".e\n"[..], list].concat()
}

/// Whether a line ends a text: the library does not read what follows it, be it a fault.
fn ends(line: &[u8]) -> bool {
    read_candidate(1, &[b".i 1\n.o 1\n", line, b"\nx\n"].concat(), 0).is_ok()
}
