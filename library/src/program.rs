//! The answers of document 01's two programs, from input bytes to output bytes.

use crate::numbers;

/// The bytes that every answer fits.
pub const ANSWER_ROOM: usize = 29_206;

/// The first program: a function text gives its list, or `refused N M`.
pub fn list_answer(input: &[u8]) -> Vec<u8> {
    let mut answer = vec![0; ANSWER_ROOM];
    let bytes = numbers::list_answer(input, &mut answer);
    answer.truncate(bytes);
    answer
}

/// The second program: a function text and a candidate after its `.e` give a verdict's line, or
/// `refused N M`.
pub fn check_answer(input: &[u8]) -> Vec<u8> {
    let mut answer = vec![0; ANSWER_ROOM];
    let bytes = numbers::check_answer(input, &mut answer);
    answer.truncate(bytes);
    answer
}
