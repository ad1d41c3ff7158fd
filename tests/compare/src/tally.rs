//! How many calls of each kind a test has made, so that no kind is left out in silence.

use crate::call::{Asked, Call, Outcome};
use crate::check::{Check, Judged};
use crate::generation::{Generation, Listed};
use crate::text_entry::{Entry, Given};
use std::collections::BTreeMap;

/// What a generation is counted as, beside the operations.
const GENERATE: &str = "generate";
/// And what a check is counted as.
const CHECK: &str = "check";
/// And what a text is counted as, however often it is read.
const TEXT: &str = "text";

/// A name for each number that is returned.
pub const NUMBERS: [&str; 14] = [
    "done",
    "refused 1",
    "refused 2",
    "refused 3",
    "refused 4",
    "refused 5",
    "refused 6",
    "refused 7",
    "refused 8",
    "refused 9",
    "refused 10",
    "refused 11",
    "refused 12",
    "refused 13",
];

/// A name for each number of columns.
pub const COLUMNS: [&str; 17] = [
    "0 columns",
    "1 column",
    "2 columns",
    "3 columns",
    "4 columns",
    "5 columns",
    "6 columns",
    "7 columns",
    "8 columns",
    "9 columns",
    "10 columns",
    "11 columns",
    "12 columns",
    "13 columns",
    "14 columns",
    "15 columns",
    "16 columns",
];

#[derive(Default)]
pub struct Tally {
    counts: BTreeMap<(&'static str, &'static str), usize>,
    calls: usize,
    on_rows: usize,
    texts: usize,
}

impl Tally {
    pub fn new() -> Tally {
        Tally::default()
    }

    /// Makes a call of a kind, by both programs, and counts it.
    pub fn call(&mut self, kind: &'static str, call: &Call) -> Outcome {
        let outcome = call.outcome();
        self.note(kind, call.asked);
        self.made(|| call.holds_on_row(&outcome));
        outcome
    }

    /// Counts one more thing that happened to an operation, besides its call.
    pub fn note(&mut self, kind: &'static str, asked: Asked) {
        self.count(kind, asked.name());
    }

    /// Makes a generation of a kind, by both programs, and counts it.
    pub fn generate(&mut self, kind: &'static str, generation: &Generation) -> Listed {
        let listed = generation.listed();
        self.note_generation(kind);
        self.made(|| generation.holds_on_row(&listed));
        listed
    }

    /// Counts one more thing that is so of a generation.
    pub fn note_generation(&mut self, kind: &'static str) {
        self.count(kind, GENERATE);
    }

    /// Makes a check of a kind, by both programs, and counts it, and its answer.
    pub fn check(&mut self, kind: &'static str, check: &Check) -> Judged {
        let judged = check.judged();
        self.note_check(kind);
        self.note_check(judged.name());
        self.made(|| check.holds_on_row(&judged));
        judged
    }

    /// Counts one more thing that is so of a check.
    pub fn note_check(&mut self, kind: &'static str) {
        self.count(kind, CHECK);
    }

    /// Calls an entry for texts, by both programs, and counts the call and the number returned.
    pub fn ask<E: Entry>(&mut self, kind: &'static str, entry: &E) -> Given<E::Lent> {
        let given = entry.given();
        self.count(kind, E::NAME);
        self.count(NUMBERS[given.number as usize], E::NAME);
        self.made(|| entry.holds_on_row(&given));
        given
    }

    /// Counts one more text of a kind.
    pub fn note_text(&mut self, kind: &'static str) {
        self.count(kind, TEXT);
        self.texts += 1;
    }

    fn count(&mut self, kind: &'static str, operation: &'static str) {
        *self.counts.entry((kind, operation)).or_default() += 1;
    }

    /// One more call was made; where its table can be a row of records, on a row too.
    fn made(&mut self, holds_on_row: impl FnOnce() -> bool) {
        self.calls += 1;
        self.on_rows += usize::from(holds_on_row());
    }

    pub fn calls(&self) -> usize {
        self.calls
    }

    /// How many of the calls were made on a row of records too.
    pub fn on_rows(&self) -> usize {
        self.on_rows
    }

    pub fn texts(&self) -> usize {
        self.texts
    }

    /// Each of the kinds was called at least so often, of each of the operations.
    pub fn assert_each(&self, kinds: &[&'static str], operations: &[&'static str], least: usize) {
        for &kind in kinds {
            for &operation in operations {
                let found = self.counts.get(&(kind, operation)).copied().unwrap_or(0);
                assert!(found >= least, "{kind}, {operation}: {found} calls");
            }
        }
    }

    /// The same for generations.
    pub fn assert_generated(&self, kinds: &[&'static str], least: usize) {
        self.assert_each(kinds, &[GENERATE], least);
    }

    /// The same for checks; a kind may be the name of an answer.
    pub fn assert_checked(&self, kinds: &[&'static str], least: usize) {
        self.assert_each(kinds, &[CHECK], least);
    }

    /// The same for texts.
    pub fn assert_texts(&self, kinds: &[&'static str], least: usize) {
        self.assert_each(kinds, &[TEXT], least);
    }

    /// An entry for texts returned each of the numbers at least so often.
    pub fn assert_returned<E: Entry>(&self, numbers: &[u32], least: usize) {
        for &number in numbers {
            self.assert_each(&[NUMBERS[number as usize]], &[E::NAME], least);
        }
    }

    /// The same for every operation.
    pub fn assert_every(&self, kinds: &[&'static str], least: usize) {
        self.assert_each(kinds, &Asked::NAMES, least);
    }
}
