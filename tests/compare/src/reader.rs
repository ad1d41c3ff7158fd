//! A reader of texts: each is read in every way, by both programs, and counted once.

use crate::functions::room;
use crate::random::Random;
use crate::tables::lent;
use crate::tally::Tally;
use crate::text_entry::{Candidate, FunctionText};
use second::reading::need;
use second::text::{read, Asked, Text};
use std::collections::HashSet;

/// Numbers of columns that no text has.
const NO_COLUMNS: [u16; 4] = [0, 17, 18, 65_535];

pub struct Reader {
    pub random: Random,
    pub tally: Tally,
    seen: HashSet<Vec<u8>>,
}

impl Reader {
    pub fn new(seed: u64) -> Reader {
        Reader {
            random: Random::new(seed),
            tally: Tally::new(),
            seen: HashSet::new(),
        }
    }

    /// Reads a text of a kind, made for so many columns. A text that was read before is passed over.
    pub fn read(&mut self, kind: &'static str, columns: usize, text: Vec<u8>) {
        if self.seen.contains(&text) {
            return;
        }
        self.tally.note_text(kind);
        let told = read(&text, Asked::Function);
        self.read_function(kind, &text, told.as_ref());
        self.read_candidate(kind, columns, &text, told.as_ref());
        self.seen.insert(text);
    }

    /// Reads it as a function text: into tables that what it names fits, exactly or with records left,
    /// and into smaller ones.
    fn read_function(&mut self, kind: &'static str, text: &[u8], told: Result<&Text, &usize>) {
        let lengths = told.map_or(vec![self.random.below(6)], |told| {
            let need = need(told);
            let (more, fewer) = (self.random.below(4), self.random.below(need + 1));
            vec![need + more, need, need.saturating_sub(1), fewer]
        });
        for length in lengths {
            let table = lent(&mut self.random, &[], length);
            self.tally.ask(kind, &FunctionText { text, table });
        }
    }

    /// Reads it as a candidate for its columns, for other ones, and for none: into rooms that the
    /// rows fit, exactly or with places left, and into smaller ones.
    fn read_candidate(
        &mut self,
        kind: &'static str,
        columns: usize,
        text: &[u8],
        told: Result<&Text, &usize>,
    ) {
        let (own, rows) = told.map_or((columns, 3), |told| (told.columns, told.rows.len()));
        let other = 1 + self.random.below(16) as u16;
        let no_columns = self.random.pick(&NO_COLUMNS);
        let mut rooms = vec![rows + self.random.below(4)];
        if told.is_ok() {
            rooms.extend([rows, rows.saturating_sub(1), self.random.below(rows + 1)]);
        }
        for cubes in rooms {
            for columns in [own as u16, other, no_columns] {
                let room = room(&mut self.random, cubes);
                let candidate = Candidate {
                    columns,
                    text,
                    room,
                };
                self.tally.ask(kind, &candidate);
            }
        }
    }
}
