//! The proved library held against the second program: the same call of both, and every number of
//! the answer and of what was lent has to be the same.
//!
//! `library` calls the static library on three slices, `rows` on a row of records, and what either
//! gives has to be what the other gives; `call` is one call of an operation as both answer it,
//! `generation` one of the generator, `check` one of the checker and `text_entry` one of an entry for
//! texts; `tables` makes tables that keep their rule, and breaks them in one place; `functions` makes
//! functions with don't cares, and lays them into tables; `lists` changes lists; `faults` puts
//! the faults into a call that generator and checker refuse alike; `texts` makes texts
//! without fault, `damage` those with one fault or some, and `reader` reads them in every way; `random`
//! and `tally` serve the tests.

pub mod call;
pub mod check;
pub mod damage;
pub mod faults;
pub mod functions;
pub mod generation;
pub mod lists;
pub mod random;
pub mod reader;
pub mod tables;
pub mod tally;
pub mod text_entry;
pub mod texts;

pub use dowrhesk::numbers as library;
pub use dowrhesk::rows;
