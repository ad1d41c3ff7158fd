//! The two proved programs held against the second program: as processes, and in process by the
//! exports of their answers.
//!
//! `program` is one of the two, asked in each way; `process` runs a built one with its input fed in
//! some way; `formula` makes the texts of functions given by formulas; `candidate` changes lists;
//! `corpus` names the texts of the corpus, whose files `cargo run --bin corpus` writes anew.

pub mod candidate;
pub mod corpus;
pub mod formula;
pub mod process;
pub mod program;
