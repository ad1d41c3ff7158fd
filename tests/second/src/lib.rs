//! The second program: document 01 written down plainly, to hold other programs against.
//! Functions are truth tables and sets of nodes are sets of truth tables, so nothing here
//! rests on the ways of a node table. Rather simple than fast.
//!
//! From the bottom up: `point`, `cube`, `function` and `nodes` are the things themselves;
//! `table` is the lent row of records; `list` and `verdict` are the two rules; `line` and
//! `text` say what a text means; `operation`, `generator`, `checker`, `reading`, `candidate` and
//! `writing` are the entries with their refusals and what they leave behind; `programs` are the
//! two programs.

pub mod candidate;
pub mod checker;
pub mod cube;
pub mod function;
pub mod generator;
pub mod line;
pub mod list;
pub mod nodes;
pub mod operation;
pub mod point;
pub mod programs;
pub mod reading;
pub mod refusal;
pub mod table;
pub mod text;
pub mod verdict;
pub mod writing;
