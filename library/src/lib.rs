//! Dowrhesk for Rust: the proved static library behind safe functions. Its caller writes no `unsafe`.
//!
//! `Function` is a function text read into a node table, with its list and its verdicts; `Table` is a
//! node table with its operations; `read_candidate` and `write_list` are the texts of lists; and
//! `list_answer` and `check_answer` are the two programs. Answers are values or a `Refused`, which
//! carries document 01's number. Whoever lends the memory calls `numbers`, where every exported
//! function stands on slices and numbers, or `rows`, where a node table is a row of records.
//!
//! Nothing is decided here: every function calls the library and tells what it said.
//!
//! ```
//! use dowrhesk::{Function, Verdict, MOST_RECORDS};
//!
//! let text = b".i 2\n.o 1\n01 1\n10 1\n11 -\n.e\n";
//! let mut function = Function::read(text, MOST_RECORDS).unwrap();
//! let list = function.list(16).unwrap();
//! let written = dowrhesk::write_list(function.columns(), &list).unwrap();
//! assert_eq!(written, b".i 2\n.o 1\n.p 2\n1- 1\n-1 1\n.e\n");
//! assert_eq!(function.check(&list), Ok(Verdict::Accept));
//! ```

mod answer;
mod exports;
mod function;
mod list;
pub mod numbers;
mod program;
pub mod rows;
mod table;

pub use answer::{Refusal, Refused, Verdict};
pub use function::{Function, Sign};
pub use list::{literals, read_candidate, write_list};
pub use program::{check_answer, list_answer, ANSWER_ROOM};
pub use table::Table;

/// The most columns of anything.
pub const MOST_COLUMNS: u16 = 16;
/// The most records of a table.
pub const MOST_RECORDS: usize = 4_096;
/// The most cubes of a list slice.
pub const MOST_CUBES: usize = 16_384;
/// The most bytes of a text.
pub const MOST_BYTES: usize = 32_768;
