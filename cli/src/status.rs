//! The exit status. Of several, the greatest counts.

#[derive(Clone, Copy, PartialEq, Eq, PartialOrd, Ord, Debug)]
pub enum Status {
    /// All was done, and every list judged is accepted.
    Accepted = 0,
    /// A list was judged faulty.
    Faulty = 1,
    /// An input was refused, or could not be read or written.
    Refused = 2,
}
