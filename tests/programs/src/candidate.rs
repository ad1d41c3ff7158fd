//! Candidates: the list of a text as the second program makes it, whole or changed in one place.

use second::programs::list_program;

/// What becomes of a list.
#[derive(Clone, Copy, PartialEq, Eq, Debug)]
pub enum Change {
    /// Nothing.
    None,
    /// Its rows the other way round.
    Reversed,
    /// A row is missing.
    RowMissing,
    /// A row stands twice.
    RowDoubled,
    /// A literal becomes a dash.
    LiteralMissing,
    /// A dash becomes a literal.
    LiteralAdded,
    /// A literal becomes the other.
    LiteralTurned,
}

impl Change {
    pub const ALL: [Change; 7] = [
        Change::None,
        Change::Reversed,
        Change::RowMissing,
        Change::RowDoubled,
        Change::LiteralMissing,
        Change::LiteralAdded,
        Change::LiteralTurned,
    ];

    /// The rows changed at a place, which is any number. Where there is nothing to change, they stay.
    pub fn of(self, mut rows: Vec<Vec<u8>>, place: usize) -> Vec<Vec<u8>> {
        if rows.is_empty() {
            return rows;
        }
        let at = place % rows.len();
        match self {
            Change::None => {}
            Change::Reversed => rows.reverse(),
            Change::RowMissing => drop(rows.remove(at)),
            Change::RowDoubled => rows.push(rows[at].clone()),
            Change::LiteralMissing => put(&mut rows[at], place, b"01", |_| b'-'),
            Change::LiteralAdded => put(&mut rows[at], place, b"-", |_| b"01"[place / 3 % 2]),
            Change::LiteralTurned => put(&mut rows[at], place, b"01", |sign| sign ^ 1),
        }
        rows
    }
}

/// Puts another sign in the place of one of those named.
fn put(row: &mut [u8], place: usize, named: &[u8], other: impl Fn(u8) -> u8) {
    let columns = row.len() - 2;
    let mut from = (0..columns).map(|k| (place + k) % columns);
    if let Some(k) = from.find(|&k| named.contains(&row[k])) {
        row[k] = other(row[k]);
    }
}

/// The rows of the list that the second program makes of a text, and their columns' line.
fn rows_of(text: &[u8]) -> Option<(Vec<u8>, Vec<Vec<u8>>)> {
    let made = list_program(text);
    let mut lines = made.split(|&byte| byte == b'\n').map(<[u8]>::to_vec);
    let first = lines.next().filter(|line| line.starts_with(b".i"))?;
    let rows = lines.filter(|line| line.ends_with(b" 1") && !line.starts_with(b"."));
    Some((first, rows.collect()))
}

/// A candidate made of the list of a text. A text that is refused has one for one column.
pub fn candidate(text: &[u8], change: Change, place: usize) -> Vec<u8> {
    let (first, rows) = rows_of(text).unwrap_or((b".i 1".to_vec(), vec![b"1 1".to_vec()]));
    let rows = change.of(rows, place);
    let lines = [vec![first, b".o 1".to_vec()], rows, vec![b".e".to_vec()]].concat();
    [lines.join(&b'\n'), b"\n".to_vec()].concat()
}

/// A text with such a candidate behind it.
pub fn with_candidate(text: &[u8], change: Change, place: usize) -> Vec<u8> {
    [text, &candidate(text, change, place)].concat()
}
