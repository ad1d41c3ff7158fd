//! The entries on a node table that is a row of records, safe to call: each answers as its namesake of
//! `numbers` answers, and leaves the row as document 01 says.

use crate::exports::{
    dowrhesk_row_and, dowrhesk_row_check, dowrhesk_row_difference, dowrhesk_row_generate,
    dowrhesk_row_or, dowrhesk_row_read_function, dowrhesk_row_value, dowrhesk_row_variable,
    OfTwoRootsOnRow,
};
use crate::numbers::{
    built, checked, delivered, function_read, valued, Built, Checked, Delivered, FunctionRead,
    Valued, UNWRITTEN,
};

/// A node record, laid out as the library's own.
#[repr(C)]
#[derive(Clone, Copy, PartialEq, Eq, Default, Debug)]
pub struct Node {
    pub level: u16,
    pub low: u16,
    pub high: u16,
}

/// The function that is 1 where both roots are.
pub fn and(columns: u16, nodes: &mut [Node], count: usize, a: u16, b: u16) -> Built {
    of_two_roots(dowrhesk_row_and, columns, nodes, count, a, b)
}

/// The function that is 1 where either root is.
pub fn or(columns: u16, nodes: &mut [Node], count: usize, a: u16, b: u16) -> Built {
    of_two_roots(dowrhesk_row_or, columns, nodes, count, a, b)
}

/// The function that is 1 where the first root is and the second is not.
pub fn difference(columns: u16, nodes: &mut [Node], count: usize, a: u16, b: u16) -> Built {
    of_two_roots(dowrhesk_row_difference, columns, nodes, count, a, b)
}

fn of_two_roots(
    function: OfTwoRootsOnRow,
    columns: u16,
    nodes: &mut [Node],
    count: usize,
    a: u16,
    b: u16,
) -> Built {
    let mut out = [UNWRITTEN; 2];
    let (row, records) = (nodes.as_mut_ptr(), nodes.len());
    // Safety: the pointer and the length are those of a slice, lent for the call and for it alone, its
    // records are laid out as C lays them out, and the library's functions ask nothing else of a caller.
    let status = unsafe { function(columns, row, records, count, a, b, &mut out) };
    built(status, out)
}

/// The function that is 1 where a column is 1.
pub fn variable(columns: u16, nodes: &mut [Node], count: usize, column: u16) -> Built {
    let mut out = [UNWRITTEN; 2];
    let (row, records) = (nodes.as_mut_ptr(), nodes.len());
    // Safety: as in `of_two_roots`.
    let status = unsafe { dowrhesk_row_variable(columns, row, records, count, column, &mut out) };
    built(status, out)
}

/// The value of a root at a point.
pub fn value(columns: u16, nodes: &[Node], count: usize, root: u16, point: u32) -> Valued {
    let mut out = [UNWRITTEN; 1];
    let (row, records) = (nodes.as_ptr(), nodes.len());
    // Safety: as in `of_two_roots`; the row is only read.
    let status = unsafe { dowrhesk_row_value(columns, row, records, count, root, point, &mut out) };
    valued(status, out)
}

/// The list of the rule for a lower and an upper root.
pub fn generate(
    columns: u16,
    nodes: &mut [Node],
    count: usize,
    lower: u16,
    upper: u16,
    room: &mut [u32],
) -> Delivered {
    let mut out = [UNWRITTEN; 2];
    // Safety: as in `of_two_roots`.
    let status = unsafe {
        dowrhesk_row_generate(
            columns,
            nodes.as_mut_ptr(),
            nodes.len(),
            count,
            lower,
            upper,
            room.as_mut_ptr(),
            room.len(),
            &mut out,
        )
    };
    delivered(status, out)
}

/// The verdict on any list for a lower and an upper root.
pub fn check(
    columns: u16,
    nodes: &[Node],
    count: usize,
    lower: u16,
    upper: u16,
    list: &[u32],
) -> Checked {
    let mut out = [UNWRITTEN; 3];
    // Safety: as in `of_two_roots`; what is lent to be read is not written.
    let status = unsafe {
        dowrhesk_row_check(
            columns,
            nodes.as_ptr(),
            nodes.len(),
            count,
            lower,
            upper,
            list.as_ptr(),
            list.len(),
            &mut out,
        )
    };
    checked(status, out)
}

/// Reads a function text into a row, which is cleared first.
pub fn read_function(text: &[u8], nodes: &mut [Node]) -> FunctionRead {
    let mut out = [UNWRITTEN; 5];
    let (bytes, records) = (text.len(), nodes.len());
    // Safety: as in `of_two_roots`; the text is only read.
    let status = unsafe {
        let (text, row) = (text.as_ptr(), nodes.as_mut_ptr());
        dowrhesk_row_read_function(text, bytes, row, records, &mut out)
    };
    function_read(status, out)
}
