//! Each exported function on slices and numbers, safe to call: its answer is the status, document
//! 01's number of the refusal or 0, and the other numbers as they were told. Rooms and tables are the
//! caller's, and are left as document 01 says.

use crate::exports::{
    dowrhesk_and, dowrhesk_check, dowrhesk_check_answer, dowrhesk_difference, dowrhesk_generate,
    dowrhesk_list_answer, dowrhesk_or, dowrhesk_read_candidate, dowrhesk_read_function,
    dowrhesk_value, dowrhesk_variable, dowrhesk_write_list, OfTwoRoots,
};

/// What the arrays hold before a call, so that an answer that was not written is noticed.
pub(crate) const UNWRITTEN: u64 = u64::MAX;

/// The answer of a function that builds.
#[derive(Clone, Copy, PartialEq, Eq, Debug)]
pub struct Built {
    pub status: u16,
    pub root: u64,
    pub count: u64,
}

/// The answer of the value at a point.
#[derive(Clone, Copy, PartialEq, Eq, Debug)]
pub struct Valued {
    pub status: u16,
    pub value: u64,
}

/// The answer of the generator, of a candidate's reading and of writing: what a refusal returns, and
/// the length of the list or the text that stands in the room.
#[derive(Clone, Copy, PartialEq, Eq, Debug)]
pub struct Delivered {
    pub status: u16,
    pub returned: u64,
    pub length: u64,
}

/// The answer of the checker: the kind of the verdict, or what a refusal returns, and the verdict's
/// values in document 01's order, 0 for each that it lacks.
#[derive(Clone, Copy, PartialEq, Eq, Debug)]
pub struct Checked {
    pub status: u16,
    pub kind: u64,
    pub values: [u64; 2],
}

/// The answer of a function text's reading: what a refusal returns, and the columns, the count of
/// records, L and U.
#[derive(Clone, Copy, PartialEq, Eq, Debug)]
pub struct FunctionRead {
    pub status: u16,
    pub returned: u64,
    pub columns: u64,
    pub count: u64,
    pub lower: u64,
    pub upper: u64,
}

/// The function that is 1 where both roots are.
pub fn and(
    columns: u16,
    level: &mut [u16],
    low: &mut [u16],
    high: &mut [u16],
    count: usize,
    a: u16,
    b: u16,
) -> Built {
    of_two_roots(dowrhesk_and, columns, level, low, high, count, a, b)
}

/// The function that is 1 where either root is.
pub fn or(
    columns: u16,
    level: &mut [u16],
    low: &mut [u16],
    high: &mut [u16],
    count: usize,
    a: u16,
    b: u16,
) -> Built {
    of_two_roots(dowrhesk_or, columns, level, low, high, count, a, b)
}

/// The function that is 1 where the first root is and the second is not.
pub fn difference(
    columns: u16,
    level: &mut [u16],
    low: &mut [u16],
    high: &mut [u16],
    count: usize,
    a: u16,
    b: u16,
) -> Built {
    of_two_roots(dowrhesk_difference, columns, level, low, high, count, a, b)
}

#[allow(clippy::too_many_arguments)]
fn of_two_roots(
    function: OfTwoRoots,
    columns: u16,
    level: &mut [u16],
    low: &mut [u16],
    high: &mut [u16],
    count: usize,
    a: u16,
    b: u16,
) -> Built {
    let mut out = [UNWRITTEN; 2];
    // Safety: the pointers and lengths are those of slices, lent for the call and for it alone, and
    // the library's functions ask nothing else of a caller.
    let status = unsafe {
        function(
            columns,
            level.as_mut_ptr(),
            level.len(),
            low.as_mut_ptr(),
            low.len(),
            high.as_mut_ptr(),
            high.len(),
            count,
            a,
            b,
            &mut out,
        )
    };
    built(status, out)
}

/// The function that is 1 where a column is 1.
pub fn variable(
    columns: u16,
    level: &mut [u16],
    low: &mut [u16],
    high: &mut [u16],
    count: usize,
    column: u16,
) -> Built {
    let mut out = [UNWRITTEN; 2];
    // Safety: as in `of_two_roots`.
    let status = unsafe {
        dowrhesk_variable(
            columns,
            level.as_mut_ptr(),
            level.len(),
            low.as_mut_ptr(),
            low.len(),
            high.as_mut_ptr(),
            high.len(),
            count,
            column,
            &mut out,
        )
    };
    built(status, out)
}

pub(crate) fn built(status: u16, [root, count]: [u64; 2]) -> Built {
    Built {
        status,
        root,
        count,
    }
}

/// The value of a root at a point.
pub fn value(
    columns: u16,
    level: &[u16],
    low: &[u16],
    high: &[u16],
    count: usize,
    root: u16,
    point: u32,
) -> Valued {
    let mut out = [UNWRITTEN; 1];
    // Safety: as in `of_two_roots`; the slices are only read.
    let status = unsafe {
        dowrhesk_value(
            columns,
            level.as_ptr(),
            level.len(),
            low.as_ptr(),
            low.len(),
            high.as_ptr(),
            high.len(),
            count,
            root,
            point,
            &mut out,
        )
    };
    valued(status, out)
}

pub(crate) fn valued(status: u16, [value]: [u64; 1]) -> Valued {
    Valued { status, value }
}

/// The list of the rule for a lower and an upper root.
#[allow(clippy::too_many_arguments)]
pub fn generate(
    columns: u16,
    level: &mut [u16],
    low: &mut [u16],
    high: &mut [u16],
    count: usize,
    lower: u16,
    upper: u16,
    room: &mut [u32],
) -> Delivered {
    let mut out = [UNWRITTEN; 2];
    // Safety: as in `of_two_roots`.
    let status = unsafe {
        dowrhesk_generate(
            columns,
            level.as_mut_ptr(),
            level.len(),
            low.as_mut_ptr(),
            low.len(),
            high.as_mut_ptr(),
            high.len(),
            count,
            lower,
            upper,
            room.as_mut_ptr(),
            room.len(),
            &mut out,
        )
    };
    delivered(status, out)
}

pub(crate) fn delivered(status: u16, [returned, length]: [u64; 2]) -> Delivered {
    Delivered {
        status,
        returned,
        length,
    }
}

/// The verdict on any list for a lower and an upper root.
#[allow(clippy::too_many_arguments)]
pub fn check(
    columns: u16,
    level: &[u16],
    low: &[u16],
    high: &[u16],
    count: usize,
    lower: u16,
    upper: u16,
    list: &[u32],
) -> Checked {
    let mut out = [UNWRITTEN; 3];
    // Safety: as in `of_two_roots`; what is lent to be read is not written.
    let status = unsafe {
        dowrhesk_check(
            columns,
            level.as_ptr(),
            level.len(),
            low.as_ptr(),
            low.len(),
            high.as_ptr(),
            high.len(),
            count,
            lower,
            upper,
            list.as_ptr(),
            list.len(),
            &mut out,
        )
    };
    checked(status, out)
}

pub(crate) fn checked(status: u16, [kind, values @ ..]: [u64; 3]) -> Checked {
    Checked {
        status,
        kind,
        values,
    }
}

/// Reads the list of a candidate text for a function of so many columns.
pub fn read_candidate(columns: u16, text: &[u8], room: &mut [u32]) -> Delivered {
    let mut out = [UNWRITTEN; 2];
    let (bytes, cubes) = (text.len(), room.len());
    // Safety: as in `of_two_roots`; the text is only read.
    let status = unsafe {
        let (text, room) = (text.as_ptr(), room.as_mut_ptr());
        dowrhesk_read_candidate(columns, text, bytes, room, cubes, &mut out)
    };
    delivered(status, out)
}

/// Writes the text of a list of cubes.
pub fn write_list(columns: u16, list: &[u32], room: &mut [u8]) -> Delivered {
    let mut out = [UNWRITTEN; 2];
    let (cubes, bytes) = (list.len(), room.len());
    // Safety: as in `of_two_roots`; the list is only read.
    let status = unsafe {
        let (list, room) = (list.as_ptr(), room.as_mut_ptr());
        dowrhesk_write_list(columns, list, cubes, room, bytes, &mut out)
    };
    delivered(status, out)
}

/// Reads a function text into a table, which is cleared first.
pub fn read_function(
    text: &[u8],
    level: &mut [u16],
    low: &mut [u16],
    high: &mut [u16],
) -> FunctionRead {
    let mut out = [UNWRITTEN; 5];
    // Safety: as in `of_two_roots`; the text is only read.
    let status = unsafe {
        dowrhesk_read_function(
            text.as_ptr(),
            text.len(),
            level.as_mut_ptr(),
            level.len(),
            low.as_mut_ptr(),
            low.len(),
            high.as_mut_ptr(),
            high.len(),
            &mut out,
        )
    };
    function_read(status, out)
}

pub(crate) fn function_read(status: u16, out: [u64; 5]) -> FunctionRead {
    let [returned, columns, count, lower, upper] = out;
    FunctionRead {
        status,
        returned,
        columns,
        count,
        lower,
        upper,
    }
}

/// The first program's answer to an input: how many bytes of it stand in the room, or 0 where not
/// every answer would fit.
pub fn list_answer(input: &[u8], answer: &mut [u8]) -> usize {
    let (bytes, room) = (input.len(), answer.len());
    // Safety: as in `of_two_roots`; the input is only read.
    unsafe { dowrhesk_list_answer(input.as_ptr(), bytes, answer.as_mut_ptr(), room) }
}

/// The second program's answer to an input, likewise.
pub fn check_answer(input: &[u8], answer: &mut [u8]) -> usize {
    let (bytes, room) = (input.len(), answer.len());
    // Safety: as in `of_two_roots`; the input is only read.
    unsafe { dowrhesk_check_answer(input.as_ptr(), bytes, answer.as_mut_ptr(), room) }
}
