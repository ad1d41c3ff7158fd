//! The functions of the static library, as they are exported. A slice is a pointer and a length; what
//! a function answers besides its status, it writes into an array.

use crate::rows::Node;

/// A function that builds from two roots.
pub type OfTwoRoots = unsafe extern "C" fn(
    columns: u16,
    level: *mut u16,
    levels: usize,
    low: *mut u16,
    lows: usize,
    high: *mut u16,
    highs: usize,
    count: usize,
    a: u16,
    b: u16,
    out: *mut [u64; 2],
) -> u16;

/// The same on a row of records.
pub type OfTwoRootsOnRow = unsafe extern "C" fn(
    columns: u16,
    nodes: *mut Node,
    records: usize,
    count: usize,
    a: u16,
    b: u16,
    out: *mut [u64; 2],
) -> u16;

extern "C" {
    pub fn dowrhesk_and(
        columns: u16,
        level: *mut u16,
        levels: usize,
        low: *mut u16,
        lows: usize,
        high: *mut u16,
        highs: usize,
        count: usize,
        a: u16,
        b: u16,
        out: *mut [u64; 2],
    ) -> u16;
    pub fn dowrhesk_or(
        columns: u16,
        level: *mut u16,
        levels: usize,
        low: *mut u16,
        lows: usize,
        high: *mut u16,
        highs: usize,
        count: usize,
        a: u16,
        b: u16,
        out: *mut [u64; 2],
    ) -> u16;
    pub fn dowrhesk_difference(
        columns: u16,
        level: *mut u16,
        levels: usize,
        low: *mut u16,
        lows: usize,
        high: *mut u16,
        highs: usize,
        count: usize,
        a: u16,
        b: u16,
        out: *mut [u64; 2],
    ) -> u16;
    pub fn dowrhesk_variable(
        columns: u16,
        level: *mut u16,
        levels: usize,
        low: *mut u16,
        lows: usize,
        high: *mut u16,
        highs: usize,
        count: usize,
        column: u16,
        out: *mut [u64; 2],
    ) -> u16;
    pub fn dowrhesk_value(
        columns: u16,
        level: *const u16,
        levels: usize,
        low: *const u16,
        lows: usize,
        high: *const u16,
        highs: usize,
        count: usize,
        root: u16,
        point: u32,
        out: *mut [u64; 1],
    ) -> u16;
    pub fn dowrhesk_generate(
        columns: u16,
        level: *mut u16,
        levels: usize,
        low: *mut u16,
        lows: usize,
        high: *mut u16,
        highs: usize,
        count: usize,
        lower: u16,
        upper: u16,
        room: *mut u32,
        cubes: usize,
        out: *mut [u64; 2],
    ) -> u16;
    pub fn dowrhesk_check(
        columns: u16,
        level: *const u16,
        levels: usize,
        low: *const u16,
        lows: usize,
        high: *const u16,
        highs: usize,
        count: usize,
        lower: u16,
        upper: u16,
        list: *const u32,
        cubes: usize,
        out: *mut [u64; 3],
    ) -> u16;
    pub fn dowrhesk_read_candidate(
        columns: u16,
        text: *const u8,
        bytes: usize,
        room: *mut u32,
        cubes: usize,
        out: *mut [u64; 2],
    ) -> u16;
    pub fn dowrhesk_write_list(
        columns: u16,
        list: *const u32,
        cubes: usize,
        room: *mut u8,
        bytes: usize,
        out: *mut [u64; 2],
    ) -> u16;
    pub fn dowrhesk_read_function(
        text: *const u8,
        bytes: usize,
        level: *mut u16,
        levels: usize,
        low: *mut u16,
        lows: usize,
        high: *mut u16,
        highs: usize,
        out: *mut [u64; 5],
    ) -> u16;
    pub fn dowrhesk_row_and(
        columns: u16,
        nodes: *mut Node,
        records: usize,
        count: usize,
        a: u16,
        b: u16,
        out: *mut [u64; 2],
    ) -> u16;
    pub fn dowrhesk_row_or(
        columns: u16,
        nodes: *mut Node,
        records: usize,
        count: usize,
        a: u16,
        b: u16,
        out: *mut [u64; 2],
    ) -> u16;
    pub fn dowrhesk_row_difference(
        columns: u16,
        nodes: *mut Node,
        records: usize,
        count: usize,
        a: u16,
        b: u16,
        out: *mut [u64; 2],
    ) -> u16;
    pub fn dowrhesk_row_variable(
        columns: u16,
        nodes: *mut Node,
        records: usize,
        count: usize,
        column: u16,
        out: *mut [u64; 2],
    ) -> u16;
    pub fn dowrhesk_row_value(
        columns: u16,
        nodes: *const Node,
        records: usize,
        count: usize,
        root: u16,
        point: u32,
        out: *mut [u64; 1],
    ) -> u16;
    pub fn dowrhesk_row_generate(
        columns: u16,
        nodes: *mut Node,
        records: usize,
        count: usize,
        lower: u16,
        upper: u16,
        room: *mut u32,
        cubes: usize,
        out: *mut [u64; 2],
    ) -> u16;
    pub fn dowrhesk_row_check(
        columns: u16,
        nodes: *const Node,
        records: usize,
        count: usize,
        lower: u16,
        upper: u16,
        list: *const u32,
        cubes: usize,
        out: *mut [u64; 3],
    ) -> u16;
    pub fn dowrhesk_row_read_function(
        text: *const u8,
        bytes: usize,
        nodes: *mut Node,
        records: usize,
        out: *mut [u64; 5],
    ) -> u16;
    pub fn dowrhesk_list_answer(
        input: *const u8,
        bytes: usize,
        answer: *mut u8,
        room: usize,
    ) -> usize;
    pub fn dowrhesk_check_answer(
        input: *const u8,
        bytes: usize,
        answer: *mut u8,
        room: usize,
    ) -> usize;
}
