//! The map of a function of up to 6 columns and of a list: at each point what the function says and
//! which rows cover it. The library is asked for both; a row's cover is the function that its text
//! alone means.

use dowrhesk::{write_list, Function, Refused, Sign};

/// The most columns that are drawn.
pub const MOST: u16 = 6;

/// A point: what the function says, and the rows that cover it, from 1.
#[derive(Clone, PartialEq, Eq, Debug)]
pub struct Cell {
    pub sign: Sign,
    pub rows: Vec<usize>,
}

/// The cells of a map by the numbers of their points.
pub fn cells(function: &Function, list: &[u32]) -> Result<Vec<Cell>, Refused> {
    let columns = function.columns();
    let points = 0..1u32 << columns;
    let mut cells = Vec::new();
    for point in points.clone() {
        let sign = function.at(point)?;
        cells.push(Cell {
            sign,
            rows: Vec::new(),
        });
    }
    for (&cube, number) in list.iter().zip(1..) {
        let alone = Function::read(&write_list(columns, &[cube])?, RECORDS)?;
        for (point, cell) in points.clone().zip(&mut cells) {
            if alone.at(point)? == Sign::On {
                cell.rows.push(number);
            }
        }
    }
    Ok(cells)
}

/// Records for a function of one row.
const RECORDS: usize = 64;

/// The places along one side of the map, so that neighbours differ in one column: the digits of each,
/// for so many columns.
pub fn side(columns: u16) -> Vec<u32> {
    (0..1u32 << columns)
        .map(|place| place ^ place >> 1)
        .collect()
}

/// The point of two sides: the first columns stand at the left, the others at the top, the leftmost
/// column as the heaviest digit of its side.
pub fn point(left: u32, left_columns: u16, top: u32, top_columns: u16) -> u32 {
    let place = left << top_columns | top;
    let columns = left_columns + top_columns;
    (0..columns).fold(0, |point, column| {
        point | (place >> (columns - 1 - column) & 1) << column
    })
}
