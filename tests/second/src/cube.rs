//! Cubes as 32-bit numbers: bit k says column k must be 1, bit 16+k says it must be 0.
//! Number 0 is the cube without literals.

use crate::refusal::{Refusal, CUBE_MALFORMED, MOST_COLUMNS};

/// The columns that must be 1, as bits of a point number.
fn ones(cube: u32) -> u32 {
    cube & 0xffff
}

/// The columns that must be 0, as bits of a point number.
fn zeros(cube: u32) -> u32 {
    cube >> MOST_COLUMNS
}

/// The bit that says that a column must have a value.
fn literal(column: usize, value: bool) -> u32 {
    1 << if value { column } else { column + MOST_COLUMNS }
}

/// No column has both bits and no bit is for a column beyond the last.
pub fn well_formed(cube: u32, columns: usize) -> bool {
    let asked = ones(cube) | zeros(cube);
    ones(cube) & zeros(cube) == 0 && asked >> columns == 0
}

/// Refusal 9 of every entry that is given a list, with the position of the first malformed cube.
pub fn judge_cubes(columns: usize, list: &[u32]) -> Result<(), Refusal> {
    match list.iter().position(|&cube| !well_formed(cube, columns)) {
        Some(i) => Err(Refusal::with(CUBE_MALFORMED, i + 1)),
        None => Ok(()),
    }
}

/// The point has every value that the cube asks for.
pub fn covers(cube: u32, point: u32) -> bool {
    ones(cube) & !point == 0 && zeros(cube) & point == 0
}

/// The number of literals.
pub fn literals(cube: u32) -> u32 {
    cube.count_ones()
}

/// The cube with one literal added.
pub fn with_literal(cube: u32, column: usize, value: bool) -> u32 {
    cube | literal(column, value)
}

/// The cube has a literal for the column.
pub fn has_literal(cube: u32, column: usize) -> bool {
    without_literal(cube, column) != cube
}

/// The cube without what it asks of one column.
pub fn without_literal(cube: u32, column: usize) -> u32 {
    cube & !(literal(column, true) | literal(column, false))
}

/// The sign of a well-formed cube for a column.
pub fn sign(cube: u32, column: usize) -> u8 {
    if cube & literal(column, true) != 0 {
        b'1'
    } else if cube & literal(column, false) != 0 {
        b'0'
    } else {
        b'-'
    }
}

/// The signs of a well-formed cube, column 0 first.
pub fn signs(cube: u32, columns: usize) -> String {
    (0..columns).map(|k| char::from(sign(cube, k))).collect()
}

/// The cube of at most 16 signs, or none if one of them is no sign of an input.
pub fn from_signs(signs: &[u8]) -> Option<u32> {
    signs
        .iter()
        .enumerate()
        .try_fold(0, |cube, (k, sign)| match sign {
            b'0' => Some(with_literal(cube, k, false)),
            b'1' => Some(with_literal(cube, k, true)),
            b'-' | b'2' => Some(cube),
            _ => None,
        })
}
