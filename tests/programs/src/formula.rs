//! Texts of functions given by formulas. A formula tells the sign of a point: `1`, `0` or `-`.

use second::cube::signs;
use second::function::Function;
use second::list::list;
use second::point::{digits, point_at};

/// The sign of a point, whose bit k is column k.
pub type Sign<'a> = &'a dyn Fn(u32) -> u8;

/// The signs 1 and 0 of what holds and what does not.
pub fn sign(holds: bool) -> u8 {
    b"01"[usize::from(holds)]
}

/// Bit k of a number as a sum or a count has it.
pub fn bit(number: u32, k: u32) -> bool {
    number >> k & 1 == 1
}

/// The number in the columns from one on, so many, the leftmost heaviest.
pub fn number(point: u32, from: u32, columns: u32) -> u32 {
    (from..from + columns).fold(0, |sum, k| sum * 2 + (point >> k & 1))
}

/// A text of rows, each with its output sign, closed by `.e`.
pub fn text(columns: usize, kind: &str, rows: &[String]) -> Vec<u8> {
    let kind = match kind {
        "" => String::new(),
        kind => format!(".type {kind}\n"),
    };
    let rows: String = rows.iter().map(|row| format!("{row}\n")).collect();
    format!(".i {columns}\n.o 1\n{kind}{rows}.e\n").into_bytes()
}

/// A row for each point that has one of these signs, in reading order.
fn point_rows(columns: usize, of: Sign, wanted: &[u8]) -> Vec<String> {
    let points = (0..1 << columns).map(|place| point_at(place, columns));
    let wanted = points.filter(|&point| wanted.contains(&of(point)));
    wanted
        .map(|point| format!("{} {}", digits(point, columns), char::from(of(point))))
        .collect()
}

/// On and don't-care points, a row for each.
pub fn points(columns: usize, of: Sign) -> Vec<u8> {
    text(columns, "fd", &point_rows(columns, of, b"1-"))
}

/// On and off points, a row for each.
pub fn decided_points(columns: usize, of: Sign) -> Vec<u8> {
    text(columns, "fr", &point_rows(columns, of, b"10"))
}

fn turned(point: u32, columns: usize) -> u32 {
    (0..columns).fold(0, |made, k| made << 1 | point >> k & 1)
}

/// The rows of the list that is made with the columns taken from right to left, so that they are
/// others than those of the answer.
pub fn rows_from_right(columns: usize, of: Sign) -> Vec<String> {
    let with = |wanted: &[u8]| {
        Function::from_points(columns, |point| {
            wanted.contains(&of(turned(point, columns)))
        })
    };
    let made = list(&with(b"1"), &with(b"1-"));
    let row = |&cube: &u32| signs(cube, columns).chars().rev().collect::<String>() + " 1";
    made.iter().map(row).collect()
}

/// A text of those rows.
pub fn from_right(columns: usize, of: Sign) -> Vec<u8> {
    text(columns, "f", &rows_from_right(columns, of))
}

/// The row whose columns are dashes except for some.
pub fn row(columns: usize, literals: &[(usize, u8)]) -> String {
    let mut signs = vec![b'-'; columns];
    for &(column, sign) in literals {
        signs[column] = sign;
    }
    String::from_utf8(signs).unwrap() + " 1"
}

/// The rows got by turning the signs of one.
pub fn turns(signs: &str) -> Vec<String> {
    (0..signs.len())
        .map(|k| format!("{}{}", &signs[k..], &signs[..k]))
        .collect()
}

/// A row for each choice of a row out of each block of columns.
pub fn product(blocks: &[Vec<String>]) -> Vec<String> {
    let mut rows = vec![String::new()];
    for block in blocks {
        let longer = |row: &String| -> Vec<String> {
            block.iter().map(|signs| format!("{row}{signs}")).collect()
        };
        rows = rows.iter().flat_map(longer).collect();
    }
    rows.iter().map(|row| format!("{row} 1")).collect()
}
