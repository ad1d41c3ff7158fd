//! Points: the number of a point, its place in reading order, and its column digits.
//! The number has bit k for column k; the place has column 0 as its heaviest digit, so the
//! smallest of some points is the one with the least place.

/// The place of a point when the columns are read left to right as binary digits.
pub fn place_of(point: u32, columns: usize) -> usize {
    (0..columns).fold(0, |place, k| 2 * place + (point >> k & 1) as usize)
}

/// The number of the point at a place.
pub fn point_at(place: usize, columns: usize) -> u32 {
    (0..columns).fold(0, |point, k| {
        point | ((place >> (columns - 1 - k) & 1) as u32) << k
    })
}

/// The column digits of a point, column 0 first.
pub fn digits(point: u32, columns: usize) -> String {
    (0..columns)
        .map(|k| if point >> k & 1 == 1 { '1' } else { '0' })
        .collect()
}

/// The number of the point with these column digits.
pub fn from_digits(digits: &str) -> u32 {
    digits
        .bytes()
        .enumerate()
        .filter(|&(_, digit)| digit == b'1')
        .fold(0, |point, (k, _)| point | 1 << k)
}
