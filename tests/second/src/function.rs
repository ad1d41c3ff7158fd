//! A function of some columns as its truth table: one bit for each point, in reading order.
//! The bit at place r is the point whose columns, read left to right as binary digits, give r.
//! So fixing the first column takes a half of the table, and the smallest point comes first.

use crate::cube;
use crate::point::{place_of, point_at};

/// The columns whose points fit in one word.
const WORD_COLUMNS: usize = 6;

/// A truth table. With fewer than six columns the unused bits of its one word are 0.
#[derive(Clone, PartialEq, Eq, Hash, Debug)]
pub struct Function {
    columns: usize,
    words: Vec<u64>,
}

/// The number of words of a truth table.
fn words_for(columns: usize) -> usize {
    1 << columns.saturating_sub(WORD_COLUMNS)
}

/// The bits in use of each word of a truth table.
fn used(columns: usize) -> u64 {
    if columns < WORD_COLUMNS {
        (1 << (1 << columns)) - 1
    } else {
        u64::MAX
    }
}

impl Function {
    /// The function that is 0 at every point, or 1 at every point.
    pub fn constant(columns: usize, value: bool) -> Function {
        let word = if value { used(columns) } else { 0 };
        let words = vec![word; words_for(columns)];
        Function { columns, words }
    }

    /// The function that is 1 at the points, given by number, where the test holds.
    pub fn from_points(columns: usize, on: impl Fn(u32) -> bool) -> Function {
        let mut made = Function::constant(columns, false);
        for place in 0..1usize << columns {
            if on(point_at(place, columns)) {
                made.words[place >> WORD_COLUMNS] |= 1 << (place & 63);
            }
        }
        made
    }

    /// The function that is 1 at the points a well-formed cube covers.
    pub fn from_cube(columns: usize, cube: u32) -> Function {
        let mut made = Function::constant(0, true);
        for column in (0..columns).rev() {
            let none = Function::constant(made.columns, false);
            made = match cube::sign(cube, column) {
                b'0' => Function::join(&made, &none),
                b'1' => Function::join(&none, &made),
                _ => Function::join(&made, &made),
            };
        }
        made
    }

    /// The number of columns.
    pub fn columns(&self) -> usize {
        self.columns
    }

    /// The value at a point, given by number.
    pub fn value(&self, point: u32) -> bool {
        let place = place_of(point, self.columns);
        self.words[place >> WORD_COLUMNS] >> (place & 63) & 1 == 1
    }

    /// The number of the smallest point with value 1.
    pub fn smallest_point(&self) -> Option<u32> {
        let word = self.words.iter().position(|&word| word != 0)?;
        let bit = self.words[word].trailing_zeros() as usize;
        Some(point_at((word << WORD_COLUMNS) + bit, self.columns))
    }

    pub fn is_zero(&self) -> bool {
        self.words.iter().all(|&word| word == 0)
    }

    pub fn is_one(&self) -> bool {
        self.words.iter().all(|&word| word == used(self.columns))
    }

    /// The function of the columns after the first, with the first fixed at 0.
    pub fn low(&self) -> Function {
        self.half(false)
    }

    /// The function of the columns after the first, with the first fixed at 1.
    pub fn high(&self) -> Function {
        self.half(true)
    }

    fn half(&self, high: bool) -> Function {
        let columns = self.columns - 1;
        let words = if columns >= WORD_COLUMNS {
            let (low_words, high_words) = self.words.split_at(words_for(columns));
            if high { high_words } else { low_words }.to_vec()
        } else {
            let shift = if high { 1 << columns } else { 0 };
            vec![self.words[0] >> shift & used(columns)]
        };
        Function { columns, words }
    }

    /// The function with one more column in front, whose halves are these.
    pub fn join(low: &Function, high: &Function) -> Function {
        assert_eq!(low.columns, high.columns);
        let words = if low.columns >= WORD_COLUMNS {
            [low.words.as_slice(), high.words.as_slice()].concat()
        } else {
            vec![low.words[0] | high.words[0] << (1 << low.columns)]
        };
        let columns = low.columns + 1;
        Function { columns, words }
    }

    /// The two halves differ.
    pub fn depends_on_first(&self) -> bool {
        if self.columns > WORD_COLUMNS {
            let (low, high) = self.words.split_at(self.words.len() / 2);
            low != high
        } else {
            self.columns > 0 && self.low() != self.high()
        }
    }

    /// The same function without the columns in front of the first it depends on.
    pub fn narrowed(&self) -> Function {
        let mut narrow = self.clone();
        while narrow.columns > 0 && !narrow.depends_on_first() {
            narrow = narrow.low();
        }
        narrow
    }

    /// The same function with columns in front, on which it does not depend.
    pub fn widened(&self, columns: usize) -> Function {
        let mut wide = self.clone();
        while wide.columns < columns {
            wide = Function::join(&wide, &wide);
        }
        wide
    }

    pub fn and(&self, other: &Function) -> Function {
        self.word_by_word(other, |a, b| a & b)
    }

    pub fn or(&self, other: &Function) -> Function {
        self.word_by_word(other, |a, b| a | b)
    }

    /// First and not second.
    pub fn less(&self, other: &Function) -> Function {
        self.word_by_word(other, |a, b| a & !b)
    }

    pub fn not(&self) -> Function {
        Function::constant(self.columns, true).less(self)
    }

    /// Every point of the first is a point of the second.
    pub fn within(&self, other: &Function) -> bool {
        self.less(other).is_zero()
    }

    /// Some point is a point of both.
    pub fn meets(&self, other: &Function) -> bool {
        assert_eq!(self.columns, other.columns);
        self.words.iter().zip(&other.words).any(|(a, b)| a & b != 0)
    }

    fn word_by_word(&self, other: &Function, f: impl Fn(u64, u64) -> u64) -> Function {
        assert_eq!(self.columns, other.columns);
        let pairs = self.words.iter().zip(&other.words);
        let words = pairs.map(|(&a, &b)| f(a, b)).collect();
        Function {
            columns: self.columns,
            words,
        }
    }
}
