//! Texts with one fault: every way to damage a good text in one place. And texts with random faults.

use crate::random::Random;
use crate::texts::{Line, Text};

/// A way to damage a text. Some leave it without a fault, which has to be noticed too.
#[derive(Clone, Copy, PartialEq, Eq, Debug)]
pub enum Damage {
    LineMissing,
    LineEmptied,
    LineDoubled,
    LineMoved,
    LineAdded,
    FieldMissing,
    FieldAdded,
    /// Other numbers, types, names of directives and signs.
    FieldChanged,
    FieldsJoined,
    /// A carriage return before byte 10, at one line or at all.
    CarriageReturn,
    /// A comment behind a line, or a line made a comment.
    Comment,
    /// Tabs and spaces before, between and after fields.
    Blanks,
    /// The last byte 10 missing, or added.
    LastByte,
    ByteMissing,
    /// Any byte in the place of another.
    ByteChanged,
    /// Any byte at any place.
    ByteAdded,
    /// The text up to any place, and from any place on.
    Cut,
}

/// Lines for any place, with bars between them.
const LINES: &str = "| \t|#|#.e|\r|\0|.|1|.e|.e .e|.end|.i|.i 2|.i 17|.o 1|.o 2|.type f|\
    .type fr|.p 2|01 1|011|- 1|0000000000000000 1";

/// Fields for any place.
const FIELDS: &str = "1|0|-|01|.|.e|.i|f|x|\r";

/// Fields for the place of another.
const WORDS: &str = "0|1|2|3|4|9|10|15|16|17|18|32|33|00|01|02|016|00000|00001|00016|00017|000001|\
    000016|099|256|257|258|65535|65536|65537|65538|99999|100000|131073|4294967298|-1|+1|1.|1e0|0x1|\
    a|f|fd|fr|F|Fd|d|fdr|-|~|--|.i|.I|.o|.type|.types|.p|.e|.end|.mv";

const COMMENTS: [&[u8]; 4] = [b"#", b" #", b"# .e\r\0\xff", b"##"];

const BLANKS: [&[u8]; 4] = [b" ", b"\t", b" \t  ", b"\t\t"];

impl Damage {
    pub const ALL: [Damage; 17] = [
        Damage::LineMissing,
        Damage::LineEmptied,
        Damage::LineDoubled,
        Damage::LineMoved,
        Damage::LineAdded,
        Damage::FieldMissing,
        Damage::FieldAdded,
        Damage::FieldChanged,
        Damage::FieldsJoined,
        Damage::CarriageReturn,
        Damage::Comment,
        Damage::Blanks,
        Damage::LastByte,
        Damage::ByteMissing,
        Damage::ByteChanged,
        Damage::ByteAdded,
        Damage::Cut,
    ];

    pub fn name(self) -> &'static str {
        match self {
            Damage::LineMissing => "a line missing",
            Damage::LineEmptied => "a line emptied",
            Damage::LineDoubled => "a line doubled",
            Damage::LineMoved => "a line moved",
            Damage::LineAdded => "a line added",
            Damage::FieldMissing => "a field missing",
            Damage::FieldAdded => "a field added",
            Damage::FieldChanged => "a field changed",
            Damage::FieldsJoined => "fields joined",
            Damage::CarriageReturn => "a carriage return",
            Damage::Comment => "a comment",
            Damage::Blanks => "other blanks",
            Damage::LastByte => "the last byte",
            Damage::ByteMissing => "a byte missing",
            Damage::ByteChanged => "a byte changed",
            Damage::ByteAdded => "a byte added",
            Damage::Cut => "cut",
        }
    }

    /// A good text damaged in this way, in every place.
    pub fn everywhere(self, good: &Text) -> Vec<Vec<u8>> {
        let bytes = good.bytes();
        let places = 0..bytes.len();
        match self {
            Damage::ByteMissing => places.map(|at| spliced(&bytes, at, 1, &[])).collect(),
            Damage::ByteChanged => {
                with_each_byte(places, |at, byte| spliced(&bytes, at, 1, &[byte]))
            }
            Damage::ByteAdded => with_each_byte(0..bytes.len() + 1, |at, byte| {
                spliced(&bytes, at, 0, &[byte])
            }),
            Damage::Cut => {
                let parts = places.flat_map(|at| [&bytes[..at], &bytes[at + 1..]]);
                parts.map(<[u8]>::to_vec).collect()
            }
            _ => self.of_lines(good).iter().map(Text::bytes).collect(),
        }
    }

    fn of_lines(self, good: &Text) -> Vec<Text> {
        let mut made = Made::new(good);
        let count = good.lines.len();
        match self {
            Damage::LastByte => made.push(|text| text.closed = !text.closed),
            Damage::CarriageReturn => made.push(|text| {
                text.lines
                    .iter_mut()
                    .for_each(|line| line.after.push(b'\r'));
            }),
            Damage::LineAdded => {
                for place in 0..=count {
                    for line in LINES.split('|') {
                        made.push(|text| text.lines.insert(place, Line::of(&[line])));
                    }
                }
            }
            _ => {}
        }
        for i in 0..count {
            self.of_line(&mut made, i);
        }
        made.texts
    }

    fn of_line(self, made: &mut Made, i: usize) {
        let count = made.good.lines.len();
        let fields = made.good.lines[i].fields.len();
        match self {
            Damage::LineMissing => made.push(|text| drop(text.lines.remove(i))),
            Damage::LineEmptied => made.of_line(i, |line| line.fields.clear()),
            Damage::LineDoubled => {
                for place in i + 1..=count {
                    made.push(|text| text.lines.insert(place, text.lines[i].clone()));
                }
            }
            Damage::LineMoved => {
                for place in (0..count).filter(|&place| place != i) {
                    made.push(|text| {
                        let line = text.lines.remove(i);
                        text.lines.insert(place, line);
                    });
                }
            }
            Damage::CarriageReturn => made.of_line(i, |line| line.after.push(b'\r')),
            Damage::Comment => {
                for comment in COMMENTS {
                    made.of_line(i, |line| line.after = comment.to_vec());
                    made.of_line(i, |line| line.before = comment.to_vec());
                    made.of_line(i, |line| line.between = comment.to_vec());
                }
            }
            Damage::Blanks => {
                for blanks in BLANKS {
                    made.of_line(i, |line| line.after = blanks.to_vec());
                    made.of_line(i, |line| line.before = blanks.to_vec());
                    made.of_line(i, |line| line.between = blanks.to_vec());
                }
            }
            Damage::FieldsJoined => made.of_line(i, |line| line.between.clear()),
            Damage::FieldAdded => {
                for k in 0..=fields {
                    for field in FIELDS.split('|') {
                        made.of_line(i, |line| line.fields.insert(k, field.into()));
                    }
                }
            }
            Damage::FieldMissing => {
                for k in 0..fields {
                    made.of_line(i, |line| drop(line.fields.remove(k)));
                }
            }
            Damage::FieldChanged => {
                for k in 0..fields {
                    for word in WORDS.split('|') {
                        made.of_line(i, |line| line.fields[k] = word.into());
                    }
                }
            }
            _ => {}
        }
    }
}

/// Texts made of a good one.
struct Made<'a> {
    good: &'a Text,
    texts: Vec<Text>,
}

impl Made<'_> {
    fn new(good: &Text) -> Made<'_> {
        Made {
            good,
            texts: Vec::new(),
        }
    }

    /// The good text with a change.
    fn push(&mut self, change: impl FnOnce(&mut Text)) {
        let mut text = self.good.clone();
        change(&mut text);
        self.texts.push(text);
    }

    /// The good text with a change of one line.
    fn of_line(&mut self, i: usize, change: impl FnOnce(&mut Line)) {
        self.push(|text| change(&mut text.lines[i]));
    }
}

fn with_each_byte(
    places: impl Iterator<Item = usize>,
    make: impl Fn(usize, u8) -> Vec<u8>,
) -> Vec<Vec<u8>> {
    places
        .flat_map(|at| (0..=255).map(move |byte| (at, byte)))
        .map(|(at, byte)| make(at, byte))
        .collect()
}

/// The bytes with others in the place of some of them.
fn spliced(bytes: &[u8], at: usize, gone: usize, others: &[u8]) -> Vec<u8> {
    [&bytes[..at], others, &bytes[at + gone..]].concat()
}

/// What random damage is made of, with bars between: what a text has anyhow, and what it may not have.
const PIECES: &[u8] =
    b"0|1|-|2|~|3|9|17|00000| |\t| |\n|\n|\n\n|\r|\r\n|\0|\x7f|\x80|\xff|#|# \n|.|\
    .i 2\n|.i |.o 1\n|.type fr\n|.type |f|.p 2\n|.p |.e\n|\n.e\n|01 1\n| 1\n";

fn piece(random: &mut Random) -> &'static [u8] {
    let pieces: Vec<&[u8]> = PIECES.split(|&byte| byte == b'|').collect();
    random.pick(&pieces)
}

/// Some random change of the bytes: pieces set in, put in the place of others, taken out or brought
/// to another place, or the text cut.
pub fn change(random: &mut Random, bytes: &mut Vec<u8>) {
    let at = random.below(bytes.len() + 1);
    let left = bytes.len() - at;
    let most = random.pick(&[1, 1, 2, 4, 12]);
    let gone = random.below(most + 1).min(left);
    let piece = piece(random);
    match random.below(8) {
        0 | 1 => *bytes = spliced(bytes, at, 0, piece),
        2 | 3 => *bytes = spliced(bytes, at, gone.max(piece.len()).min(left), piece),
        4 => *bytes = spliced(bytes, at, gone, &[]),
        5 => {
            let any = random.below(256) as u8;
            *bytes = spliced(bytes, at, left.min(1), &[any]);
        }
        6 => {
            let moved = bytes[at..at + gone].to_vec();
            *bytes = spliced(bytes, at, gone * random.below(2), &[]);
            let place = random.below(bytes.len() + 1);
            *bytes = spliced(bytes, place, 0, &moved);
        }
        _ if random.below(4) > 0 => bytes.truncate(at),
        _ => *bytes = bytes.split_off(at),
    }
}

/// Some pieces one after the other.
pub fn anything(random: &mut Random, most: usize) -> Vec<u8> {
    let pieces = random.below(most + 1);
    (0..pieces).flat_map(|_| piece(random)).copied().collect()
}
