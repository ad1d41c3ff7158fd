//! Reading a function text as an entry: refusals 10, 2 (length only), 11, 7, 12, and the table it
//! leaves. Named are, for each meaningful row, its cube and the set so far, and last U.

use crate::function::Function;
use crate::line::Type;
use crate::nodes::Nodes;
use crate::refusal::{refuse_if, Refusal};
use crate::refusal::{MOST_BYTES, MOST_RECORDS, NODE_ROOM_LACKING, ON_AND_OFF};
use crate::refusal::{TABLE_OVER, TEXT_FAULT, TEXT_OVER};
use crate::table::{lay, Record, Table};
use crate::text::{read, Asked, Text};

/// The answer of the reading: the number returned, its value, and at done the columns, the two
/// roots and the count of records.
#[derive(Clone, Copy, PartialEq, Eq, Default, Debug)]
pub struct FunctionText {
    pub number: u32,
    pub value: usize,
    pub columns: usize,
    pub lower: usize,
    pub upper: usize,
    pub count: usize,
}

impl From<Refusal> for FunctionText {
    fn from(refusal: Refusal) -> FunctionText {
        FunctionText {
            number: refusal.number,
            value: refusal.value,
            ..FunctionText::default()
        }
    }
}

/// Reads a function text into a table that is cleared first.
pub fn read_function(text: &[u8], records: &mut [Record]) -> FunctionText {
    if let Err(refusal) = judge_sizes(text.len(), records.len()) {
        return refusal.into();
    }
    let (answer, in_use) = match named_table(text, records.len()) {
        Ok((answer, table)) => (answer, table.records().to_vec()),
        Err(refusal) => (refusal.into(), Vec::new()),
    };
    lay(&in_use, records);
    answer
}

/// Refusals 10 and 2.
fn judge_sizes(bytes: usize, records: usize) -> Result<(), Refusal> {
    refuse_if(bytes > MOST_BYTES, Refusal::plain(TEXT_OVER))?;
    refuse_if(records > MOST_RECORDS, Refusal::plain(TABLE_OVER))
}

/// Refusals 11, 7 and 12, or the answer with the table that has all that was named.
fn named_table(text: &[u8], room: usize) -> Result<(FunctionText, Table), Refusal> {
    let text = read(text, Asked::Function).map_err(|line| Refusal::with(TEXT_FAULT, line))?;
    let meaning = meaning(&text);
    let mut table = Table::new(text.columns);
    let mut number_of = |function: &Function| {
        let number = table.add(function, room);
        number.ok_or(Refusal::plain(NODE_ROOM_LACKING))
    };
    for function in &meaning.named {
        number_of(function)?;
    }
    let answer = FunctionText {
        columns: text.columns,
        lower: number_of(&meaning.lower)?,
        upper: number_of(&meaning.upper)?,
        count: table.count(),
        ..FunctionText::default()
    };
    refuse_if(meaning.on_and_off, Refusal::plain(ON_AND_OFF))?;
    Ok((answer, table))
}

/// The function that a text means, and all that its reading names, in order.
#[derive(Clone, Debug)]
pub struct Meaning {
    pub lower: Function,
    pub upper: Function,
    pub on_and_off: bool,
    pub named: Vec<Function>,
}

/// The three sets that rows add to.
#[derive(Clone, Copy)]
enum Set {
    On,
    DontCare,
    Off,
}

/// The set to which a row with this output sign adds, if it has a meaning.
fn set_of(kind: Type, output: u8) -> Option<Set> {
    match (kind, output) {
        (_, b'1') => Some(Set::On),
        (Type::Fd, b'-') => Some(Set::DontCare),
        (Type::Fr, b'0') => Some(Set::Off),
        _ => None,
    }
}

/// The meaning of a text without fault.
pub fn meaning(text: &Text) -> Meaning {
    let none = Function::constant(text.columns, false);
    let mut sets = [none.clone(), none.clone(), none];
    let mut named = Vec::new();
    for row in &text.rows {
        if let Some(set) = set_of(text.kind, row.output) {
            let cube = Function::from_cube(text.columns, row.cube);
            let set = &mut sets[set as usize];
            *set = set.or(&cube);
            named.extend([cube, set.clone()]);
        }
    }
    let [on, dont_care, off] = sets;
    let upper = match text.kind {
        Type::F => on.clone(),
        Type::Fd => on.or(&dont_care),
        Type::Fr => off.not(),
    };
    named.push(upper.clone());
    Meaning {
        // A text of other type than fr has no off rows.
        on_and_off: on.meets(&off),
        lower: on,
        upper,
        named,
    }
}

/// The number of nodes that a reading names.
pub fn need(text: &Text) -> usize {
    let mut nodes = Nodes::new();
    for function in &meaning(text).named {
        nodes.add(function);
    }
    nodes.count()
}
