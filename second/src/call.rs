//! One call with all that is lent to it, and all that it leaves behind: the form in which the model and the library are compared.

use crate::model::breach::Kind;
use crate::model::table::{Answer, Refusal, DIMENSIONS, FREE, RECORD};
use crate::model::{building, compaction, evidence, lists, reading, sketch, weld};

/// What a value pointer refers to before the call. No accepted call answers these values.
pub const BEFORE_8: u8 = 0x5A;
pub const BEFORE_16: u16 = 0xA5C3;
pub const BEFORE_64: i64 = 0x5A5A_0FF0_1234_5678;

/// A call and its own arguments; buffers that are written to are given with their old contents.
#[derive(Clone, Debug, PartialEq, Eq)]
pub enum Call {
    Empty,
    Audit,
    Cone { marks: Vec<u64> },
    Merge { a: u16, b: u16 },
    Incidence { cell: u16, face: u16 },
    Boundary { chain: Vec<i64>, dimension: u16, result: Vec<i64> },
    Corner { cell: u16, k: u16 },
    Sheet,
    Reduce { evidence: Vec<u64> },
    Check { evidence: Vec<u64> },
    Write { target: Vec<u8> },
    Read { file: Vec<u8> },
    Compact { list: Vec<u16> },
    Weld { a: u16, b: u16 },
    Import { text: Vec<u8> },
}

/// The names of the calls and the refusals that 01 and 02 give each of them.
pub const NAMES: [(&str, &[u32]); 15] = [
    ("empty", &[1]),
    ("audit", &[1, 2]),
    ("cone", &[1, 2, 3, 7, 8, 9]),
    ("merge", &[1, 2, 3, 4, 5, 6]),
    ("incidence", &[1, 2, 3, 5]),
    ("boundary", &[1, 2, 10, 11, 12]),
    ("corner", &[1, 2, 3, 12]),
    ("sheet", &[1, 2]),
    ("reduce", &[1, 2]),
    ("check", &[1, 2, 13, 14]),
    ("write", &[1, 2, 9]),
    ("read", &[1, 2, 15, 16]),
    ("compact", &[1, 2]),
    ("weld", &[1, 2, 3, 4, 5]),
    ("import", &[1, 9, 17, 18]),
];

impl Call {
    /// The place of the call in `NAMES`.
    pub fn place(&self) -> usize {
        match self {
            Call::Empty => 0,
            Call::Audit => 1,
            Call::Cone { .. } => 2,
            Call::Merge { .. } => 3,
            Call::Incidence { .. } => 4,
            Call::Boundary { .. } => 5,
            Call::Corner { .. } => 6,
            Call::Sheet => 7,
            Call::Reduce { .. } => 8,
            Call::Check { .. } => 9,
            Call::Write { .. } => 10,
            Call::Read { .. } => 11,
            Call::Compact { .. } => 12,
            Call::Weld { .. } => 13,
            Call::Import { .. } => 14,
        }
    }

    /// The call for a reader: a part list as its text.
    pub fn shown(&self) -> String {
        match self {
            Call::Import { text } => format!("Import of \"{}\"", text.escape_ascii()),
            call => format!("{call:?}"),
        }
    }
}

/// A call on a table.
#[derive(Clone, Debug, PartialEq, Eq)]
pub struct Case {
    pub table: Vec<u16>,
    pub call: Call,
}

/// What a call left: the word of its answer, what each value pointer refers to, and every buffer.
#[derive(Clone, Debug, PartialEq, Eq)]
pub struct Outcome {
    pub word: u32,
    pub values: Vec<i64>,
    pub after: Case,
    /// Names a buffer next to which a guard word changed.
    pub guard: Option<String>,
}

impl Outcome {
    /// The refusal's number, or 0.
    pub fn number(&self) -> u32 {
        self.word % 256
    }

    /// The kind of breach that the answer names: 1 record, 2 face, 3 law, or 0.
    pub fn kind(&self) -> usize {
        (self.word / 256 % 4) as usize
    }
}

/// The word of a refusal: its number in bits 0 to 7; the kind of a breach in bits 8 and 9, its j in bits 10 to 12, its l in
/// bits 13 to 15; the cell of the breach, or the row at fault, in bits 16 to 31.
fn packed(refusal: Refusal) -> u32 {
    let cell = |number: u16| u32::from(number) << 16;
    let Some(breach) = refusal.breach else {
        return refusal.number | refusal.row.map_or(0, cell);
    };
    let kind = match breach.kind {
        Kind::Record => 1,
        Kind::Face => 2,
        Kind::Law => 3,
    };
    refusal.number | kind << 8 | (breach.j as u32) << 10 | (breach.l as u32) << 13 | cell(breach.cell)
}

/// A word in parts, for a reader.
pub fn taken_apart(word: u32) -> String {
    let (number, kind, j, l, cell) = (word % 256, word >> 8 & 3, word >> 10 & 7, word >> 13 & 7, word >> 16);
    if word < 256 {
        number.to_string()
    } else {
        format!("{number} (kind {kind}, j {j}, l {l}, cell {cell})")
    }
}

/// Something that answers calls: the model or the library.
pub type Run = fn(&Case) -> Outcome;

fn one<T: Into<i64>>(answer: Answer<T>, before: i64) -> (u32, Vec<i64>) {
    match answer {
        Ok(value) => (0, vec![value.into()]),
        Err(refusal) => (packed(refusal), vec![before]),
    }
}

fn plain(answer: Answer<()>) -> (u32, Vec<i64>) {
    (answer.map_or_else(packed, |()| 0), vec![])
}

fn checked(answer: Answer<evidence::Count>) -> (u32, Vec<i64>) {
    match answer {
        Ok(count) => (0, [count.cells, count.holes].concat().into_iter().map(i64::from).collect()),
        Err(refusal) => (packed(refusal), vec![BEFORE_16.into(); 2 * DIMENSIONS]),
    }
}

/// Answers a call by the model.
pub fn by_model(case: &Case) -> Outcome {
    let mut after = case.clone();
    let table = &mut after.table;
    let (word, values) = match &mut after.call {
        Call::Empty => plain(building::empty(table)),
        Call::Audit => plain(building::audit(table)),
        Call::Cone { marks } => one(building::cone(table, marks), BEFORE_16.into()),
        Call::Merge { a, b } => one(building::merge(table, *a, *b), BEFORE_16.into()),
        Call::Incidence { cell, face } => one(reading::incidence(table, *cell, *face), BEFORE_64),
        Call::Boundary { chain, dimension, result } => plain(reading::boundary(table, chain, *dimension, result)),
        Call::Corner { cell, k } => one(reading::corner(table, *cell, *k), BEFORE_16.into()),
        Call::Sheet => one(reading::sheet(table), BEFORE_8.into()),
        Call::Reduce { evidence } => match evidence::reduce(table, evidence) {
            Ok(additions) => (0, additions.iter().map(|count| *count as i64).collect()),
            Err(refusal) => (packed(refusal), vec![BEFORE_64; DIMENSIONS]),
        },
        Call::Check { evidence } => checked(evidence::check(table, evidence)),
        Call::Write { target } => one(sketch::write(table, target).map(|length| length as i64), BEFORE_64),
        Call::Read { file } => plain(sketch::read(table, file)),
        Call::Compact { list } => plain(compaction::compact(table, list)),
        Call::Import { text } => plain(lists::import(table, text)),
        Call::Weld { a, b } => one(weld::weld(table, *a, *b), BEFORE_16.into()),
    };
    Outcome { word, values, after, guard: None }
}

/// The records of a table that are not free, one to a line, each up to its last word that is not 65535. A table that is no
/// whole number of records is given word by word.
pub fn described(table: &[u16]) -> String {
    let mut text = format!("  table of {} words", table.len());
    let room = table.len() / RECORD;
    if table.len() != room * RECORD {
        return text + &format!(": {table:?}\n");
    }
    text += &format!(", N = {room}\n");
    for (number, record) in table.chunks(RECORD).enumerate() {
        if let Some(last) = record.iter().rposition(|word| *word != FREE) {
            text += &format!("    {number}: {:?}\n", &record[..=last]);
        }
    }
    text
}
