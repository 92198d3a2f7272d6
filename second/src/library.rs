//! The library's C names, and a safe run of one call in which every buffer lies between guard words.

use crate::call::*;
use crate::model::table::DIMENSIONS;

extern "C" {
    fn bt_empty(table: *mut u16, words: usize) -> u32;
    fn bt_audit(table: *const u16, words: usize) -> u32;
    fn bt_cone(table: *mut u16, words: usize, marks: *const u64, mark_words: usize, apex: *mut u16) -> u32;
    fn bt_merge(table: *mut u16, words: usize, a: u16, b: u16, kept: *mut u16) -> u32;
    fn bt_incidence(table: *const u16, words: usize, cell: u16, face: u16, sum: *mut i64) -> u32;
    fn bt_boundary(
        table: *const u16,
        words: usize,
        chain: *const i64,
        chain_len: usize,
        dimension: u16,
        boundary: *mut i64,
        boundary_len: usize,
    ) -> u32;
    fn bt_corner(table: *const u16, words: usize, cell: u16, k: u16, corner: *mut u16) -> u32;
    fn bt_sheet(table: *const u16, words: usize, yes: *mut u8) -> u32;
    fn bt_reduce(
        table: *const u16,
        words: usize,
        evidence: *mut u64,
        evidence_words: usize,
        additions: *mut u64,
    ) -> u32;
    fn bt_check(
        table: *const u16,
        words: usize,
        evidence: *const u64,
        evidence_words: usize,
        cells: *mut u16,
        holes: *mut u16,
    ) -> u32;
    fn bt_write(table: *const u16, words: usize, target: *mut u8, target_len: usize, written: *mut usize) -> u32;
    fn bt_read(table: *mut u16, words: usize, file: *const u8, file_len: usize) -> u32;
    fn bt_import(table: *mut u16, words: usize, text: *const u8, text_len: usize) -> u32;
    fn bt_weld(table: *mut u16, words: usize, a: u16, b: u16, kept: *mut u16) -> u32;
    fn bt_compact(table: *mut u16, words: usize, list: *mut u16, list_len: usize) -> u32;
}

/// Guard words on each side of a buffer.
const MARGIN: usize = 19;

/// A buffer between guard words.
struct Guarded<T> {
    all: Vec<T>,
    guard: T,
}

impl<T: Copy + PartialEq> Guarded<T> {
    fn new(contents: &[T], guard: T) -> Guarded<T> {
        let mut all = vec![guard; MARGIN];
        all.extend_from_slice(contents);
        all.extend([guard; MARGIN]);
        Guarded { all, guard }
    }

    fn start(&mut self) -> *mut T {
        self.all[MARGIN..].as_mut_ptr()
    }

    fn len(&self) -> usize {
        self.all.len() - 2 * MARGIN
    }

    /// The contents after the call; a changed guard word is noted under the buffer's name.
    fn end(self, name: &str, note: &mut Option<String>) -> Vec<T> {
        let (before, rest) = self.all.split_at(MARGIN);
        let (contents, after) = rest.split_at(rest.len() - MARGIN);
        if before.iter().chain(after).any(|word| *word != self.guard) {
            *note = Some(format!("a guard word next to the {name} changed"));
        }
        contents.to_vec()
    }
}

const GUARD_8: u8 = 0xC7;
const GUARD_16: u16 = 0xC7D1;
const GUARD_64: i64 = 0x6B1D_C7D1_39A5_02E4;

/// Buffers of one call: all kinds of them, empty where the call has none.
struct Lent {
    table: Guarded<u16>,
    bits: Guarded<u64>,
    chain: Guarded<i64>,
    result: Guarded<i64>,
    bytes: Guarded<u8>,
    list: Guarded<u16>,
    byte_value: Guarded<u8>,
    short_values: Guarded<u16>,
    holes: Guarded<u16>,
    long_values: Guarded<i64>,
}

impl Lent {
    fn new(case: &Case) -> Lent {
        let (mut bits, mut chain, mut result, mut bytes, mut list) = (&vec![], &vec![], &vec![], &vec![], &vec![]);
        match &case.call {
            Call::Cone { marks } => bits = marks,
            Call::Boundary { chain: c, result: r, .. } => (chain, result) = (c, r),
            Call::Reduce { evidence } | Call::Check { evidence } => bits = evidence,
            Call::Write { target } => bytes = target,
            Call::Read { file } => bytes = file,
            Call::Import { text } => bytes = text,
            Call::Compact { list: l } => list = l,
            _ => {}
        }
        Lent {
            table: Guarded::new(&case.table, GUARD_16),
            bits: Guarded::new(bits, GUARD_64 as u64),
            chain: Guarded::new(chain, GUARD_64),
            result: Guarded::new(result, GUARD_64),
            bytes: Guarded::new(bytes, GUARD_8),
            list: Guarded::new(list, GUARD_16),
            byte_value: Guarded::new(&[BEFORE_8], GUARD_8),
            short_values: Guarded::new(&[BEFORE_16; DIMENSIONS], GUARD_16),
            holes: Guarded::new(&[BEFORE_16; DIMENSIONS], GUARD_16),
            long_values: Guarded::new(&[BEFORE_64; DIMENSIONS], GUARD_64),
        }
    }

    /// Makes the call through its C name.
    fn call(&mut self, call: &Call) -> u32 {
        let (table, words) = (self.table.start(), self.table.len());
        let (bits, bit_words) = (self.bits.start(), self.bits.len());
        let (bytes, length) = (self.bytes.start(), self.bytes.len());
        let (short, long) = (self.short_values.start(), self.long_values.start());
        // Each pointer refers to a live buffer of the length given with it; no two of them overlap.
        unsafe {
            match call {
                Call::Empty => bt_empty(table, words),
                Call::Audit => bt_audit(table, words),
                Call::Cone { .. } => bt_cone(table, words, bits, bit_words, short),
                Call::Merge { a, b } => bt_merge(table, words, *a, *b, short),
                Call::Weld { a, b } => bt_weld(table, words, *a, *b, short),
                Call::Incidence { cell, face } => bt_incidence(table, words, *cell, *face, long),
                Call::Boundary { dimension, .. } => {
                    let (chain, chain_len) = (self.chain.start(), self.chain.len());
                    let (result, result_len) = (self.result.start(), self.result.len());
                    bt_boundary(table, words, chain, chain_len, *dimension, result, result_len)
                }
                Call::Corner { cell, k } => bt_corner(table, words, *cell, *k, short),
                Call::Sheet => bt_sheet(table, words, self.byte_value.start()),
                Call::Reduce { .. } => bt_reduce(table, words, bits, bit_words, long.cast()),
                Call::Check { .. } => bt_check(table, words, bits, bit_words, short, self.holes.start()),
                Call::Write { .. } => bt_write(table, words, bytes, length, long.cast()),
                Call::Read { .. } => bt_read(table, words, bytes, length),
                Call::Import { .. } => bt_import(table, words, bytes, length),
                Call::Compact { .. } => bt_compact(table, words, self.list.start(), self.list.len()),
            }
        }
    }
}

/// Answers a call by the library.
pub fn by_library(case: &Case) -> Outcome {
    let mut lent = Lent::new(case);
    let word = lent.call(&case.call);
    let note = &mut None;
    let table = lent.table.end("table", note);
    let bits = lent.bits.end("marks or evidence", note);
    let chain = lent.chain.end("chain", note);
    let result = lent.result.end("result", note);
    let bytes = lent.bytes.end("file or text", note);
    let list = lent.list.end("list", note);
    let byte: Vec<i64> = widened(lent.byte_value.end("value", note));
    let short: Vec<i64> = widened(lent.short_values.end("value or cell counts", note));
    let holes: Vec<i64> = widened(lent.holes.end("hole numbers", note));
    let long = lent.long_values.end("value or additions", note);
    let one_short = |note: &mut Option<String>| {
        if short[1..].iter().any(|value| *value != BEFORE_16 as i64) {
            *note = Some("words after the value changed".to_string());
        }
        vec![short[0]]
    };
    let one_long = |note: &mut Option<String>| {
        if long[1..].iter().any(|value| *value != BEFORE_64) {
            *note = Some("words after the value changed".to_string());
        }
        vec![long[0]]
    };
    let (values, call) = match case.call.clone() {
        Call::Cone { .. } => (one_short(note), Call::Cone { marks: bits }),
        call @ (Call::Merge { .. } | Call::Weld { .. } | Call::Corner { .. }) => (one_short(note), call),
        call @ Call::Incidence { .. } => (one_long(note), call),
        Call::Boundary { dimension, .. } => (vec![], Call::Boundary { chain, dimension, result }),
        Call::Sheet => (byte, Call::Sheet),
        Call::Reduce { .. } => (long, Call::Reduce { evidence: bits }),
        Call::Check { .. } => ([short, holes].concat(), Call::Check { evidence: bits }),
        Call::Write { .. } => (one_long(note), Call::Write { target: bytes }),
        Call::Read { .. } => (vec![], Call::Read { file: bytes }),
        Call::Import { .. } => (vec![], Call::Import { text: bytes }),
        Call::Compact { .. } => (vec![], Call::Compact { list }),
        call @ (Call::Empty | Call::Audit) => (vec![], call),
    };
    Outcome { word, values, after: Case { table, call }, guard: note.take() }
}

fn widened<T: Into<i64>>(values: Vec<T>) -> Vec<i64> {
    values.into_iter().map(Into::into).collect()
}
