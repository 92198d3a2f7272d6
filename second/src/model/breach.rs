//! 02 "Tell me where the table is broken": every breach of a table, and the first of them.

use super::table::*;

/// The kinds of breach, in the order of the search.
#[derive(Clone, Copy, Debug, PartialEq, Eq, PartialOrd, Ord)]
pub enum Kind {
    Record,
    Face,
    Law,
}

/// A breach. Its parts stand in the order of the search: "lowest cell number, then the kind (record, face, law), then the face
/// place, then for the law the pair, smallest j, then l". Parts that a kind has not are 0.
#[derive(Clone, Copy, Debug, PartialEq, Eq, PartialOrd, Ord)]
pub struct Breach {
    pub cell: u16,
    pub kind: Kind,
    pub j: usize,
    pub l: usize,
}

/// The first breach, if there is one: the least of all. The length must be right.
pub fn first(words: &[u16]) -> Option<Breach> {
    let all = [laws(words), faces(words), records(words)];
    all.into_iter().flatten().min()
}

fn numbered(words: &[u16]) -> impl Iterator<Item = (u16, &[u16])> {
    words.chunks(RECORD).enumerate().map(|(number, record)| (number as u16, record))
}

/// "For this search a cell is live when its word 0 is 0 to 6": its dimension, if it is.
fn dimension(record: &[u16]) -> Option<usize> {
    let dimension = record[0] as usize;
    (dimension <= TOP).then_some(dimension)
}

fn record_of(words: &[u16], number: u16) -> Option<&[u16]> {
    words.chunks(RECORD).nth(number as usize)
}

/// "Every record is free or has p from 0 to 6 ... unused words are 65535."
fn records(words: &[u16]) -> Vec<Breach> {
    let free_from = |record: &[u16], at: usize| record[at..].iter().all(|word| *word == FREE);
    let whole = |record: &[u16]| match dimension(record) {
        Some(p) => free_from(record, 1 + face_count(p)),
        None => free_from(record, 0),
    };
    let broken = numbered(words).filter(|(_, record)| !whole(record));
    broken.map(|(cell, _)| Breach { cell, kind: Kind::Record, j: 0, l: 0 }).collect()
}

/// "Each used face names a live cell of dimension p−1."
fn faces(words: &[u16]) -> Vec<Breach> {
    let mut found = vec![];
    for (cell, record) in numbered(words) {
        let Some(p) = dimension(record) else { continue };
        for j in 0..face_count(p) {
            let named = record_of(words, record[1 + j]).and_then(dimension);
            if named.map(|q| q + 1) != Some(p) {
                found.push(Breach { cell, kind: Kind::Face, j, l: 0 });
            }
        }
    }
    found
}

/// "For every live cell with p ≥ 2 and all l < j ≤ p: face l of face j equals face j−1 of face l"; "the law compares words as
/// they stand". Where a face is no record of the table, the cell has a face breach, which goes first.
fn laws(words: &[u16]) -> Vec<Breach> {
    let mut found = vec![];
    for (cell, record) in numbered(words) {
        let Some(p) = dimension(record).filter(|p| *p >= 2) else { continue };
        let twice = |j: usize, l: usize| record_of(words, record[1 + j]).map(|face| face[1 + l]);
        for j in 0..=p {
            for l in 0..j {
                if twice(j, l) != twice(l, j - 1) {
                    found.push(Breach { cell, kind: Kind::Law, j, l });
                }
            }
        }
    }
    found
}
