//! Makes a case in which two runs differ smaller, step by step, as long as they still differ.

use crate::call::{Call, Case};
use crate::model::table::{mark_words, FREE, RECORD};

/// The smallest case found by removing records, numbers, coefficients, marks and rows.
pub fn shrink(case: &Case, differs: &dyn Fn(&Case) -> bool) -> Case {
    let mut smallest = case.clone();
    let mut tries = 4000;
    loop {
        let mut found = None;
        for candidate in candidates(&smallest) {
            tries -= 1;
            if differs(&candidate) {
                found = Some(candidate);
                break;
            }
            if tries == 0 {
                return smallest;
            }
        }
        match found {
            Some(candidate) => smallest = candidate,
            None => return smallest,
        }
    }
}

/// Cases a little smaller than the given one.
fn candidates(case: &Case) -> Vec<Case> {
    let mut list = shorter_texts(case);
    let room = case.table.len() / RECORD;
    if case.table.len() == room * RECORD {
        for smaller in [room / 2, room.saturating_sub(1)] {
            if smaller >= 1 && smaller < room {
                list.extend(lower_room(case, smaller));
            }
        }
        for record in (0..room).rev() {
            let words = record * RECORD..(record + 1) * RECORD;
            if case.table[words.clone()].iter().any(|word| *word != FREE) {
                let mut less = case.clone();
                less.table[words].fill(FREE);
                clear_number(&mut less.call, record, room);
                list.push(less);
            }
        }
    }
    for record in 0..room {
        let mut less = case.clone();
        clear_number(&mut less.call, record, room);
        if less != *case {
            list.push(less);
        }
    }
    list
}

/// The same case with less of its part list: half of its lines, then all but one line, then all but one byte.
fn shorter_texts(case: &Case) -> Vec<Case> {
    let Call::Import { text } = &case.call else { return vec![] };
    let lines: Vec<&[u8]> = text.split_inclusive(|byte| *byte == b'\n').collect();
    let half = lines.len() / 2;
    let mut texts = vec![lines[..half].concat(), [&lines[..lines.len().min(1)], &lines[half..]].concat().concat()];
    if lines.len() < 200 {
        texts.extend((0..lines.len()).map(|i| [&lines[..i], &lines[i + 1..]].concat().concat()));
    }
    if text.len() < 200 {
        texts.extend((0..text.len()).map(|i| [&text[..i], &text[i + 1..]].concat()));
    }
    texts.retain(|shorter| shorter.len() < text.len());
    texts.into_iter().map(|text| Case { table: case.table.clone(), call: Call::Import { text } }).collect()
}

/// The same case with fewer records, where all buffers have the stated lengths.
fn lower_room(case: &Case, smaller: usize) -> Option<Case> {
    let room = case.table.len() / RECORD;
    let (old, new) = (mark_words(room), mark_words(smaller));
    let mut less = case.clone();
    less.table.truncate(smaller * RECORD);
    match &mut less.call {
        Call::Cone { marks } if marks.len() == old => marks.truncate(new),
        Call::Boundary { chain, result, .. } if chain.len() == room && result.len() == room => {
            chain.truncate(smaller);
            result.truncate(smaller);
        }
        Call::Reduce { evidence } | Call::Check { evidence } if evidence.len() == room * old => {
            let rows = evidence.chunks(old).take(smaller);
            *evidence = rows.flat_map(|row| row[..new].to_vec()).collect();
        }
        Call::Compact { list } if list.len() == room => list.truncate(smaller),
        Call::Cone { .. } | Call::Boundary { .. } | Call::Reduce { .. } | Call::Check { .. } => return None,
        Call::Read { .. } | Call::Compact { .. } => return None,
        _ => {}
    }
    Some(less)
}

/// Takes a number out of the call's own buffers: its mark, coefficient, row, and its bit in every row.
fn clear_number(call: &mut Call, number: usize, room: usize) {
    let width = mark_words(room);
    let bit = !(1_u64 << (number % 64));
    match call {
        Call::Cone { marks } if marks.len() == width => marks[number / 64] &= bit,
        Call::Boundary { chain, result, .. } if chain.len() == room && result.len() == room => {
            (chain[number], result[number]) = (0, 1);
        }
        Call::Reduce { evidence } if evidence.len() == room * width => evidence[number * width..][..width].fill(0),
        Call::Check { evidence } if evidence.len() == room * width => {
            evidence[number * width..][..width].fill(0);
            evidence.chunks_mut(width).for_each(|row| row[number / 64] &= bit);
        }
        _ => {}
    }
}
