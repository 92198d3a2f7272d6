//! Random calls on a given table: mostly such that would be accepted on a valid one, with single faults and several at once.

use super::files::random_file;
use super::lists::random_list;
use super::tables::*;
use crate::call::{Call, Case};
use crate::model::evidence::reduce;
use crate::model::lists::cells_of;
use crate::model::reading::LIMIT;
use crate::model::sketch::LONGEST;
use crate::model::table::*;
use crate::random::Random;

/// A random call on the table, which may be damaged; now and then a buffer has a wrong length.
pub fn random_case(random: &mut Random, words: &[u16]) -> Case {
    let table = Table::decode(words).ok();
    let place =
        random.pick(&[0, 1, 2, 2, 3, 3, 4, 4, 5, 5, 5, 6, 6, 7, 7, 8, 9, 9, 9, 10, 11, 11, 11, 12, 13, 13, 14, 14]);
    let call = random_call(random, words, table.as_ref(), place);
    let mut case = Case { table: words.to_vec(), call };
    if matches!(case.call, Call::Read { .. } | Call::Import { .. }) {
        // The table mostly fits what is read, and has any old contents.
        let room = fitting_room(random, &case.call).filter(|_| !random.once_in(8));
        let length = room.map_or(words.len(), |room| room.clamp(1, MOST) * RECORD);
        case.table = (0..length).map(|_| random.word()).collect();
    }
    if random.once_in(14) {
        wrong_length(random, &mut case);
    }
    case
}

/// The N of a file; for a list one that it just fills, that is too small by one, or that has room to spare.
fn fitting_room(random: &mut Random, call: &Call) -> Option<usize> {
    match call {
        Call::Read { file } => Some(u16::from_le_bytes([*file.first()?, *file.get(1)?]).into()),
        Call::Import { text } => {
            let cells = cells_of(MOST, text).ok()?.len();
            Some(random.pick(&[cells, cells.saturating_sub(1), cells + 1, MOST]))
        }
        _ => None,
    }
}

/// The call at that place of `NAMES`.
pub fn random_call(random: &mut Random, words: &[u16], table: Option<&Table>, place: usize) -> Call {
    let room = words.len() / RECORD;
    match place {
        0 => Call::Empty,
        1 => Call::Audit,
        2 => Call::Cone { marks: marks(random, room, table) },
        3 => merge(random, room, table),
        4 => incidence(random, room, table),
        5 => boundary(random, room, table),
        6 => {
            let cell = named(random, room, table);
            let dimension = table.and_then(|t| t.cell(cell)).map_or(0, |cell| cell.dimension);
            let k = random.below(dimension + 1) as u16;
            let wrong = [dimension as u16 + 1, 7, 65535, random.word()];
            Call::Corner { cell, k: if random.once_in(6) { random.pick(&wrong) } else { k } }
        }
        7 => Call::Sheet,
        8 => Call::Reduce { evidence: any_bits(random, room * mark_words(room)) },
        9 => Call::Check { evidence: evidence(random, words, table) },
        10 => {
            let records = table.map_or(60, |t| crate::model::sketch::file_of(t).len());
            let length = match random.below(6) {
                0 => records,
                1 => records - 1,
                2 => random.below(records),
                3 => records + 1,
                4 => LONGEST,
                _ => records + random.below(100),
            };
            Call::Write { target: (0..length).map(|_| random.next() as u8).collect() }
        }
        11 => {
            let other = random_room(random, MOST);
            let room = if random.once_in(2) { room } else { other };
            Call::Read { file: random_file(random, room) }
        }
        12 => Call::Compact { list: (0..room).map(|_| random.word()).collect() },
        13 => weld(random, room, table),
        _ => {
            let other = random_room(random, MOST);
            Call::Import { text: random_list(random, other) }
        }
    }
}

fn any_bits(random: &mut Random, length: usize) -> Vec<u64> {
    (0..length).map(|_| random.next()).collect()
}

/// A number to be named: mostly of a live cell, often of one of the largest dimension.
fn named(random: &mut Random, room: usize, table: Option<&Table>) -> u16 {
    let highest = table.and_then(|t| t.live().map(|(_, cell)| cell.dimension).max()).unwrap_or(0);
    let lowest = if random.once_in(3) { highest } else { 0 };
    let chosen = table.iter().flat_map(|t| t.live()).filter(|(_, cell)| cell.dimension >= lowest);
    let live: Vec<u16> = chosen.map(|(number, _)| number).collect();
    if live.is_empty() || random.once_in(10) {
        let (inside, any) = (random.below(room) as u16, random.word());
        return random.pick(&[inside, room as u16, 65535, 512, any]);
    }
    random.pick(&live)
}

/// Marks: a closed set of live cells, often changed in a bit or two.
fn marks(random: &mut Random, room: usize, table: Option<&Table>) -> Vec<u64> {
    let Some(table) = table else {
        return if random.once_in(2) { vec![0; mark_words(room)] } else { any_bits(random, mark_words(room)) };
    };
    let draws = random.pick(&[0, 1, 2, 3, 8, 40]);
    let mut set = closed_set(random, table, draws);
    let six: Vec<u16> = table.live().filter(|(_, cell)| cell.dimension == TOP).map(|(number, _)| number).collect();
    if !six.is_empty() && random.once_in(3) {
        close(table, random.pick(&six), &mut set);
    }
    let mut marks = marks_of(&set, room);
    match random.below(8) {
        0 => {
            let bit = random.below(64 * marks.len());
            marks[bit / 64] ^= 1 << (bit % 64);
        }
        1 => {
            let bit = named(random, room, Some(table)) as usize % (64 * marks.len());
            marks[bit / 64] ^= 1 << (bit % 64);
        }
        2 if random.once_in(3) => {
            let live = table.live().map(|(number, _)| number).collect();
            marks = marks_of(&live, room);
        }
        _ => {}
    }
    marks
}

fn merge(random: &mut Random, room: usize, table: Option<&Table>) -> Call {
    let (mut a, mut b) = (named(random, room, table), named(random, room, table));
    if random.once_in(12) {
        b = a;
    }
    if let Some(table) = table.filter(|_| random.once_in(3)) {
        if let Some((a, b)) = reordered(random, table) {
            return Call::Merge { a, b };
        }
        let alike: Vec<u16> = (0..room as u16).filter(|number| same_dimension(table, a, *number)).collect();
        b = if alike.is_empty() { b } else { random.pick(&alike) };
        return Call::Merge { a, b };
    }
    if let Some(table) = table.filter(|_| !random.once_in(3)) {
        (a, b) = mergeable(random, table).unwrap_or((a, b));
    }
    Call::Merge { a, b }
}

/// Two cells of one dimension, mostly, whether their faces are equal or not.
fn weld(random: &mut Random, room: usize, table: Option<&Table>) -> Call {
    let (a, mut b) = (named(random, room, table), named(random, room, table));
    if random.once_in(20) {
        b = a;
    }
    if let Some(table) = table.filter(|_| !random.once_in(5)) {
        let alike: Vec<u16> = (0..room as u16).filter(|n| *n != a && same_dimension(table, a, *n)).collect();
        b = if alike.is_empty() { b } else { random.pick(&alike) };
    }
    Call::Weld { a, b }
}

fn incidence(random: &mut Random, room: usize, table: Option<&Table>) -> Call {
    let (cell, mut face) = (named(random, room, table), named(random, room, table));
    let faces = table.and_then(|t| t.cell(cell)).map_or(vec![], |cell| cell.faces.clone());
    if !faces.is_empty() && !random.once_in(4) {
        face = random.pick(&faces);
    }
    Call::Incidence { cell, face }
}

/// A chain in a random dimension: small, large and too large coefficients, sometimes one at another place.
fn boundary(random: &mut Random, room: usize, table: Option<&Table>) -> Call {
    let dimensions: Vec<usize> = table.map_or(vec![], |t| t.live().map(|(_, cell)| cell.dimension).collect());
    let mut dimension = random.below(DIMENSIONS);
    if !dimensions.is_empty() && !random.once_in(8) {
        dimension = random.pick(&dimensions);
    }
    let large = random.once_in(3);
    let mut chain = vec![0; room];
    for (number, _) in table.iter().flat_map(|t| t.live()).filter(|(_, cell)| cell.dimension == dimension) {
        chain[number as usize] = match random.below(4) {
            0 => 0,
            1 if large => random.pick(&[LIMIT, -LIMIT, LIMIT - 1, 1 - LIMIT]),
            _ => random.below(9) as i64 - 4,
        };
    }
    if random.once_in(8) {
        chain[random.below(room)] = random.pick(&[LIMIT + 1, -LIMIT - 1, i64::MIN, i64::MAX, 1 << 52]);
    }
    if random.once_in(8) {
        chain[random.below(room)] = random.pick(&[1, -1, LIMIT]);
    }
    let wrong = random.pick(&[7, 8, 255, 256, 65535]);
    let dimension = if random.once_in(10) { wrong } else { dimension as u16 };
    let result = (0..room).map(|_| random.next() as i64).collect();
    Call::Boundary { chain, dimension, result }
}

/// Evidence: the reducer's, or each cell alone, then often damaged.
fn evidence(random: &mut Random, words: &[u16], table: Option<&Table>) -> Vec<u64> {
    let room = words.len() / RECORD;
    let width = mark_words(room);
    let mut evidence = vec![0; room * width];
    if reduce(words, &mut evidence).is_err() || random.once_in(5) {
        evidence.fill(0);
        for number in (0..room).filter(|n| table.is_none_or(|t| t.cell(*n as u16).is_some())) {
            evidence[number * width + number / 64] |= 1 << (number % 64);
        }
    }
    for _ in 0..random.pick(&[0, 0, 1, 1, 2]) {
        let (row, other) = (random.below(room), random.below(room));
        let bit = random.below(64 * width);
        match random.below(8) {
            0 => evidence[row * width + bit / 64] ^= 1 << (bit % 64),
            1 => evidence[row * width + row / 64] &= !(1 << (row % 64)),
            2 => (0..width).for_each(|w| evidence.swap(row * width + w, other * width + w)),
            3 => evidence[row * width..][..width].fill(0),
            4 if room < 64 * width => {
                let bit = random.between(room % 64, 63);
                evidence[row * width + width - 1] ^= 1 << bit;
            }
            5 => evidence[row * width + random.below(width)] = random.next(),
            6 => {
                // A lower cell of the same dimension added or taken away: rule A stays, rule B may break.
                let alike = |n: &usize| table.is_some_and(|t| same_dimension(t, *n as u16, row as u16));
                let lower: Vec<usize> = (0..row).filter(alike).collect();
                if !lower.is_empty() {
                    let number = random.pick(&lower);
                    evidence[row * width + number / 64] ^= 1 << (number % 64);
                }
            }
            _ => {
                // A lower row added: often still good evidence.
                let (low, high) = (row.min(other), row.max(other));
                if low != high && table.is_some_and(|t| same_dimension(t, low as u16, high as u16)) {
                    (0..width).for_each(|w| evidence[high * width + w] ^= evidence[low * width + w]);
                }
            }
        }
    }
    evidence
}

fn same_dimension(table: &Table, a: u16, b: u16) -> bool {
    let dimension = |number| table.cell(number).map(|cell| cell.dimension);
    dimension(a).is_some() && dimension(a) == dimension(b)
}

/// Another length for a buffer: one more, one less, none, twice.
fn change<T: Clone + Default>(random: &mut Random, buffer: &mut Vec<T>) {
    let length = match random.below(4) {
        0 => buffer.len() + 1,
        1 => buffer.len().saturating_sub(1),
        2 => 0,
        _ => 2 * buffer.len(),
    };
    buffer.resize(length, T::default());
}

/// Gives one of the buffers with a stated length another one.
fn wrong_length(random: &mut Random, case: &mut Case) {
    if random.once_in(2) {
        match random.below(4) {
            0 => case.table.resize(RECORD * (MOST + 1), FREE),
            1 => {
                // A whole number of records, so that the other buffers no longer fit.
                let room = case.table.len() / RECORD;
                case.table.resize(RECORD * (room + 1), FREE);
            }
            _ => change(random, &mut case.table),
        }
        return;
    }
    match &mut case.call {
        Call::Cone { marks } => change(random, marks),
        Call::Boundary { chain, result, .. } => {
            let buffer = if random.once_in(2) { chain } else { result };
            change(random, buffer);
        }
        Call::Reduce { evidence } | Call::Check { evidence } => change(random, evidence),
        Call::Compact { list } => change(random, list),
        _ => change(random, &mut case.table),
    }
}
