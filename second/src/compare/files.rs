//! Random sketch files, good and damaged, for the reader and for the program.

use super::broken::{damage, one_breach};
use super::tables::random_table;
use crate::model::sketch::{file_of, CONTENTS, LONGEST};
use crate::model::table::*;
use crate::random::Random;

/// A random file for a table of that N: good in about one case of three.
pub fn random_file(random: &mut Random, room: usize) -> Vec<u8> {
    let words = random_table(random, room);
    let mut file = file_of(&Table::decode(&words).expect("a valid table"));
    match random.below(13) {
        0..=3 => {}
        4 => flip(random, &mut file),
        5 => {
            let kept = random.below(file.len());
            file.truncate(if random.once_in(4) { kept.min(CONTENTS) } else { kept });
        }
        6 => {
            let more = if random.once_in(30) { LONGEST + random.below(60000) } else { random.between(1, 9) };
            file.extend((0..more).map(|_| random.next() as u8));
        }
        7 => {
            file = (0..random.below(120)).map(|_| random.next() as u8).collect();
            if file.len() >= 2 && random.once_in(2) {
                file[..2].copy_from_slice(&(room as u16).to_le_bytes());
            }
        }
        8 => contents(random, room, &mut file),
        9 => bodies(random, room, &mut file),
        10 => {
            let mut damaged = words;
            damage(random, &mut damaged);
            file = records(&damaged);
        }
        11 => file = records(&one_breach(random, room)),
        _ => file = invented(random, room),
    }
    // Several faults at once.
    if random.once_in(12) && file.len() >= CONTENTS {
        contents(random, room, &mut file);
    }
    file
}

fn put(file: &mut [u8], at: usize, word: u16) {
    file[at..at + 2].copy_from_slice(&word.to_le_bytes());
}

/// Some bits flipped anywhere.
fn flip(random: &mut Random, file: &mut [u8]) {
    for _ in 0..random.between(1, 3) {
        let at = random.below(file.len());
        file[at] ^= 1 << random.below(8);
    }
}

/// One word of the table of contents replaced: N, a count, or half an offset.
fn contents(random: &mut Random, room: usize, file: &mut [u8]) {
    let word = match random.below(5) {
        0 => random.word(),
        1 => random.below(70) as u16,
        2 => room as u16 + random.below(2) as u16,
        3 => random.pick(&[0, 1, 511, 512, 513, 65535]),
        _ => file.len() as u16,
    };
    let at = if random.once_in(3) { 0 } else { 2 * random.below(CONTENTS / 2) };
    put(file, at, word);
}

/// Some words of the bodies replaced or exchanged: numbers and faces.
fn bodies(random: &mut Random, room: usize, file: &mut [u8]) {
    let words = (file.len() - CONTENTS) / 2;
    if words == 0 {
        return;
    }
    for _ in 0..random.between(1, 2) {
        let at = CONTENTS + 2 * random.below(words);
        let other = CONTENTS + 2 * random.below(words);
        match random.below(5) {
            0 | 1 => put(file, at, random.below(room) as u16),
            2 => put(file, at, random.pick(&[room as u16, 65535, 512, 256])),
            3 => file.copy_within(other..other + 2, at),
            _ => {
                let word = u16::from_le_bytes([file[at], file[at + 1]]);
                file.copy_within(other..other + 2, at);
                put(file, other, word);
            }
        }
    }
}

/// The records of a table that may be damaged, as far as a file can describe them.
pub fn records(words: &[u16]) -> Vec<u8> {
    let mut cells = vec![];
    for record in words.chunks(RECORD) {
        let dimension = record[0] as usize;
        let described = dimension <= TOP;
        cells.push(described.then(|| Cell { dimension, faces: record[1..1 + face_count(dimension)].to_vec() }));
    }
    file_of(&Table { cells })
}

/// A file with right offsets and length whose bodies list any numbers, mostly rising, and any faces; sometimes past the
/// longest length.
fn invented(random: &mut Random, room: usize) -> Vec<u8> {
    let mut contents = (room as u16).to_le_bytes().to_vec();
    let mut bodies: Vec<u8> = vec![];
    let many = if random.once_in(12) { 700 } else { 4 };
    for p in 0..=TOP {
        let count = if random.once_in(2) { 0 } else { random.below(many) };
        contents.extend((count as u16).to_le_bytes());
        contents.extend(((CONTENTS + bodies.len()) as u32).to_le_bytes());
        let mut number = random.below(room);
        for _ in 0..count {
            bodies.extend((number as u16).to_le_bytes());
            for _ in 0..face_count(p) {
                bodies.extend((random.below(room + 1) as u16).to_le_bytes());
            }
            number = if random.once_in(8) { random.below(room + 2) } else { number + random.between(1, 3) };
        }
    }
    contents.extend(bodies);
    contents
}
