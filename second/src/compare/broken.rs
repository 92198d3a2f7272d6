//! Tables that are mostly not valid: one pair of the law broken, or random damage.

use super::tables::numbers;
use crate::model::table::*;
use crate::random::Random;

/// A table in which everything holds but the law of one cell at one pair of places; of any contents where N is too small.
pub fn one_breach(random: &mut Random, room: usize) -> Vec<u16> {
    let number = numbers(random, room);
    let p = random.between(2, TOP);
    if room < p + 3 {
        return vec![0; room * RECORD];
    }
    let mut table = Table { cells: vec![None; room] };
    let mut put = |place: usize, dimension: usize, faces: Vec<u16>| {
        table.cells[number[place] as usize] = Some(Cell { dimension, faces });
    };
    // Below dimension p − 2 one cell in each dimension, at places 0 to p − 3 of the numbers; each face is the cell below.
    for dimension in 0..p - 2 {
        put(dimension, dimension, vec![number[dimension.max(1) - 1]; face_count(dimension)]);
    }
    // Two cells v and w with equal faces; t has v everywhere, u has w at one place; the breaching cell has u at one place.
    let below = number[p.max(3) - 3];
    let (v, w, t, u) = (p - 2, p - 1, p, p + 1);
    put(v, p - 2, vec![below; face_count(p - 2)]);
    put(w, p - 2, vec![below; face_count(p - 2)]);
    let mut faces = vec![number[v]; p];
    put(t, p - 1, faces.clone());
    faces[random.below(p)] = number[w];
    put(u, p - 1, faces);
    let mut faces = vec![number[t]; p + 1];
    faces[random.below(p + 1)] = number[u];
    put(p + 2, p, faces);
    table.encode()
}

/// Replaces a face by another cell of the same dimension, so that at most the law is broken.
fn other_face(random: &mut Random, words: &mut [u16], record: usize) {
    let dimension = words[record * RECORD];
    if dimension == 0 || dimension > TOP as u16 {
        return;
    }
    let records = 0..words.len() / RECORD;
    let below: Vec<usize> = records.filter(|other| words[other * RECORD] == dimension - 1).collect();
    if !below.is_empty() {
        words[record * RECORD + random.between(1, dimension as usize + 1)] = random.pick(&below) as u16;
    }
}

/// Damages a table in one to three places; now and then it stays valid.
pub fn damage(random: &mut Random, words: &mut [u16]) {
    let room = words.len() / RECORD;
    for _ in 0..random.between(1, 3) {
        // A record in use is hit more often than a free one.
        let mut record = random.below(room);
        for _ in 0..8 {
            if words[record * RECORD] == FREE {
                record = random.below(room);
            }
        }
        let at = record * RECORD + random.below(RECORD);
        match random.below(12) {
            9.. => other_face(random, words, record),
            0 => words[at] = FREE,
            1 | 2 => words[at] = random.below(room) as u16,
            3 => words[at] = random.below(RECORD + 1) as u16,
            4 => words[at] = random.word(),
            5 => words[at] = room as u16,
            6 => words[record * RECORD..][..RECORD].fill(FREE),
            7 => {
                let from = random.below(room) * RECORD;
                words.copy_within(from..from + RECORD, record * RECORD);
            }
            8 => words.swap(at, record * RECORD + random.below(RECORD)),
        }
    }
}
