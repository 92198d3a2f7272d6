//! Random valid tables: built by calls of the model, or written by hand.

use super::lists::{random_lines, text_of};
use crate::model::building;
use crate::model::lists;
use crate::model::table::*;
use crate::random::Random;
use std::collections::BTreeSet;

/// A random N from 1 to 512, often small; `most` bounds it.
pub fn random_room(random: &mut Random, most: usize) -> usize {
    let high = match random.below(20) {
        0..=5 => 12,
        6..=9 => 40,
        10..=15 => 140,
        16 | 17 => 300,
        _ => MOST,
    };
    // Numbers around a whole number of mark words are met more often.
    if high > 100 && random.once_in(4) {
        return random.pick(&[63, 64, 65, 127, 128, 129]).min(most);
    }
    if high == MOST && random.once_in(4) {
        return random.pick(&[511, 512]).min(most);
    }
    random.between(1, high.min(most))
}

/// A random valid table of that N.
pub fn random_table(random: &mut Random, room: usize) -> Vec<u16> {
    let mut words = match random.below(7) {
        0 => tower(random, room),
        1 => by_cones(random, room),
        2 => simplex(random, room),
        3 => simplices(random, room),
        4 => by_list(random, room),
        _ => by_hand(random, room),
    };
    for _ in 0..random.below(3) {
        merge_two(random, &mut words);
    }
    words
}

/// A random set of live cells together with all their faces, drawn from at most `draws` cells.
pub fn closed_set(random: &mut Random, table: &Table, draws: usize) -> BTreeSet<u16> {
    let live: Vec<u16> = table.live().map(|(number, _)| number).collect();
    let mut set = BTreeSet::new();
    for _ in 0..random.below(draws + 1).min(live.len()) {
        close(table, random.pick(&live), &mut set);
    }
    set
}

/// Adds a cell and all its faces, and theirs, to a set.
pub fn close(table: &Table, number: u16, set: &mut BTreeSet<u16>) {
    if set.insert(number) {
        for face in &table.cell(number).expect("a live cell").faces {
            close(table, *face, set);
        }
    }
}

/// Marks of a set for a table of that N.
pub fn marks_of(set: &BTreeSet<u16>, room: usize) -> Vec<u64> {
    let mut marks = vec![0; mark_words(room)];
    bits_of_set(set, &mut marks);
    marks
}

/// Two live cells that a merge accepts, if there are any: found among cells with equal faces.
pub fn mergeable(random: &mut Random, table: &Table) -> Option<(u16, u16)> {
    let mut live: Vec<u16> = table.live().map(|(number, _)| number).collect();
    random.shuffle(&mut live);
    for a in live.iter().take(6) {
        let same = |b: &&u16| *b != a && table.cell(**b) == table.cell(*a);
        if let Some(b) = live.iter().find(same) {
            return Some((*a, *b));
        }
    }
    None
}

/// Two live cells with the same faces in another order, if there are any: a merge refuses them.
pub fn reordered(random: &mut Random, table: &Table) -> Option<(u16, u16)> {
    let mut live: Vec<(u16, &Cell)> = table.live().filter(|(_, cell)| cell.dimension > 0).collect();
    random.shuffle(&mut live);
    let sorted = |cell: &Cell| cell.faces.iter().copied().collect::<BTreeSet<u16>>();
    for (a, first) in live.iter().take(6) {
        let other = |(_, cell): &&(u16, &Cell)| {
            cell.dimension == first.dimension && cell.faces != first.faces && sorted(cell) == sorted(first)
        };
        if let Some((b, _)) = live.iter().find(other) {
            return Some((*a, *b));
        }
    }
    None
}

/// One accepted merge, where there is one.
pub fn merge_two(random: &mut Random, words: &mut [u16]) {
    let table = Table::decode(words).expect("a valid table");
    if let Some((a, b)) = mergeable(random, &table) {
        building::merge(words, a, b).expect("equal faces");
    }
}

/// Cones over random closed sets, with merges between them.
fn by_cones(random: &mut Random, room: usize) -> Vec<u16> {
    let mut words = vec![FREE; room * RECORD];
    for _ in 0..random.between(1, 12) {
        let table = Table::decode(&words).expect("a valid table");
        let marks = marks_of(&closed_set(random, &table, 3), room);
        let _ = building::cone(&mut words, &marks);
        if random.once_in(2) {
            merge_two(random, &mut words);
        }
    }
    words
}

/// A simplex as large as fits, or smaller, its cells renumbered; sometimes without its inside.
fn simplex(random: &mut Random, room: usize) -> Vec<u16> {
    let mut table = Table { cells: vec![None; room] };
    let largest = (0..=TOP).take_while(|p| (2 << p) - 1 <= room).count();
    let corners = if random.once_in(3) { random.between(0, largest) } else { largest };
    let number = numbers(random, room);
    let whole = if random.once_in(3) { (1 << corners) - 1 } else { 1 << corners };
    put_simplex(&mut table, &number, corners, whole);
    table.encode()
}

/// Two or three simplices with no cell in common, of one size as far as they fit: welds join them side by side.
fn simplices(random: &mut Random, room: usize) -> Vec<u16> {
    let mut table = Table { cells: vec![None; room] };
    let count = random.between(2, 3);
    let corners = random.between(0, (0..=TOP).take_while(|p| count * ((2 << p) - 1) <= room).count());
    let number = numbers(random, room);
    for own in number.chunks((1 << corners) - 1 + usize::from(corners == 0)).take(count) {
        put_simplex(&mut table, own, corners, 1 << corners);
    }
    table.encode()
}

/// The cells of a part list, renumbered: simplices with sides in common. Of a list that has too many cells, none.
fn by_list(random: &mut Random, room: usize) -> Vec<u16> {
    let (count, lines) = random_lines(random, room);
    let mut words = vec![FREE; room * RECORD];
    let _ = lists::import(&mut words, &text_of(count, &lines));
    let number = numbers(random, room);
    let mut table = Table { cells: vec![None; room] };
    for (old, cell) in Table::decode(&words).expect("a valid table").live() {
        let faces = cell.faces.iter().map(|face| number[*face as usize]).collect();
        table.cells[number[old as usize] as usize] = Some(Cell { dimension: cell.dimension, faces });
    }
    table.encode()
}

/// The subsets of the corners below `whole` as cells. Bit i of `set` says that corner i belongs to the cell, face j leaves out
/// the cell's corner j.
fn put_simplex(table: &mut Table, number: &[u16], corners: usize, whole: usize) {
    for set in 1..whole {
        let members: Vec<usize> = (0..corners).filter(|i| set >> i & 1 == 1).collect();
        let dimension = members.len() - 1;
        let faces = (0..face_count(dimension)).map(|j| number[(set & !(1 << members[j])) - 1]).collect();
        table.cells[number[set - 1] as usize] = Some(Cell { dimension, faces });
    }
}

/// The numbers from 0 to N − 1, rising or in any order.
pub fn numbers(random: &mut Random, room: usize) -> Vec<u16> {
    let mut numbers: Vec<u16> = (0..room as u16).collect();
    if !random.once_in(3) {
        random.shuffle(&mut numbers);
    }
    numbers
}

/// In each dimension some cells whose faces are all one cell: above them any list of faces fits the law. Here incidence takes
/// all its values.
fn tower(random: &mut Random, room: usize) -> Vec<u16> {
    let mut table = Table { cells: vec![None; room] };
    let mut free = numbers(random, room).into_iter();
    let mut below: Vec<u16> = vec![];
    let height = random.pick(&[0, 1, 2, 3, 4, 5, 6, 6, 6]);
    for dimension in 0..=height {
        let top = dimension == height;
        let base = if below.is_empty() { FREE } else { random.pick(&below) };
        let mut level = vec![];
        for number in free.by_ref().take(random.between(1, 4)) {
            let list = (0..face_count(dimension)).map(|_| if top { random.pick(&below) } else { base });
            let faces = list.collect();
            table.cells[number as usize] = Some(Cell { dimension, faces });
            level.push(number);
        }
        if level.is_empty() {
            break;
        }
        below = level;
    }
    table.encode()
}

/// Cells one by one, each with a random list of faces that fits the law.
fn by_hand(random: &mut Random, room: usize) -> Vec<u16> {
    let mut table = Table { cells: vec![None; room] };
    let mut levels: Vec<Vec<u16>> = vec![vec![]; DIMENSIONS];
    let points = random.between(1, 4);
    let wanted = random.between(0, room.min(300));
    let tallest = random.between(0, TOP);
    for number in numbers(random, room).into_iter().take(wanted) {
        let highest = (1..=tallest).take_while(|p| !levels[p - 1].is_empty()).count();
        let dimension = if levels[0].len() < points { 0 } else { random.between(highest.min(1), highest) };
        let mut faces = vec![];
        let mut tries = 40;
        let model = if levels[dimension].is_empty() { None } else { Some(random.pick(&levels[dimension])) };
        if let Some(twin) = model.filter(|_| random.once_in(5)) {
            // A cell with the faces of another one, in its order or, where the law allows it, in another order.
            faces = table.cell(twin).expect("a live cell").faces.clone();
            if random.once_in(2) {
                random.shuffle(&mut faces);
            }
            let mut trial = table.clone();
            trial.cells[number as usize] = Some(Cell { dimension, faces: faces.clone() });
            if Table::decode(&trial.encode()).is_err() {
                continue;
            }
        } else if dimension > 0 && !fill(random, &table, &levels[dimension - 1], dimension, &mut faces, &mut tries) {
            continue;
        }
        table.cells[number as usize] = Some(Cell { dimension, faces });
        levels[dimension].push(number);
    }
    table.encode()
}

/// Continues a list of faces for a p-cell until it is whole; gives up after some tries.
fn fill(random: &mut Random, table: &Table, below: &[u16], p: usize, faces: &mut Vec<u16>, tries: &mut usize) -> bool {
    let j = faces.len();
    if j == p + 1 {
        return true;
    }
    let fits = |t: &u16| p == 1 || (0..j).all(|l| table.face(*t, l) == table.face(faces[l], j - 1));
    let mut candidates: Vec<u16> = below.iter().copied().filter(fits).collect();
    random.shuffle(&mut candidates);
    for candidate in candidates {
        if *tries == 0 {
            return false;
        }
        *tries -= 1;
        faces.push(candidate);
        if fill(random, table, below, p, faces, tries) {
            return true;
        }
        faces.pop();
    }
    false
}
