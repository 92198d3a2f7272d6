//! The sketch file of 01: writer, reader, and what the program `holes` prints.

use super::evidence::{check, reduce};
use super::table::*;
use std::collections::BTreeSet;

/// Bytes of the table of contents: N, then a count and an offset for each of the seven dimensions.
pub const CONTENTS: usize = 44;
/// The longest file, which the program reads at most.
pub const LONGEST: usize = 8236;

/// Bytes of one cell in its body: the number and the faces.
pub fn entry_size(dimension: usize) -> usize {
    2 + 2 * face_count(dimension)
}

/// The whole file of a table: "a table of contents comes first"; "the bodies follow in order of p without gaps"; "a body lists
/// its cells in rising number".
pub fn file_of(table: &Table) -> Vec<u8> {
    let mut contents = (table.cells.len() as u16).to_le_bytes().to_vec();
    let mut bodies = Vec::new();
    for (p, count) in table.counts().iter().enumerate() {
        let offset = (CONTENTS + bodies.len()) as u32;
        contents.extend(count.to_le_bytes());
        contents.extend(offset.to_le_bytes());
        for (number, cell) in table.live().filter(|(_, cell)| cell.dimension == p) {
            bodies.extend(number.to_le_bytes());
            bodies.extend(cell.faces.iter().flat_map(|face| face.to_le_bytes()));
        }
    }
    contents.extend(bodies);
    contents
}

/// The writer: "answers the length and touches no byte after it". Refused: 1, 2, 9.
pub fn write(words: &[u16], target: &mut [u8]) -> Answer<usize> {
    room_of(words)?;
    let file = file_of(&Table::decode(words)?);
    require(target.len() >= file.len(), 9)?;
    target[..file.len()].copy_from_slice(&file);
    Ok(file.len())
}

/// The reader. Refused: 1, 15, 16, 2. "Refused with anything but 1, leaves all table words 65535."
pub fn read(words: &mut [u16], file: &[u8]) -> Answer<()> {
    let room = room_of(words)?;
    words.fill(FREE);
    let described = described(room, file)?;
    let valid = Table::decode(&described.encode())?;
    words.copy_from_slice(&valid.encode());
    Ok(())
}

fn two_bytes(file: &[u8], at: usize) -> u16 {
    u16::from_le_bytes([file[at], file[at + 1]])
}

fn four_bytes(file: &[u8], at: usize) -> u64 {
    u32::from_le_bytes([file[at], file[at + 1], file[at + 2], file[at + 3]]) as u64
}

/// The records that a file describes, whether they make a valid table or not. Refused: 15, then 16.
fn described(room: usize, file: &[u8]) -> Answer<Table> {
    // 15: "file under 44 bytes, N not the table's, an offset or the length wrong".
    require(file.len() >= CONTENTS, 15)?;
    require(two_bytes(file, 0) as usize == room, 15)?;
    let mut start = CONTENTS as u64;
    let mut counts = Vec::new();
    for p in 0..=TOP {
        let count = two_bytes(file, 2 + 6 * p) as usize;
        require(four_bytes(file, 4 + 6 * p) == start, 15)?;
        start += (count * entry_size(p)) as u64;
        counts.push(count);
    }
    require(file.len() as u64 == start, 15)?;
    // 16: "a body number not below N, not rising in its body, or used in a lower body".
    let mut cells = vec![None; room];
    let mut used_below = BTreeSet::new();
    let mut at = CONTENTS;
    for (dimension, count) in counts.into_iter().enumerate() {
        let mut numbers: Vec<u16> = Vec::new();
        for _ in 0..count {
            let number = two_bytes(file, at);
            require((number as usize) < room, 16)?;
            require(numbers.last().is_none_or(|last| *last < number), 16)?;
            require(!used_below.contains(&number), 16)?;
            let places = 0..face_count(dimension);
            let faces = places.map(|j| two_bytes(file, at + 2 + 2 * j)).collect();
            cells[number as usize] = Some(Cell { dimension, faces });
            numbers.push(number);
            at += entry_size(dimension);
        }
        used_below.extend(numbers);
    }
    Ok(Table { cells })
}

/// What the program prints for the bytes on its standard input.
pub fn printed(input: &[u8]) -> String {
    match seven_lines(input) {
        Ok(text) => text,
        Err(refusal) => format!("refused {}\n", refusal.number),
    }
}

/// "More than 8,236 bytes, or an N outside 1 to 512, is refusal 15"; then reader, reducer and checker.
fn seven_lines(input: &[u8]) -> Answer<String> {
    require(input.len() <= LONGEST && input.len() >= 2, 15)?;
    let room = two_bytes(input, 0) as usize;
    require((1..=MOST).contains(&room), 15)?;
    let mut words = vec![FREE; room * RECORD];
    read(&mut words, input)?;
    let mut evidence = vec![0; room * mark_words(room)];
    reduce(&words, &mut evidence)?;
    let count = check(&words, &evidence)?;
    let line = |p: usize| format!("{} {} {}\n", p, count.cells[p], count.holes[p]);
    Ok((0..=TOP).map(line).collect())
}
