//! 02 "Part lists from partner firms": the text of a list, the cells that it gives, and what the program `parts` prints.

use super::sketch::file_of;
use super::table::*;
use std::collections::{BTreeMap, BTreeSet};

/// A text read: the point count, and its lines, each with its indices in rising order, repeated ones included. Lines may repeat,
/// so a set of them is enough.
struct List {
    count: u32,
    lines: BTreeSet<Vec<u32>>,
}

/// Cells in the order of their numbers: "by dimension, then by corner list in dictionary order".
type Cells = BTreeSet<(usize, Vec<u32>)>;

/// Fills the table from a part list. Refused: 1, 17, 18, 9. "Table words are all 65535 after any refusal but 1."
pub fn import(words: &mut [u16], text: &[u8]) -> Answer<()> {
    let room = room_of(words)?;
    words.fill(FREE);
    let table = table_of(&cells_of(room, text)?, room);
    words.copy_from_slice(&table.encode());
    Ok(())
}

/// The cells of a list, if there are no more than N. Refused: 17, 18, 9.
pub fn cells_of(room: usize, text: &[u8]) -> Answer<Cells> {
    let Some(list) = read(text) else { return refuse(17) };
    // 18: "an index repeated in its line or not below the count".
    for line in &list.lines {
        require(line.windows(2).all(|pair| pair[0] != pair[1]), 18)?;
        require(line.iter().all(|index| *index < list.count), 18)?;
    }
    // "Each non-empty subset of a line becomes one cell, once"; "unused points stay as cells". 9: "more cells than N".
    require(list.count as usize <= room, 9)?;
    let mut cells: Cells = (0..list.count).map(|point| (0, vec![point])).collect();
    for line in &list.lines {
        for set in 1..1_u32 << line.len() {
            let corners: Vec<u32> = (0..line.len()).filter(|i| set >> i & 1 == 1).map(|i| line[i]).collect();
            cells.insert((corners.len() - 1, corners));
        }
        require(cells.len() <= room, 9)?;
    }
    Ok(cells)
}

/// The list of a text: "a point count on the first line, then 1 to 7 distinct indices a line, in any order, one space between";
/// "every line, the last too, ends with one newline byte". `None` for malformed text.
fn read(text: &[u8]) -> Option<List> {
    let mut lines = text.strip_suffix(b"\n")?.split(|byte| *byte == b'\n');
    let count = numeral(lines.next()?)?;
    let lines: Option<BTreeSet<Vec<u32>>> = lines.map(indices).collect();
    Some(List { count, lines: lines? })
}

fn indices(line: &[u8]) -> Option<Vec<u32>> {
    let numbers: Option<Vec<u32>> = line.split(|byte| *byte == b' ').map(numeral).collect();
    let mut numbers = numbers.filter(|numbers| numbers.len() <= DIMENSIONS)?;
    numbers.sort();
    Some(numbers)
}

/// "Numbers have 1 to 5 decimal digits, no leading zero but in 0 itself."
fn numeral(digits: &[u8]) -> Option<u32> {
    let leading = digits.len() > 1 && digits[0] == b'0';
    if !(1..=5).contains(&digits.len()) || leading || !digits.iter().all(u8::is_ascii_digit) {
        return None;
    }
    Some(digits.iter().fold(0, |value, digit| 10 * value + u32::from(digit - b'0')))
}

/// "Face j being the subset without corner j", corners in rising index.
fn table_of(cells: &Cells, room: usize) -> Table {
    let number: BTreeMap<&[u32], u16> = cells.iter().map(|(_, corners)| &corners[..]).zip(0..).collect();
    let mut table = Table { cells: vec![None; room] };
    for ((dimension, corners), place) in cells.iter().zip(0..) {
        let without = |j: usize| [&corners[..j], &corners[j + 1..]].concat();
        let faces = (0..face_count(*dimension)).map(|j| number[&without(j)[..]]).collect();
        table.cells[place] = Some(Cell { dimension: *dimension, faces });
    }
    table
}

/// The most bytes that the program `parts` takes; the import itself has no limit.
pub const LONGEST_TEXT: usize = 65_536;

/// What the program `parts` prints for the bytes on its standard input: the sketch file of the list's table at N = 512, or the
/// line `refused` and the number. A text that is too long is refused as malformed.
pub fn parts(text: &[u8]) -> Vec<u8> {
    let short = require(text.len() <= LONGEST_TEXT, 17);
    match short.and_then(|()| cells_of(MOST, text)) {
        Ok(cells) => file_of(&table_of(&cells, MOST)),
        Err(refusal) => format!("refused {}\n", refusal.number).into_bytes(),
    }
}
