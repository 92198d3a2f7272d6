//! The table of 01, decoded: a list of records, each free or a cell with its list of faces.

use super::breach::{first, Breach};
use std::collections::BTreeSet;

/// The free mark, and the content of an unused face word.
pub const FREE: u16 = 65535;
/// The largest dimension of a cell.
pub const TOP: usize = 6;
/// Dimensions 0 to 6.
pub const DIMENSIONS: usize = TOP + 1;
/// The largest N.
pub const MOST: usize = 512;
/// Words in a record: the dimension and seven faces.
pub const RECORD: usize = 8;

/// A refusal: its number, for 13 and 14 the row at fault, for 2 the first breach.
#[derive(Clone, Copy, Debug, PartialEq, Eq)]
pub struct Refusal {
    pub number: u32,
    pub row: Option<u16>,
    pub breach: Option<Breach>,
}

pub type Answer<T> = Result<T, Refusal>;

pub fn refuse<T>(number: u32) -> Answer<T> {
    Err(Refusal { number, row: None, breach: None })
}

/// Refuses with the number where the condition does not hold.
pub fn require(holds: bool, number: u32) -> Answer<()> {
    if holds {
        Ok(())
    } else {
        refuse(number)
    }
}

#[derive(Clone, Debug, PartialEq, Eq)]
pub struct Cell {
    pub dimension: usize,
    /// d_0 to d_p; none for a 0-cell.
    pub faces: Vec<u16>,
}

#[derive(Clone, Debug, PartialEq, Eq)]
pub struct Table {
    /// Record c, `None` where it is free. The length is N.
    pub cells: Vec<Option<Cell>>,
}

/// How many faces a p-cell has: p + 1, but none for a 0-cell.
pub fn face_count(dimension: usize) -> usize {
    if dimension == 0 {
        0
    } else {
        dimension + 1
    }
}

/// "Table length not 8·N with N from 1 to 512": refusal 1, else N.
pub fn room_of(words: &[u16]) -> Answer<usize> {
    let room = words.len() / RECORD;
    require(words.len() == room * RECORD && (1..=MOST).contains(&room), 1)?;
    Ok(room)
}

/// "W = N/64 rounded up words of 64 bits".
pub fn mark_words(room: usize) -> usize {
    room.div_ceil(64)
}

/// "Bit b of word w marks cell 64·w + b."
pub fn set_of_bits(words: &[u64]) -> BTreeSet<u16> {
    let mut set = BTreeSet::new();
    for (w, word) in words.iter().enumerate() {
        for b in 0..64 {
            if word >> b & 1 == 1 {
                set.insert((64 * w + b) as u16);
            }
        }
    }
    set
}

/// The same numbering, the other way round.
pub fn bits_of_set(set: &BTreeSet<u16>, words: &mut [u64]) {
    words.fill(0);
    for number in set {
        words[*number as usize / 64] |= 1 << (number % 64);
    }
}

impl Table {
    /// The table of the words, where they are valid; else refusal 2 with their first breach. The length must be right.
    pub fn decode(words: &[u16]) -> Answer<Table> {
        let broken = || Refusal { number: 2, row: None, breach: first(words) };
        Table::valid(words).ok_or_else(broken)
    }

    /// "A table is valid when": the records, then the faces, then the commutation law.
    fn valid(words: &[u16]) -> Option<Table> {
        let mut cells = Vec::new();
        for record in words.chunks(RECORD) {
            cells.push(decode_record(record)?);
        }
        let table = Table { cells };
        for (_, cell) in table.live() {
            for face in &cell.faces {
                table.cell(*face).filter(|f| f.dimension + 1 == cell.dimension)?;
            }
        }
        for (_, cell) in table.live().filter(|(_, cell)| cell.dimension >= 2) {
            for j in 0..=cell.dimension {
                for l in 0..j {
                    let left = table.face(cell.faces[j], l);
                    let right = table.face(cell.faces[l], j - 1);
                    (left == right).then_some(())?;
                }
            }
        }
        Some(table)
    }

    /// The words of the table: dimension, faces, and 65535 in all that is unused.
    pub fn encode(&self) -> Vec<u16> {
        let mut words = vec![FREE; self.cells.len() * RECORD];
        for (number, cell) in self.live() {
            let start = number as usize * RECORD;
            words[start] = cell.dimension as u16;
            words[start + 1..start + 1 + cell.faces.len()].copy_from_slice(&cell.faces);
        }
        words
    }

    /// The live cell of that number, if there is one.
    pub fn cell(&self, number: u16) -> Option<&Cell> {
        self.cells.get(number as usize)?.as_ref()
    }

    /// The live cell of that number, or refusal 3.
    pub fn named(&self, number: u16) -> Answer<&Cell> {
        match self.cell(number) {
            Some(cell) => Ok(cell),
            None => refuse(3),
        }
    }

    /// Face j of a live cell.
    pub fn face(&self, number: u16, j: usize) -> u16 {
        self.cell(number).expect("a live cell").faces[j]
    }

    /// The live cells in rising number.
    pub fn live(&self) -> impl Iterator<Item = (u16, &Cell)> {
        let numbered = self.cells.iter().enumerate();
        numbered.filter_map(|(number, cell)| Some((number as u16, cell.as_ref()?)))
    }

    /// The free numbers, rising.
    pub fn free(&self) -> Vec<u16> {
        let numbers = 0..self.cells.len() as u16;
        numbers.filter(|number| self.cell(*number).is_none()).collect()
    }

    /// n_p for p = 0 to 6: the number of live cells of each dimension.
    pub fn counts(&self) -> [u16; DIMENSIONS] {
        let mut counts = [0; DIMENSIONS];
        for (_, cell) in self.live() {
            counts[cell.dimension] += 1;
        }
        counts
    }
}

/// "Every record is free or has p from 0 to 6 ... unused words are 65535": `None` for another.
fn decode_record(record: &[u16]) -> Option<Option<Cell>> {
    if record.iter().all(|word| *word == FREE) {
        return Some(None);
    }
    let dimension = Some(record[0] as usize).filter(|dimension| *dimension <= TOP)?;
    let (faces, unused) = record[1..].split_at(face_count(dimension));
    let whole = unused.iter().all(|word| *word == FREE);
    whole.then(|| Some(Cell { dimension, faces: faces.to_vec() }))
}
