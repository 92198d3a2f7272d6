//! The building calls of 01 (empty, cone, merge) and the audit.

use super::table::*;
use std::collections::BTreeMap;

/// 01 "Empty": sets every word to 65535, over any old contents. Refused: 1.
pub fn empty(words: &mut [u16]) -> Answer<()> {
    room_of(words)?;
    words.fill(FREE);
    Ok(())
}

/// 01 "The table", "A table is valid when". Refused: 1, 2.
pub fn audit(words: &[u16]) -> Answer<()> {
    room_of(words)?;
    Table::decode(words)?;
    Ok(())
}

/// 01 "Cone". Answers the apex. Refused: 1, 2, 3, 7, 8, 9.
pub fn cone(words: &mut [u16], marks: &[u64]) -> Answer<u16> {
    let room = room_of(words)?;
    require(marks.len() == mark_words(room), 1)?;
    let mut table = Table::decode(words)?;
    let marked = set_of_bits(marks);
    for number in &marked {
        table.named(*number)?;
    }
    // "Every face of a marked cell is marked."
    for number in &marked {
        let cell = table.named(*number)?;
        require(cell.faces.iter().all(|face| marked.contains(face)), 7)?;
    }
    for number in &marked {
        require(table.named(*number)?.dimension < TOP, 8)?;
    }
    let free = table.free();
    require(free.len() > marked.len(), 9)?;
    // "The apex takes the lowest free number. Then, going through marked cells in rising number, each one's cone takes the
    // next lowest free number." All numbers are fixed before a face is written.
    let apex = free[0];
    let cone_of: BTreeMap<u16, u16> = marked.iter().copied().zip(free[1..].iter().copied()).collect();
    let mut cones = vec![(apex, Cell { dimension: 0, faces: vec![] })];
    for (number, cone) in &cone_of {
        let base = table.named(*number)?;
        // "For p ≥ 1 its face j, j ≤ p, is the cone of face j of s. For p = 0 its face 0 is the apex. Its face p+1 is s."
        let mut faces: Vec<u16> = base.faces.iter().map(|face| cone_of[face]).collect();
        if base.dimension == 0 {
            faces.push(apex);
        }
        faces.push(*number);
        cones.push((*cone, Cell { dimension: base.dimension + 1, faces }));
    }
    for (number, cell) in cones {
        table.cells[number as usize] = Some(cell);
    }
    words.copy_from_slice(&table.encode());
    Ok(apex)
}

/// 01 "Merge". Answers the kept number. Refused: 1, 2, 3, 4, 5, 6.
pub fn merge(words: &mut [u16], a: u16, b: u16) -> Answer<u16> {
    room_of(words)?;
    let mut table = Table::decode(words)?;
    let (first, second) = (table.named(a)?, table.named(b)?);
    require(a != b, 4)?;
    require(first.dimension == second.dimension, 5)?;
    // "Equal face lists, in order."
    require(first.faces == second.faces, 6)?;
    let (kept, freed) = (a.min(b), a.max(b));
    table.cells[freed as usize] = None;
    for cell in table.cells.iter_mut().flatten() {
        for face in cell.faces.iter_mut().filter(|face| **face == freed) {
            *face = kept;
        }
    }
    words.copy_from_slice(&table.encode());
    Ok(kept)
}
