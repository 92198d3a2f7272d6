//! 02 "Close the gaps".

use super::table::*;
use std::collections::BTreeMap;

/// Renumbers the live cells and fills the list "with each old number's new one, 65535 for free". Refused: 1, 2.
pub fn compact(words: &mut [u16], list: &mut [u16]) -> Answer<()> {
    let room = room_of(words)?;
    require(list.len() == room, 1)?;
    let table = Table::decode(words)?;
    // "Renumbers live cells 0, 1, 2, .. by dimension and then by old number."
    let mut order: Vec<(usize, u16)> = table.live().map(|(number, cell)| (cell.dimension, number)).collect();
    order.sort();
    let new: BTreeMap<u16, u16> = order.into_iter().map(|(_, old)| old).zip(0..).collect();
    // "Moves free records to the end": every record that takes no cell stays free.
    let mut compacted = Table { cells: vec![None; room] };
    for (old, cell) in table.live() {
        let faces = cell.faces.iter().map(|face| new[face]).collect();
        compacted.cells[new[&old] as usize] = Some(Cell { dimension: cell.dimension, faces });
    }
    for (old, word) in (0..).zip(list) {
        *word = new.get(&old).copied().unwrap_or(FREE);
    }
    words.copy_from_slice(&compacted.encode());
    Ok(())
}
