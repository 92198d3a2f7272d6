//! 02 "Weld two cells whose sides aren't joined yet".

use super::table::*;
use std::collections::{BTreeMap, BTreeSet};

/// Pairs of live cells that are joined; every cell is joined with itself beside them.
type Relation = BTreeSet<(u16, u16)>;

/// Joins two live cells of one dimension, "their faces place by place, and so on down". Answers the kept number.
/// Refused: 1, 2, 3, 4, 5.
pub fn weld(words: &mut [u16], a: u16, b: u16) -> Answer<u16> {
    room_of(words)?;
    let mut table = Table::decode(words)?;
    let (first, second) = (table.named(a)?, table.named(b)?);
    require(a != b, 4)?;
    require(first.dimension == second.dimension, 5)?;
    let kept = kept_numbers(&table, a, b);
    for (number, other) in &kept {
        if number != other {
            table.cells[*number as usize] = None;
        }
    }
    for face in table.cells.iter_mut().flatten().flat_map(|cell| cell.faces.iter_mut()) {
        *face = kept.get(face).copied().unwrap_or(*face);
    }
    words.copy_from_slice(&table.encode());
    Ok(kept[&a])
}

/// "Each class of joined cells becomes its smallest number": for each cell that is joined with another.
pub fn kept_numbers(table: &Table, a: u16, b: u16) -> BTreeMap<u16, u16> {
    let mut kept = BTreeMap::new();
    for (c, d) in joined(table, a, b) {
        let least = kept.entry(c).or_insert(c);
        *least = d.min(*least);
    }
    kept
}

/// "The smallest equivalence that holds the named pair and is carried by every face operator": what these rules ask for is
/// added to the pair until nothing is missing.
fn joined(table: &Table, a: u16, b: u16) -> Relation {
    let mut pairs = Relation::from([(a, b)]);
    loop {
        let mut more = pairs.clone();
        for (c, d) in &pairs {
            more.insert((*d, *c));
            more.extend(pairs.range((*d, 0)..=(*d, u16::MAX)).map(|(_, e)| (*c, *e)));
            let faces = |number: u16| table.cell(number).expect("a live cell").faces.iter().copied();
            more.extend(faces(*c).zip(faces(*d)));
        }
        if more == pairs {
            return pairs;
        }
        pairs = more;
    }
}
