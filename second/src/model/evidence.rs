//! Evidence for a hole count: the reducer and the checker of 01.

use super::table::*;
use std::collections::{BTreeMap, BTreeSet};

/// What the checker answers for p = 0 to 6: live cells and hole numbers.
#[derive(Clone, Copy, Debug, PartialEq, Eq)]
pub struct Count {
    pub cells: [u16; DIMENSIONS],
    pub holes: [u16; DIMENSIONS],
}

/// A row's boundary mod 2: "a (p−1)-cell is in it when an odd number of (cell in row, face place) pairs name it".
pub fn boundary_of_row(table: &Table, row: &BTreeSet<u16>) -> BTreeSet<u16> {
    let mut odd = BTreeSet::new();
    for number in row {
        for face in &table.cell(*number).expect("a live cell in the row").faces {
            if !odd.remove(face) {
                odd.insert(*face);
            }
        }
    }
    odd
}

/// "Evidence is N rows of W words of 64 bits": refusal 1 where the length is another. Answers W.
fn row_words(words: &[u16], evidence: &[u64]) -> Answer<usize> {
    let room = room_of(words)?;
    let width = mark_words(room);
    require(evidence.len() == room * width, 1)?;
    Ok(width)
}

/// 02 "A ceiling for the reducer's additions": r·(2n − r − 1)/2, for n live cells of which r have rows with a non-empty boundary.
pub fn ceiling(n: u64, r: u64) -> u64 {
    if r == 0 {
        0
    } else {
        r * (2 * n - r - 1) / 2
    }
}

/// 01 "The reducer": answers the additions made in each dimension. Refused: 1, 2. Every reduction is held to its ceiling.
pub fn reduce(words: &[u16], evidence: &mut [u64]) -> Answer<[u64; DIMENSIONS]> {
    let width = row_words(words, evidence)?;
    let table = Table::decode(words)?;
    let mut additions = [0; DIMENSIONS];
    let mut bounding = [0; DIMENSIONS];
    // The finished rows with a non-empty boundary, by the largest cell of that boundary.
    let mut finished: BTreeMap<u16, BTreeSet<u16>> = BTreeMap::new();
    evidence.fill(0);
    for (number, cell) in table.live() {
        let mut row = BTreeSet::from([number]);
        while let Some(largest) = boundary_of_row(&table, &row).last().copied() {
            let Some(earlier) = finished.get(&largest) else {
                finished.insert(largest, row.clone());
                bounding[cell.dimension] += 1;
                break;
            };
            row = row.symmetric_difference(earlier).copied().collect();
            additions[cell.dimension] += 1;
        }
        let start = number as usize * width;
        bits_of_set(&row, &mut evidence[start..start + width]);
    }
    for (p, n) in table.counts().into_iter().enumerate() {
        let most = ceiling(n as u64, bounding[p]);
        assert!(additions[p] <= most, "{} additions in dimension {p}, the ceiling is {most}", additions[p]);
    }
    Ok(additions)
}

/// 01 "The checker". Refused: 1, 2, then 13 or 14 with the first row at fault.
pub fn check(words: &[u16], evidence: &[u64]) -> Answer<Count> {
    let width = row_words(words, evidence)?;
    let table = Table::decode(words)?;
    let mut ranks = [0_u16; DIMENSIONS + 1]; // r_0 to r_7, where r_7 stays 0.
    let mut largest_seen = BTreeSet::new();
    for (number, bits) in evidence.chunks(width).enumerate() {
        let number = number as u16;
        let row = set_of_bits(bits);
        if !rule_a(&table, number, &row) {
            return Err(Refusal { number: 13, row: Some(number), breach: None });
        }
        let Some(cell) = table.cell(number) else { continue };
        // Rule B: "the same largest cell as the boundary of a lower row".
        if let Some(largest) = boundary_of_row(&table, &row).last() {
            if !largest_seen.insert(*largest) {
                return Err(Refusal { number: 14, row: Some(number), breach: None });
            }
            ranks[cell.dimension] += 1;
        }
    }
    // "b_p = n_p − r_p − r_(p+1)."
    let cells = table.counts();
    let mut holes = [0; DIMENSIONS];
    for p in 0..=TOP {
        holes[p] = cells[p] - ranks[p] - ranks[p + 1];
    }
    Ok(Count { cells, holes })
}

/// Rule A: "a free number's row is empty. A live cell's row contains that cell, no higher bit (bits from N on included), and
/// only live cells of its own dimension".
fn rule_a(table: &Table, number: u16, row: &BTreeSet<u16>) -> bool {
    let Some(cell) = table.cell(number) else {
        return row.is_empty();
    };
    let same = |other: &u16| table.cell(*other).is_some_and(|o| o.dimension == cell.dimension);
    row.last() == Some(&number) && row.iter().all(same)
}
