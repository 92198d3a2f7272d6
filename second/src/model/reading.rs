//! The reading calls of 01: signed incidence, boundary of a chain, corner, sheet test.

use super::table::*;
use std::collections::BTreeSet;

/// "Coefficients lie from −2^40 to 2^40."
pub const LIMIT: i64 = 1 << 40;

/// 01 "Signed incidence": the sum of (−1)^j over all j with face j of s equal to t. Refused: 1, 2, 3, 5.
pub fn incidence(words: &[u16], cell: u16, face: u16) -> Answer<i64> {
    room_of(words)?;
    let table = Table::decode(words)?;
    let (s, t) = (table.named(cell)?, table.named(face)?);
    require(s.dimension == t.dimension + 1, 5)?;
    Ok(signed(s, face))
}

fn signed(cell: &Cell, face: u16) -> i64 {
    let places = (0..cell.faces.len()).filter(|j| cell.faces[*j] == face);
    places.map(|j| if j % 2 == 0 { 1 } else { -1 }).sum()
}

/// 01 "Boundary": at each (p−1)-cell the sum of coefficient times incidence, and 0 elsewhere. Refused: 1, 2, 12, 10, 11.
pub fn boundary(words: &[u16], chain: &[i64], dimension: u16, result: &mut [i64]) -> Answer<()> {
    let room = room_of(words)?;
    require(chain.len() == room && result.len() == room, 1)?;
    let table = Table::decode(words)?;
    let p = dimension as usize;
    require(p <= TOP, 12)?;
    require(chain.iter().all(|c| (-LIMIT..=LIMIT).contains(c)), 10)?;
    for (number, coefficient) in chain.iter().enumerate() {
        let cell = table.cell(number as u16);
        require(*coefficient == 0 || cell.is_some_and(|cell| cell.dimension == p), 11)?;
    }
    result.fill(0);
    for (number, cell) in table.live().filter(|(_, cell)| cell.dimension == p) {
        // Each named face once: the incidence already sums over its places.
        for face in cell.faces.iter().collect::<BTreeSet<_>>() {
            result[*face as usize] += chain[number as usize] * signed(cell, *face);
        }
    }
    Ok(())
}

/// 01 "Corner k". Refused: 1, 2, 3, 12.
pub fn corner(words: &[u16], cell: u16, k: u16) -> Answer<u16> {
    room_of(words)?;
    let table = Table::decode(words)?;
    require(k as usize <= table.named(cell)?.dimension, 12)?;
    // "The cell itself for p = 0; otherwise corner k of face p if k < p, and corner p−1 of face 0 if k = p."
    let (mut cell, mut k) = (cell, k as usize);
    loop {
        let p = table.named(cell)?.dimension;
        if p == 0 {
            return Ok(cell);
        }
        if k < p {
            cell = table.face(cell, p);
        } else {
            cell = table.face(cell, 0);
            k = p - 1;
        }
    }
}

/// 01 "Sheet test", with 02 "Sheet test counts places". Refused: 1, 2.
pub fn sheet(words: &[u16]) -> Answer<bool> {
    room_of(words)?;
    let table = Table::decode(words)?;
    // "An empty table says no."
    let Some(n) = table.live().map(|(_, cell)| cell.dimension).max() else {
        return Ok(false);
    };
    // "Every live cell is an n-cell or reached from one through faces": dimension by dimension, downward.
    let of_dimension = |p: usize| table.live().filter(move |(_, cell)| cell.dimension == p);
    let mut reached: BTreeSet<u16> = of_dimension(n).map(|(number, _)| number).collect();
    for p in (1..=n).rev() {
        for (number, cell) in of_dimension(p) {
            if reached.contains(&number) {
                reached.extend(&cell.faces);
            }
        }
    }
    let all_reached = table.live().all(|(number, _)| reached.contains(&number));
    // "(n-cell, face place) pairs: at most two per (n−1)-cell": places are counted, not cells.
    let mut uses = vec![0; table.cells.len()];
    for (_, cell) in of_dimension(n) {
        for face in &cell.faces {
            uses[*face as usize] += 1;
        }
    }
    Ok(all_reached && uses.iter().all(|count| *count <= 2))
}
