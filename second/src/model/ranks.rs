//! The hole numbers counted a second way, without evidence: b_p = n_p − rank ∂_p − rank ∂_(p+1), with the ranks mod 2 of the
//! boundary matrices found by Gaussian elimination.

use super::table::*;

/// The hole numbers of a table for p = 0 to 6. Refused: 1, 2.
pub fn holes(words: &[u16]) -> Answer<[u16; DIMENSIONS]> {
    room_of(words)?;
    let table = Table::decode(words)?;
    let counts = table.counts();
    let mut holes = [0; DIMENSIONS];
    for p in 0..=TOP {
        let both = rank(matrix(&table, p)) + rank(matrix(&table, p + 1));
        holes[p] = (counts[p] as usize - both) as u16;
    }
    Ok(holes)
}

/// ∂_p mod 2: one bit row for each p-cell, column t holding the parity of the places at which t is its face.
fn matrix(table: &Table, p: usize) -> Vec<Vec<u64>> {
    let mut rows = Vec::new();
    for (_, cell) in table.live().filter(|(_, cell)| cell.dimension == p) {
        let mut row = vec![0_u64; mark_words(table.cells.len())];
        for face in &cell.faces {
            row[*face as usize / 64] ^= 1 << (face % 64);
        }
        rows.push(row);
    }
    rows
}

/// The rank of a matrix of bit rows, column by column.
fn rank(mut rows: Vec<Vec<u64>>) -> usize {
    let columns = rows.first().map_or(0, |row| 64 * row.len());
    let mut done = 0;
    for column in 0..columns {
        let bit = |row: &Vec<u64>| row[column / 64] >> (column % 64) & 1 == 1;
        let Some(found) = (done..rows.len()).find(|r| bit(&rows[*r])) else {
            continue;
        };
        rows.swap(done, found);
        let pivot = rows[done].clone();
        for row in rows[done + 1..].iter_mut().filter(|row| bit(row)) {
            for (word, other) in row.iter_mut().zip(&pivot) {
                *word ^= other;
            }
        }
        done += 1;
    }
    done
}
