//! Example sketch files with what the program prints for them.

use crate::cases::{table, PROJECTIVE_PLANE, TORUS};
use crate::model::sketch::{file_of, printed};
use crate::model::table::{face_count, Cell, Table};
use std::path::Path;

/// The 52-byte file of 01, byte by byte.
pub const LOOP: [u8; 52] = [
    0x02, 0x00, // N
    0x01, 0x00, 0x2C, 0x00, 0x00, 0x00, // entry 0
    0x01, 0x00, 0x2E, 0x00, 0x00, 0x00, // entry 1
    0x00, 0x00, 0x34, 0x00, 0x00, 0x00, // entries 2 to 6
    0x00, 0x00, 0x34, 0x00, 0x00, 0x00, //
    0x00, 0x00, 0x34, 0x00, 0x00, 0x00, //
    0x00, 0x00, 0x34, 0x00, 0x00, 0x00, //
    0x00, 0x00, 0x34, 0x00, 0x00, 0x00, //
    0x00, 0x00, // body 0
    0x01, 0x00, 0x00, 0x00, 0x00, 0x00, // body 1
];

/// What 01 says the program prints for it.
#[cfg(test)]
pub const LOOP_PRINTED: &str = "0 1 1\n1 1 1\n2 0 0\n3 0 0\n4 0 0\n5 0 0\n6 0 0\n";

/// A cooling duct: a tube of a front and a back panel, each of two triangles. Below run edges 4 (front) and 5 (back), above
/// 6 and 7; they go round the tube, so 4 is (1,0) and 5 is (0,1). Edges 8 and 9 join the panels. One tunnel.
pub const DUCT_OPEN: &[(u16, &[u16])] = &[
    (0, &[]),
    (1, &[]),
    (2, &[]),
    (3, &[]),
    (4, &[1, 0]),
    (5, &[0, 1]),
    (6, &[3, 2]),
    (7, &[2, 3]),
    (8, &[2, 0]),
    (9, &[3, 1]),
    (10, &[3, 0]),
    (11, &[2, 1]),
    (12, &[9, 10, 4]),
    (13, &[6, 10, 8]),
    (14, &[8, 11, 5]),
    (15, &[7, 11, 9]),
];

/// The same duct after edges 4 and 5 became one by mistake, as a comparison of faces without their order would have it:
/// triangle 14 names 4 in place of 5, its faces put in the order that the law asks. The lower end is pinched shut: no tunnel.
/// The kernel refuses that merge with 6.
pub const DUCT_CLOSED: &[(u16, &[u16])] = &[
    (0, &[]),
    (1, &[]),
    (2, &[]),
    (3, &[]),
    (4, &[1, 0]),
    (6, &[3, 2]),
    (7, &[2, 3]),
    (8, &[2, 0]),
    (9, &[3, 1]),
    (10, &[3, 0]),
    (11, &[2, 1]),
    (12, &[9, 10, 4]),
    (13, &[6, 10, 8]),
    (14, &[11, 8, 4]),
    (15, &[7, 11, 9]),
];

fn file(room: usize, cells: &[(u16, &[u16])]) -> Vec<u8> {
    let table = Table::decode(&table(room, cells)).expect("an example is a valid table");
    file_of(&table)
}

/// The examples: name and bytes.
pub fn all() -> Vec<(&'static str, Vec<u8>)> {
    vec![
        ("loop", LOOP.to_vec()),
        ("torus", file(8, TORUS)),
        ("projective-plane", file(8, PROJECTIVE_PLANE)),
        ("duct-open", file(16, DUCT_OPEN)),
        ("duct-closed", file(16, DUCT_CLOSED)),
    ]
}

/// Files around the longest length: 512 cells that make a valid table, 512 cells of dimension 6 (8,236 bytes), more bytes.
pub fn longest() -> Vec<Vec<u8>> {
    // Each face is the cell below: numbers 0 to 5 have dimension 0 to 5, all others dimension 6.
    let cell = |dimension: usize| {
        let below = dimension.saturating_sub(1) as u16;
        Some(Cell { dimension, faces: vec![below; face_count(dimension)] })
    };
    let valid = file_of(&Table { cells: (0..512).map(|number: usize| cell(number.min(6))).collect() });
    let all_six = file_of(&Table { cells: vec![cell(6); 512] });
    let more = |count: usize| [&all_six[..], &vec![0; count]].concat();
    vec![valid, more(0), more(1), more(60), vec![0; 100_000]]
}

/// Writes NAME.sketch and NAME.expected for each example into the folder.
pub fn write(folder: &Path) -> std::io::Result<()> {
    std::fs::create_dir_all(folder)?;
    for (name, bytes) in all() {
        std::fs::write(folder.join(format!("{name}.sketch")), &bytes)?;
        std::fs::write(folder.join(format!("{name}.expected")), printed(&bytes))?;
        println!("{name}.sketch: {} bytes", bytes.len());
    }
    Ok(())
}
