//! 02 "Weld two cells whose sides aren't joined yet": pairs that are easily joined wrongly.

use super::{same, table, Bench, Titled, Verdict};
use crate::call::{Call, Run};
use crate::model::table::{face_count, RECORD};

/// Welds in both orders: the kept number is the smaller one, and these cells are left.
fn welded(run: Run, cells: &[(u16, &[u16])], a: u16, b: u16, wanted: &[(u16, &[u16])]) -> Verdict {
    for (a, b) in [(a, b), (b, a)] {
        let mut bench = Bench::on(run, 16, cells);
        bench.value(Call::Weld { a, b }, a.min(b).into())?;
        bench.cells(wanted)?;
        bench.word(Call::Audit, 0)?;
    }
    Ok(())
}

/// Edges (1,0) and (0,1) become a loop.
fn swapped_edges(run: Run) -> Verdict {
    let cells: [(u16, &[u16]); 4] = [(0, &[]), (1, &[]), (2, &[1, 0]), (3, &[0, 1])];
    welded(run, &cells, 2, 3, &[(0, &[]), (2, &[0, 0])])
}

/// Triangles (1,2,3) and (2,3,1) over loops: one edge is left, and one point.
fn turned_triangles(run: Run) -> Verdict {
    let cells: [(u16, &[u16]); 6] =
        [(0, &[]), (1, &[0; 2]), (2, &[0; 2]), (3, &[0; 2]), (4, &[1, 2, 3]), (5, &[2, 3, 1])];
    welded(run, &cells, 5, 4, &[(0, &[]), (1, &[0; 2]), (4, &[1; 3])])
}

/// Edges (3,2) and (2,1): the class of 1, 2, 3 is no named pair of points, and its number is 1 everywhere.
fn chain_of_points(run: Run) -> Verdict {
    let cells: [(u16, &[u16]); 6] = [(1, &[]), (2, &[]), (3, &[]), (5, &[3, 2]), (4, &[2, 1]), (0, &[3, 1])];
    welded(run, &cells, 5, 4, &[(1, &[]), (4, &[1, 1]), (0, &[1, 1])])
}

/// Two points: as a merge. The edges and triangles over them, equal now, stay apart.
fn points_alone(run: Run) -> Verdict {
    let cells: [(u16, &[u16]); 6] = [(0, &[]), (1, &[]), (2, &[1, 0]), (3, &[0, 1]), (4, &[0, 0]), (5, &[1, 1])];
    let wanted: [(u16, &[u16]); 5] = [(0, &[]), (2, &[0, 0]), (3, &[0, 0]), (4, &[0, 0]), (5, &[0, 0])];
    welded(run, &cells, 0, 1, &wanted)?;
    let mut merged = Bench::on(run, 16, &cells);
    merged.value(Call::Merge { a: 1, b: 0 }, 0)?;
    merged.cells(&wanted)
}

/// Equal faces: as a merge, and a triangle above a freed edge names the kept one.
fn equal_faces(run: Run) -> Verdict {
    let cells: [(u16, &[u16]); 5] = [(0, &[]), (1, &[0, 0]), (2, &[0, 0]), (3, &[1, 2, 1]), (4, &[2, 2, 1])];
    welded(run, &cells, 1, 2, &[(0, &[]), (1, &[0, 0]), (3, &[1; 3]), (4, &[1; 3])])
}

/// Two triangles of three points each, the second with its numbers from above: three points, three edges, one triangle.
fn two_triangles(run: Run) -> Verdict {
    let low: [(u16, &[u16]); 7] =
        [(0, &[]), (1, &[]), (2, &[]), (3, &[2, 1]), (4, &[2, 0]), (5, &[1, 0]), (6, &[3, 4, 5])];
    let high: [(u16, &[u16]); 7] =
        [(13, &[]), (12, &[]), (11, &[]), (10, &[11, 12]), (9, &[11, 13]), (8, &[12, 13]), (7, &[10, 9, 8])];
    welded(run, &[low, high].concat(), 7, 6, &low)?;
    // One side of each alone: the other edges and both triangles stay.
    let mut bench = Bench::on(run, 16, &[low, high].concat());
    bench.value(Call::Weld { a: 4, b: 8 }, 4)?;
    let rest: [(u16, &[u16]); 4] = [(11, &[]), (10, &[11, 2]), (9, &[11, 0]), (7, &[10, 9, 4])];
    bench.cells(&[&low[..], &rest].concat())
}

/// The triangles with corners 0, 1, 2 and 1, 2, 3: edges 4, 6, 8 become one, 5 and 7 another, and all four points one.
fn neighbours(run: Run) -> Verdict {
    let points: [(u16, &[u16]); 4] = [(0, &[]), (1, &[]), (2, &[]), (3, &[])];
    let edges: [(u16, &[u16]); 5] = [(4, &[1, 0]), (5, &[2, 0]), (6, &[2, 1]), (7, &[3, 1]), (8, &[3, 2])];
    let triangles: [(u16, &[u16]); 2] = [(9, &[6, 5, 4]), (10, &[8, 7, 6])];
    let wanted: [(u16, &[u16]); 4] = [(0, &[]), (4, &[0, 0]), (5, &[0, 0]), (9, &[4, 5, 4])];
    welded(run, &[&points[..], &edges, &triangles].concat(), 10, 9, &wanted)
}

/// Refusals 3, 4, 5; the lower one where several apply; never 6.
fn refusals(run: Run) -> Verdict {
    let cells: [(u16, &[u16]); 4] = [(0, &[]), (1, &[]), (2, &[1, 0]), (3, &[0, 1])];
    let mut bench = Bench::on(run, 8, &cells);
    for (a, b, wanted) in [(5, 5, 3), (65535, 2, 3), (0, 8, 3), (2, 2, 4), (0, 0, 4), (0, 2, 5), (3, 1, 5), (2, 3, 0)] {
        bench.table = table(8, &cells);
        bench.word(Call::Weld { a, b }, wanted)?;
    }
    bench.table = vec![0; RECORD];
    bench.word(Call::Weld { a: 9, b: 9 }, 258)?;
    bench.table = vec![0; RECORD - 1];
    bench.word(Call::Weld { a: 9, b: 9 }, 1)
}

/// Two disjoint cells of dimension 6 with all their faces: 127 cells are joined with 127. The second one's numbers run down.
fn two_sixes(run: Run) -> Verdict {
    let number = |second: bool, set: u16| if second { 254 - set } else { set - 1 };
    let mut cells: Vec<(u16, Vec<u16>)> = vec![];
    for second in [false, true] {
        for set in 1..128_u16 {
            let members: Vec<u16> = (0..7).filter(|i| set >> i & 1 == 1).collect();
            let places = 0..face_count(members.len() - 1);
            let faces = places.map(|j| number(second, set & !(1 << members[j]))).collect();
            cells.push((number(second, set), faces));
        }
    }
    let cells: Vec<(u16, &[u16])> = cells.iter().map(|(number, faces)| (*number, &faces[..])).collect();
    let mut bench = Bench::on(run, 254, &cells);
    bench.holes(&[2])?;
    bench.value(Call::Weld { a: 127, b: 126 }, 126)?;
    bench.cells(&cells[..127])?;
    bench.holes(&[1]).map(|_| ())?;
    same("cells left", bench.table.chunks(RECORD).filter(|record| record[0] <= 6).count(), 127)
}

pub const ALL: &[Titled] = &[
    ("weld, swapped edges", swapped_edges),
    ("weld, turned triangles", turned_triangles),
    ("weld, a chain of points", chain_of_points),
    ("weld, two points", points_alone),
    ("weld, equal faces", equal_faces),
    ("weld, two triangles", two_triangles),
    ("weld, two triangles with a common edge", neighbours),
    ("weld, refusals", refusals),
    ("weld, two cells of dimension 6", two_sixes),
];
