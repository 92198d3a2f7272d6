//! Cases 1 to 15 of 01 "Measured pieces", its "Shortcuts that look right", and 02 "Sheet test counts places".

use super::{same, Bench, Titled, Verdict};
use crate::call::{Call, Run};
use crate::model::table::{FREE, RECORD};

const LOOP: &[(u16, &[u16])] = &[(0, &[]), (1, &[0, 0])];
const SEGMENT: &[(u16, &[u16])] = &[(0, &[]), (1, &[]), (2, &[1, 0])];
const TWO_EDGES: &[(u16, &[u16])] = &[(0, &[]), (1, &[]), (2, &[1, 0]), (3, &[1, 0])];
const SWAPPED: &[(u16, &[u16])] = &[(0, &[]), (1, &[]), (2, &[1, 0]), (3, &[0, 1])];
pub const TORUS: &[(u16, &[u16])] =
    &[(0, &[]), (1, &[0, 0]), (2, &[0, 0]), (3, &[0, 0]), (4, &[2, 3, 1]), (5, &[1, 3, 2])];
/// Two triangles that meet each of two loops in three places, one of them twice.
pub const FOLDED: &[(u16, &[u16])] = &[(0, &[]), (1, &[0, 0]), (2, &[0, 0]), (3, &[1, 1, 2]), (4, &[1, 2, 2])];
const FIGURE_EIGHT: &[(u16, &[u16])] = &[(0, &[]), (1, &[0, 0]), (2, &[0, 0])];
pub const PROJECTIVE_PLANE: &[(u16, &[u16])] =
    &[(0, &[]), (1, &[]), (2, &[1, 0]), (3, &[1, 0]), (4, &[0, 0]), (5, &[3, 2, 4]), (6, &[2, 3, 4])];

fn case_1(run: Run) -> Verdict {
    let mut bench = Bench { run, table: vec![3; RECORD] };
    bench.word(Call::Empty, 0)?;
    same("table", bench.table.clone(), vec![FREE; RECORD])?;
    bench.word(Call::Audit, 0)?;
    bench.holes(&[]).map(|_| ())
}

fn case_2(run: Run) -> Verdict {
    let mut bench = Bench::on(run, 8, LOOP);
    bench.value(Call::Incidence { cell: 1, face: 0 }, 0)?;
    bench.holes(&[1, 1]).map(|_| ())
}

fn case_3(run: Run) -> Verdict {
    let mut bench = Bench::on(run, 8, SEGMENT);
    bench.value(Call::Incidence { cell: 2, face: 1 }, 1)?;
    bench.value(Call::Incidence { cell: 2, face: 0 }, -1)?;
    bench.holes(&[1, 0]).map(|_| ())
}

fn case_4(run: Run) -> Verdict {
    let mut bench = Bench::on(run, 8, SEGMENT);
    bench.value(Call::Merge { a: 1, b: 0 }, 0)?;
    bench.cells(&[(0, &[]), (2, &[0, 0])])?;
    let nothing = bench.marks(&[]);
    bench.value(nothing, 1)
}

fn case_5(run: Run) -> Verdict {
    let mut bench = Bench::on(run, 8, TWO_EDGES);
    bench.holes(&[1, 1])?;
    bench.value(Call::Merge { a: 2, b: 3 }, 2)?;
    bench.holes(&[1, 0]).map(|_| ())
}

fn case_6(run: Run) -> Verdict {
    Bench::on(run, 8, SWAPPED).word(Call::Merge { a: 2, b: 3 }, 6)
}

fn case_7(run: Run) -> Verdict {
    let additions = Bench::on(run, 8, TORUS).holes(&[1, 2, 1])?;
    same("additions", additions, vec![0, 0, 1, 0, 0, 0, 0])
}

fn case_8(run: Run) -> Verdict {
    Bench::on(run, 8, PROJECTIVE_PLANE).holes(&[1, 1, 1]).map(|_| ())
}

fn case_9(run: Run) -> Verdict {
    let mut bench = Bench::on(run, 8, &[(0, &[]), (1, &[0, 0]), (2, &[1, 1, 1])]);
    bench.value(Call::Incidence { cell: 2, face: 1 }, 1)?;
    bench.holes(&[1, 0, 0]).map(|_| ())
}

fn case_10(run: Run) -> Verdict {
    let mut bench = Bench::on(run, 5, LOOP);
    let both = bench.marks(&[0, 1]);
    bench.value(both, 2)?;
    bench.cells(&[(0, &[]), (1, &[0, 0]), (2, &[]), (3, &[2, 0]), (4, &[3, 3, 1])])?;
    bench.holes(&[1, 0, 0]).map(|_| ())
}

fn case_11(run: Run) -> Verdict {
    let mut bench = Bench::on(run, 4, LOOP);
    let both = bench.marks(&[0, 1]);
    bench.word(both, 9)
}

fn case_12(run: Run) -> Verdict {
    let mut bench = Bench::on(run, 8, LOOP);
    let edge = bench.marks(&[1]);
    bench.word(edge, 7)
}

fn case_13(run: Run) -> Verdict {
    let mut bench = Bench::on(run, 8, SEGMENT);
    let chain = |c: i64| vec![0, 0, c, 0, 0, 0, 0, 0];
    let call = |c: i64| Call::Boundary { chain: chain(c), dimension: 1, result: vec![5; 8] };
    bench.word(call(i64::MIN), 10)?;
    bench.word(call(-(1 << 40) - 1), 10)?;
    let outcome = bench.call(call(-(1 << 40)));
    let result = vec![1 << 40, -(1 << 40), 0, 0, 0, 0, 0, 0];
    same("answer", outcome.word, 0)?;
    same("buffers", outcome.after.call, Call::Boundary { chain: chain(-(1 << 40)), dimension: 1, result })
}

fn case_14(run: Run) -> Verdict {
    // The simplex of dimension 6 by seven cones, each over all that is there: 2^7 − 1 cells.
    let mut bench = Bench::on(run, 512, &[]);
    for cone in 0..7 {
        let all: Vec<u16> = (0..(1 << cone) - 1).collect();
        let marks = bench.marks(&all);
        bench.value(marks, all.len() as i64)?;
    }
    bench.holes(&[1])?;
    let six = bench.marks(&(0..127).collect::<Vec<u16>>());
    bench.word(six, 8)?;
    let five = bench.marks(&(0..63).collect::<Vec<u16>>());
    bench.value(five, 127)?;
    bench.holes(&[1]).map(|_| ())
}

fn case_15(run: Run) -> Verdict {
    let mut bench = Bench::on(run, 8, &[(0, &[]), (3, &[]), (2, &[3, 0])]);
    bench.value(Call::Merge { a: 3, b: 0 }, 0)?;
    bench.cells(&[(0, &[]), (2, &[0, 0])])
}

/// "Comparing sets of faces or corners instead of ordered lists (case 6, and 4 against 5 in case 7)."
/// The ends of the incidence: a 6-cell that names one 5-cell at its four even places and another at its three odd ones.
fn incidence_ends(run: Run) -> Verdict {
    let cells: [(u16, &[u16]); 8] = [
        (0, &[]),
        (1, &[0; 2]),
        (2, &[1; 3]),
        (3, &[2; 4]),
        (4, &[3; 5]),
        (5, &[4; 6]),
        (6, &[4; 6]),
        (7, &[5, 6, 5, 6, 5, 6, 5]),
    ];
    let mut bench = Bench::on(run, 8, &cells);
    bench.value(Call::Incidence { cell: 7, face: 5 }, 4)?;
    bench.value(Call::Incidence { cell: 7, face: 6 }, -3)
}

fn sets_of_faces(run: Run) -> Verdict {
    case_6(run)?;
    Bench::on(run, 8, TORUS).word(Call::Merge { a: 4, b: 5 }, 6)
}

/// "Counting a repeated face once when taking a boundary (case 2)."
fn repeated_face(run: Run) -> Verdict {
    let mut bench = Bench::on(run, 2, LOOP);
    let outcome = bench.call(Call::Boundary { chain: vec![0, 4], dimension: 1, result: vec![9; 2] });
    let wanted = Call::Boundary { chain: vec![0, 4], dimension: 1, result: vec![0; 2] };
    same("buffers", outcome.after.call, wanted)?;
    bench.holes(&[1, 1]).map(|_| ())
}

/// "Giving cones rising numbers from the end of the table, past free records": also over faces numbered above their cell.
fn free_records(run: Run) -> Verdict {
    let mut bench = Bench::on(run, 8, &[(3, &[]), (5, &[]), (2, &[5, 3])]);
    let all = bench.marks(&[2, 3, 5]);
    bench.value(all, 0)?;
    let cones: [(u16, &[u16]); 4] = [(0, &[]), (1, &[6, 4, 2]), (4, &[0, 3]), (6, &[0, 5])];
    bench.cells(&[&[(3, &[][..]), (5, &[]), (2, &[5, 3])], &cones[..]].concat())
}

/// "Accepting evidence whose rows have different largest boundary cells but whose row lacks its own cell."
fn own_cell(run: Run) -> Verdict {
    let path: &[(u16, &[u16])] = &[(0, &[]), (1, &[]), (2, &[]), (3, &[1, 0]), (4, &[2, 0]), (5, &[2, 0])];
    let mut bench = Bench::on(run, 8, path);
    let shifted = bench.rows(&[&[0], &[1], &[2], &[], &[3], &[4]]);
    bench.word(shifted, 13 | 3 << 16)?;
    let later = bench.rows(&[&[0], &[1], &[2], &[3], &[4], &[]]);
    bench.word(later, 13 | 5 << 16)
}

/// 02 "Sheet test counts places": the folded strip and the figure eight are no sheets, the loop and the torus are.
fn sheet_places(run: Run) -> Verdict {
    Bench::on(run, 8, FOLDED).value(Call::Sheet, 0)?;
    Bench::on(run, 8, FIGURE_EIGHT).value(Call::Sheet, 0)?;
    Bench::on(run, 8, LOOP).value(Call::Sheet, 1)?;
    Bench::on(run, 8, TORUS).value(Call::Sheet, 1)
}

pub const ALL: &[Titled] = &[
    ("case 1, empty table", case_1),
    ("case 2, loop", case_2),
    ("case 3, segment", case_3),
    ("case 4, segment merged to a loop", case_4),
    ("case 5, two edges", case_5),
    ("case 6, swapped edge", case_6),
    ("case 7, torus", case_7),
    ("case 8, holes 1, 1, 1", case_8),
    ("case 9, one edge three times", case_9),
    ("case 10, cone over the loop", case_10),
    ("case 11, no room", case_11),
    ("case 12, marks not closed", case_12),
    ("case 13, coefficients", case_13),
    ("case 14, dimension 6", case_14),
    ("case 15, freed number above", case_15),
    ("incidence 4 and -3", incidence_ends),
    ("shortcut 1, sets of faces", sets_of_faces),
    ("shortcut 2, repeated face once", repeated_face),
    ("shortcut 3, faces above the freed number", case_15),
    ("shortcut 4, free records passed over", free_records),
    ("shortcut 5, row without its own cell", own_cell),
    ("sheet test, three places on one edge", sheet_places),
];
