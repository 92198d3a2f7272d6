//! 02 "Part lists from partner firms": texts that are easily read wrongly.

use super::{same, table, Bench, Titled, Verdict};
use crate::call::{Call, Run};
use crate::model::table::{FREE, RECORD};

/// The answer to a text in a table of that N, and all words 65535 where it is refused.
fn answered(run: Run, room: usize, text: &[u8], wanted: u32) -> Verdict {
    let mut bench = Bench { run, table: vec![3; room * RECORD] };
    bench.word(Call::Import { text: text.to_vec() }, wanted)?;
    match wanted {
        0 => bench.word(Call::Audit, 0),
        _ => same("table", bench.table, vec![FREE; room * RECORD]),
    }
}

/// The cells that a text gives.
fn gives(run: Run, room: usize, text: &str, wanted: &[(u16, &[u16])]) -> Verdict {
    let mut bench = Bench { run, table: vec![0; room * RECORD] };
    bench.word(Call::Import { text: text.as_bytes().to_vec() }, 0)?;
    bench.cells(wanted)
}

fn no_points(run: Run) -> Verdict {
    gives(run, 1, "0\n", &[])?;
    answered(run, 1, b"0\n0\n", 18)
}

/// Both ways of one edge; an edge inside a triangle; a line of one index; points that no line names.
fn cells_once(run: Run) -> Verdict {
    gives(run, 3, "2\n0 1\n1 0\n", &[(0, &[]), (1, &[]), (2, &[1, 0])])?;
    let points: [(u16, &[u16]); 4] = [(0, &[]), (1, &[]), (2, &[]), (3, &[])];
    gives(run, 4, "4\n3\n", &points)?;
    let others: [(u16, &[u16]); 5] = [(4, &[1, 0]), (5, &[2, 0]), (6, &[2, 1]), (7, &[3, 2]), (8, &[6, 5, 4])];
    gives(run, 16, "4\n2 0\n3 2\n1 2 0\n0\n", &[&points[..], &others].concat())
}

/// Indices are ordered as numbers: the corners are 2, 9, 10.
fn order_of_numbers(run: Run) -> Verdict {
    let points: Vec<(u16, &[u16])> = (0..11).map(|number| (number, &[][..])).collect();
    let others: [(u16, &[u16]); 4] = [(11, &[9, 2]), (12, &[10, 2]), (13, &[10, 9]), (14, &[13, 12, 11])];
    gives(run, 15, "11\n10 9 2\n", &[&points[..], &others].concat())?;
    let mut bench = Bench { run, table: vec![0; 16 * RECORD] };
    bench.word(Call::Import { text: b"11\n10 9 2\n".to_vec() }, 0)?;
    for (k, corner) in [2, 9, 10].into_iter().enumerate() {
        bench.value(Call::Corner { cell: 14, k: k as u16 }, corner)?;
    }
    Ok(())
}

/// 17, whatever else is wrong.
fn malformed(run: Run) -> Verdict {
    let texts: [&[u8]; 32] = [
        b"",
        b"\n",
        b"3",
        b"3\n0",
        b"3\n0 1",
        b"3 4\n",
        b"3\n\n",
        b"\n0\n",
        b"3\n0\n\n",
        b"3\n0 1 2\r\n",
        b"3\r\n0 1 2\r\n",
        b"3\n0\t1\n",
        b"3\n0  1\n",
        b"3\n0 1 \n",
        b"3\n 0 1\n",
        b"3 \n0 1\n",
        b" 3\n0 1\n",
        b"03\n0 1\n",
        b"00\n",
        b"3\n00\n",
        b"3\n0 01\n",
        b"100000\n",
        b"3\n0 100000\n",
        b"3\n000001\n",
        b"600\n5 x\n",
        b"3\n-1\n",
        b"3\n+1\n",
        b"3\n0,1\n",
        b"3\n1.0\n",
        b"3\n0\x001\n",
        b"9\n0 1 2 3 4 5 6 7\n",
        b"9\n1 1 1 1 1 1 1 1\n",
    ];
    for text in texts {
        answered(run, 8, text, 17)?;
    }
    // Nothing is too far behind to be seen: after a wrong index, and with a count that is too large.
    answered(run, 8, b"3\n5\n0 0\n1 2 \n", 17)?;
    answered(run, 8, b"99999\n99999\nx\n", 17)
}

/// 18 before 9, and numbers compared before any limit of N.
fn wrong_indices(run: Run) -> Verdict {
    for text in
        ["70000\n69999 70000\n", "3\n0 3\n", "3\n1 2 1\n", "3\n0\n99999\n", "9\n1 1 1 1 1 1 1\n", "600\n0 1\n5 5\n"]
    {
        answered(run, 8, text.as_bytes(), 18)?;
    }
    // 65536 more is another number, also in 16 bits.
    answered(run, 8, b"3\n0 65536\n", 18)?;
    answered(run, 8, b"3\n65537\n", 18)
}

/// One line of seven has 127 cells; counts at the edges of N.
fn full_tables(run: Run) -> Verdict {
    answered(run, 127, b"7\n0 1 2 3 4 5 6\n", 0)?;
    answered(run, 126, b"7\n0 1 2 3 4 5 6\n", 9)?;
    answered(run, 128, b"8\n0 1 2 3 4 5 6\n", 0)?;
    answered(run, 127, b"8\n0 1 2 3 4 5 6\n", 9)?;
    answered(run, 512, b"512\n", 0)?;
    for text in ["513\n", "70000\n69999 0\n", "65536\n", "99999\n"] {
        answered(run, 512, text.as_bytes(), 9)?;
    }
    // Two lines with five corners in common: 2 · 127 − 31 cells.
    answered(run, 223, b"9\n0 1 2 3 4 5 6\n8 7 6 5 4 3 2\n", 0)?;
    answered(run, 222, b"9\n0 1 2 3 4 5 6\n8 7 6 5 4 3 2\n", 9)?;
    answered(run, 2, b"2\n0 1\n", 9)
}

/// A wrong table length and a malformed text: 1, and no word changes.
fn length_first(run: Run) -> Verdict {
    for length in [0, 7, 9, 513 * RECORD] {
        let mut bench = Bench { run, table: vec![3; length] };
        bench.word(Call::Import { text: b"x".to_vec() }, 1)?;
        bench.word(Call::Import { text: b"0\n".to_vec() }, 1)?;
        same("table", bench.table, vec![3; length])?;
    }
    Ok(())
}

/// The boundary of a tetrahedron, then its whole: holes 1, 0, 1 and none but the first.
fn tetrahedron(run: Run) -> Verdict {
    let mut bench = Bench { run, table: table(15, &[]) };
    bench.word(Call::Import { text: b"4\n3 2 1\n3 2 0\n3 1 0\n2 1 0\n".to_vec() }, 0)?;
    bench.holes(&[1, 0, 1])?;
    bench.word(Call::Import { text: b"4\n2 0 1 3\n".to_vec() }, 0)?;
    bench.holes(&[1]).map(|_| ())
}

pub const ALL: &[Titled] = &[
    ("list, no points", no_points),
    ("list, each cell once", cells_once),
    ("list, the order of numbers", order_of_numbers),
    ("list, malformed texts", malformed),
    ("list, wrong indices", wrong_indices),
    ("list, full tables", full_tables),
    ("list, a wrong length goes first", length_first),
    ("list, a tetrahedron", tetrahedron),
];
