//! 02 "Close the gaps": tables that are easily renumbered wrongly.

use super::measured::TORUS;
use super::{same, table, Bench, Titled, Verdict};
use crate::call::{Call, Run};
use crate::model::table::{FREE, RECORD};

/// Compacts the cells and compares the list and the cells that are left; then once more, which changes no word.
fn compacted(run: Run, cells: &[(u16, &[u16])], list: &[u16], wanted: &[(u16, &[u16])]) -> Verdict {
    let room = list.len();
    let mut bench = Bench::on(run, room, cells);
    let outcome = bench.call(Call::Compact { list: vec![9; room] });
    same("answer", outcome.word, 0)?;
    same("list", outcome.after.call, Call::Compact { list: list.to_vec() })?;
    bench.cells(wanted)?;
    bench.word(Call::Compact { list: vec![9; room] }, 0)?;
    bench.cells(wanted)
}

/// A refused call with a list of that length: neither the table nor the list changes.
fn refused(run: Run, words: Vec<u16>, length: usize, wanted: u32) -> Verdict {
    let mut bench = Bench { run, table: words.clone() };
    let list: Vec<u16> = (100..).take(length).collect();
    let outcome = bench.call(Call::Compact { list: list.clone() });
    same("answer", outcome.word, wanted)?;
    same("list", outcome.after.call, Call::Compact { list })?;
    same("table", outcome.after.table, words)
}

/// A list of N ± 1 words or none, on a valid and on an invalid table.
fn wrong_lists(run: Run) -> Verdict {
    for length in [0, 7, 9, 16] {
        refused(run, table(8, TORUS), length, 1)?;
        refused(run, vec![0; 8 * RECORD], length, 1)?;
    }
    refused(run, vec![FREE; 7], 0, 1)?;
    refused(run, vec![FREE; 7], 1, 1)
}

/// An invalid table: refusal 2 with its breach, and the list stays.
fn invalid(run: Run) -> Verdict {
    refused(run, vec![0; RECORD], 1, 258)?;
    refused(run, table(4, &[(3, &[]), (2, &[3, 1])]), 4, 2 + 256 * 2 + 1024 + 65536 * 2)
}

fn one_record(run: Run) -> Verdict {
    compacted(run, &[], &[FREE], &[])?;
    compacted(run, &[(0, &[])], &[0], &[(0, &[])])
}

fn compact_already(run: Run) -> Verdict {
    compacted(run, TORUS, &[0, 1, 2, 3, 4, 5, FREE, FREE], TORUS)
}

/// A 6-cell at 0, then dimension by dimension down to the points, with gaps between them.
fn six_first(run: Run) -> Verdict {
    let down: [(u16, &[u16]); 8] = [
        (0, &[2, 3, 2, 3, 2, 3, 2]),
        (2, &[4; 6]),
        (3, &[4; 6]),
        (4, &[6; 5]),
        (6, &[7; 4]),
        (7, &[8; 3]),
        (8, &[10; 2]),
        (10, &[]),
    ];
    let up: [(u16, &[u16]); 8] = [
        (0, &[]),
        (1, &[0; 2]),
        (2, &[1; 3]),
        (3, &[2; 4]),
        (4, &[3; 5]),
        (5, &[4; 6]),
        (6, &[4; 6]),
        (7, &[5, 6, 5, 6, 5, 6, 5]),
    ];
    compacted(run, &down, &[7, FREE, 5, 6, 4, FREE, 3, 2, 1, FREE, 0], &up)
}

/// Cells of one dimension keep their order, whatever their faces; points go before edges that had lower numbers.
fn order_within(run: Run) -> Verdict {
    compacted(
        run,
        &[(1, &[5, 3]), (2, &[3, 5]), (3, &[]), (5, &[])],
        &[FREE, 2, 3, 0, FREE, 1, FREE],
        &[(0, &[]), (1, &[]), (2, &[1, 0]), (3, &[0, 1])],
    )
}

/// One edge before N − 1 points: every record moves, in a single cycle.
fn one_cycle(run: Run) -> Verdict {
    for room in [2_u16, 3, 64, 65, 512] {
        let (first, last) = ([room - 1, 1], [room - 2, 0]);
        let points = |from: u16| (from..from + room - 1).map(|number| (number, &[][..]));
        let cells: Vec<(u16, &[u16])> = [(0, &first[..])].into_iter().chain(points(1)).collect();
        let wanted: Vec<(u16, &[u16])> = points(0).chain([(room - 1, &last[..])]).collect();
        let list: Vec<u16> = [room - 1].into_iter().chain(0..room - 1).collect();
        compacted(run, &cells, &list, &wanted)?;
    }
    Ok(())
}

pub const ALL: &[Titled] = &[
    ("compaction, lists of a wrong length", wrong_lists),
    ("compaction, invalid tables", invalid),
    ("compaction, N = 1", one_record),
    ("compaction, compact already", compact_already),
    ("compaction, a 6-cell at 0 and points last", six_first),
    ("compaction, order within a dimension", order_within),
    ("compaction, a cycle of length N", one_cycle),
];
