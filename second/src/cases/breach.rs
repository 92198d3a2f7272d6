//! 02 "Tell me where the table is broken": tables whose first breach is easily named wrongly.

use super::{same, table, Bench, Titled, Verdict};
use crate::call::{Call, Run};
use crate::compare::files::records;
use crate::examples;
use crate::model::table::{FREE, RECORD};

const RECORD_BREACH: u32 = 1;
const FACE_BREACH: u32 = 2;
const LAW_BREACH: u32 = 3;

/// The word of refusal 2 with a breach.
fn breach(cell: u32, kind: u32, j: u32, l: u32) -> u32 {
    2 + 256 * kind + 1024 * j + 8192 * l + 65536 * cell
}

fn audited(run: Run, table: Vec<u16>, wanted: u32) -> Verdict {
    Bench { run, table }.word(Call::Audit, wanted)
}

/// Points 0, 1, edges 2 (0,0) and 5 (1,1), triangle 3 (2,2,5): broken are the pairs (2,0) and (2,1).
const LAW_AT_3: &[(u16, &[u16])] = &[(0, &[]), (1, &[]), (2, &[0, 0]), (5, &[1, 1]), (3, &[2, 2, 5])];

/// The search goes cell by cell: the law at 3 before the record at 4.
fn law_before_record(run: Run) -> Verdict {
    let mut words = table(8, LAW_AT_3);
    audited(run, words.clone(), breach(3, LAW_BREACH, 2, 0))?;
    words[4 * RECORD] = 7;
    audited(run, words, breach(3, LAW_BREACH, 2, 0))
}

fn all_zero(run: Run) -> Verdict {
    audited(run, vec![0; RECORD], 258)
}

/// An edge with a face that is not below N and a word in an unused place: the record goes first.
fn record_before_face(run: Run) -> Verdict {
    let mut words = table(8, &[(0, &[]), (1, &[8, 0])]);
    audited(run, words.clone(), breach(1, FACE_BREACH, 0, 0))?;
    words[RECORD + 7] = 0;
    audited(run, words, breach(1, RECORD_BREACH, 0, 0))
}

/// A point with words in unused places is live for the search, so the edge below it in number is sound.
fn live_by_word_0(run: Run) -> Verdict {
    let mut words = table(8, &[(5, &[]), (2, &[5, 5])]);
    words[5 * RECORD + 3] = 1;
    audited(run, words, breach(5, RECORD_BREACH, 0, 0))
}

/// Triangle 4 over edge 9 whose words are 900: the law compares words as they stand, so it holds at 4.
fn words_as_they_stand(run: Run) -> Verdict {
    audited(run, table(16, &[(4, &[9, 9, 9]), (9, &[900, 900])]), breach(9, FACE_BREACH, 0, 0))
}

/// Of the pairs (1,0) and (2,0) the one with the smaller j.
fn smaller_j(run: Run) -> Verdict {
    audited(
        run,
        table(8, &[(0, &[]), (1, &[]), (2, &[0, 0]), (3, &[1, 1]), (4, &[3, 2, 2])]),
        breach(4, LAW_BREACH, 1, 0),
    )
}

/// The largest of every part: cell 511, j 6, l 5. Its face 6 is cell 8, whose face 5 alone is another cell than all others.
fn largest_parts(run: Run) -> Verdict {
    let below: Vec<(u16, Vec<u16>)> = (1..6).map(|p| (p, vec![p - 1; p as usize + 1])).collect();
    let mut cells: Vec<(u16, &[u16])> = below.iter().map(|(number, faces)| (*number, &faces[..])).collect();
    cells.extend([(0, &[][..]), (7, &[3; 5]), (8, &[4, 4, 4, 4, 4, 7]), (511, &[5, 5, 5, 5, 5, 5, 8])]);
    audited(run, table(512, &cells), 0x01FF_BB02)
}

/// Refusal 1 goes before the breach and carries nothing.
fn length_first(run: Run) -> Verdict {
    let mut bench = Bench { run, table: vec![0; RECORD] };
    bench.word(Call::Cone { marks: vec![0; 2] }, 1)?;
    bench.word(Call::Check { evidence: vec![] }, 1)?;
    bench.word(Call::Cone { marks: vec![0] }, 258)?;
    bench.word(Call::Check { evidence: vec![1] }, 258)
}

/// The reader names the breach of the table that the file describes, though every word is 65535 by then.
fn described_by_a_file(run: Run) -> Verdict {
    let mut file = examples::LOOP.to_vec();
    file[50] = 1; // Face 1 of the edge is the edge itself.
    let mut bench = Bench { run, table: vec![3; 2 * RECORD] };
    bench.word(Call::Read { file }, breach(1, FACE_BREACH, 1, 0))?;
    same("table", bench.table.clone(), vec![FREE; 2 * RECORD])?;
    let file = records(&table(8, LAW_AT_3));
    let mut bench = Bench { run, table: vec![3; 8 * RECORD] };
    bench.word(Call::Read { file }, breach(3, LAW_BREACH, 2, 0))?;
    same("table", bench.table.clone(), vec![FREE; 8 * RECORD])
}

pub const ALL: &[Titled] = &[
    ("breach, law at 3 and record at 4", law_before_record),
    ("breach, all words 0", all_zero),
    ("breach, record and face at one cell", record_before_face),
    ("breach, point with stray words", live_by_word_0),
    ("breach, words as they stand", words_as_they_stand),
    ("breach, two pairs", smaller_j),
    ("breach, cell 511, j 6, l 5", largest_parts),
    ("breach, a wrong length goes first", length_first),
    ("breach, of a file", described_by_a_file),
];
