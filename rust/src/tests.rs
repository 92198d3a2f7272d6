//! The binding, not the kernel: that lengths, values, rows and numbers arrive where they belong.

use crate::*;

/// A table with room for `n` cells and these records, faces in order.
fn made(n: usize, records: &[(u16, u16, &[u16])]) -> Table {
    let mut table = Table::new(n).unwrap();
    for &(cell, dimension, faces) in records {
        let record = &mut table.words_mut()[RECORD_WORDS * usize::from(cell)..][..RECORD_WORDS];
        record[0] = dimension;
        record[1..=faces.len()].copy_from_slice(faces);
    }
    table.audit().unwrap();
    table
}

fn loop_of(n: usize) -> Table {
    made(n, &[(0, 0, &[]), (1, 1, &[0, 0])])
}

fn torus() -> Table {
    let edge = |c| (c, 1, &[0, 0][..]);
    made(8, &[(0, 0, &[]), edge(1), edge(2), edge(3), (4, 2, &[2, 3, 1]), (5, 2, &[1, 3, 2])])
}

#[test]
fn a_loop_has_one_tunnel() {
    let table = loop_of(8);
    assert_eq!(table.incidence(1, 0), Ok(0));
    assert_eq!(table.count(), Ok(Count { cells: [1, 1, 0, 0, 0, 0, 0], holes: [1, 1, 0, 0, 0, 0, 0] }));
    assert_eq!(table.sheet(), Ok(true));
    assert_eq!(Table::new(1).unwrap().sheet(), Ok(false));
}

#[test]
fn a_segment_with_merged_ends_is_a_loop() {
    let mut table = Table::new(8).unwrap();
    assert_eq!(table.cone_over(&[]), Ok(0));
    assert_eq!(table.cone_over(&[0]), Ok(1));
    assert_eq!(table.words()[16..19], [1, 1, 0]);
    assert_eq!((table.incidence(2, 1), table.incidence(2, 0)), (Ok(1), Ok(-1)));
    assert_eq!((table.corner(2, 0), table.corner(2, 1)), (Ok(0), Ok(1)));
    let mut boundary = [7; 8];
    assert_eq!(table.boundary(&[0, 0, 5, 0, 0, 0, 0, 0], 1, &mut boundary), Ok(()));
    assert_eq!(boundary, [-5, 5, 0, 0, 0, 0, 0, 0]);
    assert_eq!(table.merge(1, 0), Ok(0));
    assert_eq!(table.words()[16..19], [1, 0, 0]);
    assert_eq!(table.cone_over(&[]), Ok(1));
}

#[test]
fn a_weld_joins_the_sides_too() {
    // Two triangles apart from each other: points 0 1 2, edges 3 4 5, triangle 6, and the same from 10 on.
    let one: [(u16, u16, &[u16]); 7] =
        [(0, 0, &[]), (1, 0, &[]), (2, 0, &[]), (3, 1, &[2, 1]), (4, 1, &[2, 0]), (5, 1, &[1, 0]), (6, 2, &[3, 4, 5])];
    let mut table = made(20, &one);
    let (low, high) = table.words_mut().split_at_mut(RECORD_WORDS * 10);
    for (word, copy) in low.iter().zip(high) {
        *copy = *word;
    }
    for cell in [13, 14, 15, 16] {
        for face in &mut table.words_mut()[RECORD_WORDS * cell + 1..RECORD_WORDS * (cell + 1)] {
            *face = face.saturating_add(10);
        }
    }
    assert_eq!(table.count().unwrap().holes[..3], [2, 0, 0]);
    let mut one = table.clone();
    assert_eq!(table.merge(16, 6), Err(Refusal::FacesDiffer));
    assert_eq!(table.weld(16, 6), Ok(6));
    assert!(table.words()[RECORD_WORDS * 7..].iter().all(|&word| word == FREE));
    for (a, b) in [(0, 10), (1, 11), (2, 12), (3, 13), (4, 14), (5, 15), (6, 16)] {
        assert_eq!(one.merge(a, b), Ok(a));
    }
    assert_eq!(table, one);
    assert_eq!(table.weld(6, 16), Err(Refusal::NotLive));
    assert_eq!(table.weld(6, 6), Err(Refusal::SameCell));
    assert_eq!(table.weld(6, 3), Err(Refusal::DimensionsDiffer));

    // Edges in opposite directions become a loop.
    let mut table = made(8, &[(0, 0, &[]), (1, 0, &[]), (2, 1, &[1, 0]), (3, 1, &[0, 1])]);
    assert_eq!(table.weld(2, 3), Ok(2));
    assert_eq!(table, made(8, &[(0, 0, &[]), (2, 1, &[0, 0])]));
}

#[test]
fn a_compaction_closes_the_gaps() {
    // Points 1 and 6, edges 0 (6,1) and 4 (1,1), triangle 3 (0,0,4).
    let mut table = made(8, &[(1, 0, &[]), (6, 0, &[]), (0, 1, &[6, 1]), (4, 1, &[1, 1]), (3, 2, &[0, 0, 4])]);
    let (before, count) = (table.clone(), table.count());
    assert_eq!(table.compact(&mut [0; 7]), Err(Refusal::Length));
    assert_eq!(table.compact(&mut [0; 9]), Err(Refusal::Length));
    assert_eq!(table, before);
    let mut list = [0; 8];
    assert_eq!(table.compact(&mut list), Ok(()));
    assert_eq!(list, [2, 0, FREE, 4, 3, FREE, 1, FREE]);
    assert_eq!(table, made(8, &[(0, 0, &[]), (1, 0, &[]), (2, 1, &[1, 0]), (3, 1, &[0, 0]), (4, 2, &[2, 2, 3])]));
    assert_eq!(table.count(), count);
    let compacted = table.clone();
    assert_eq!(table.compact(&mut list), Ok(()));
    assert_eq!((table, list), (compacted, [0, 1, 2, 3, 4, FREE, FREE, FREE]));
    let mut broken = Table::over([0; 8]);
    let mut untouched = [7];
    assert_eq!(broken.compact(&mut untouched), Err(Refusal::Invalid(Breach::Record { cell: 0 })));
    assert_eq!(untouched, [7]);
}

#[test]
fn a_torus_has_holes_1_2_1() {
    let table = torus();
    let mut evidence = vec![0; evidence_words(8)];
    assert_eq!(table.reduce(&mut evidence), Ok([0, 0, 1, 0, 0, 0, 0]));
    let count = table.check(&evidence).unwrap();
    assert_eq!(count, table.count().unwrap());
    assert_eq!((count.cells, count.holes), ([1, 3, 2, 0, 0, 0, 0], [1, 2, 1, 0, 0, 0, 0]));
}

#[test]
fn words_are_owned_or_borrowed() {
    let mut words = [0; 64];
    let mut table = Table::over(&mut words[..]);
    assert_eq!(table.audit(), Err(Refusal::Invalid(Breach::Record { cell: 0 })));
    table.empty().unwrap();
    table.cone_over(&[]).unwrap();
    assert_eq!(words[..2], [0, FREE]);
    assert_eq!(Table::over(&words[..]).count().unwrap().holes[0], 1);
    assert_eq!(Table::over(words).merge(0, 0), Err(Refusal::SameCell));
}

#[test]
fn each_refusal_comes_with_its_number() {
    let edge = made(8, &[(0, 0, &[]), (1, 0, &[]), (2, 1, &[1, 0]), (3, 1, &[0, 1])]);
    let mut merged = edge.clone();
    assert_eq!(Table::new(0), Err(Refusal::Length));
    assert_eq!(Table::new(usize::MAX), Err(Refusal::Length));
    assert_eq!(Table::over(vec![FREE; RECORD_WORDS * (CAPACITY + 1)]).count(), Err(Refusal::Length));
    assert_eq!(Table::over([FREE; 9]).cone_over(&[600]), Err(Refusal::Length));
    assert_eq!(Table::over([0; 8]).cone_over(&[600]), Err(Refusal::Invalid(Breach::Record { cell: 0 })));
    assert_eq!(merged.cone_over(&[600]), Err(Refusal::NotLive));
    assert_eq!(merged.cone_over(&[63]), Err(Refusal::NotLive));
    assert_eq!(merged.merge(0, 65535), Err(Refusal::NotLive));
    assert_eq!(merged.merge(1, 1), Err(Refusal::SameCell));
    assert_eq!(merged.merge(0, 2), Err(Refusal::DimensionsDiffer));
    assert_eq!(merged.merge(2, 3), Err(Refusal::FacesDiffer));
    assert_eq!(merged.cone_over(&[2]), Err(Refusal::NotClosed));
    assert_eq!(merged, edge);
    assert_eq!(loop_of(4).cone_over(&[0, 1]), Err(Refusal::NoRoom));
    assert_eq!(edge.write(&mut [0; 59]), Err(Refusal::NoRoom));
    assert_eq!(edge.boundary(&[0; 8], 1, &mut [0; 7]), Err(Refusal::Length));
    assert_eq!(edge.boundary(&[i64::MIN; 8], 7, &mut [0; 8]), Err(Refusal::NoSuchPlace));
    assert_eq!(edge.boundary(&[i64::MIN; 8], 1, &mut [0; 8]), Err(Refusal::TooLarge));
    assert_eq!(edge.boundary(&[1; 8], 1, &mut [0; 8]), Err(Refusal::Misplaced));
    assert_eq!(edge.corner(2, 2), Err(Refusal::NoSuchPlace));
    assert_eq!(edge.check(&[]), Err(Refusal::Length));
}

#[test]
fn a_cell_of_dimension_6_has_no_cone() {
    let mut table = simplex();
    assert_eq!(table.count().unwrap().cells, [7, 21, 35, 35, 21, 7, 1]);
    let all: Vec<u16> = (0..127).collect();
    assert_eq!(table.cone_over(&all), Err(Refusal::TopMarked));
}

#[test]
fn broken_evidence_names_its_row() {
    let table = made(8, &[(0, 0, &[]), (1, 0, &[]), (2, 1, &[1, 0]), (3, 1, &[1, 0])]);
    let mut evidence = [1, 2, 4, 8, 0, 0, 0, 0];
    assert_eq!(table.check(&evidence), Err(Refusal::RuleB { row: 3 }));
    evidence[3] = 12;
    assert_eq!(table.check(&evidence).unwrap().holes[..2], [1, 1]);
    evidence[5] = 1;
    assert_eq!(table.check(&evidence), Err(Refusal::RuleA { row: 5 }));
}

#[test]
fn a_broken_table_names_its_first_breach() {
    let refused = |table: &Table| match table.audit() {
        Err(Refusal::Invalid(breach)) => breach,
        other => panic!("{other:?}"),
    };
    let mut table = torus();
    table.words_mut()[RECORD_WORDS * 5 + 7] = 0; // an unused word of triangle 5
    assert_eq!(refused(&table), Breach::Record { cell: 5 });
    table.words_mut()[RECORD_WORDS * 4 + 3] = 0; // its face 2 names the point
    assert_eq!(refused(&table), Breach::Face { cell: 4, place: 2 });
    let breach = refused(&table);
    assert_eq!(breach.to_string(), "cell 4: face 2 names no live cell of the dimension below");
    assert_eq!(breach.beside(&table), "cell 4: face 2 names no live cell of dimension 1, in [2, 2, 3, 0, 65535, 65535, 65535, 65535]");
    assert_eq!(breach.beside(&Table::over([0; 9])), breach.to_string());
    assert_eq!(table.merge(0, 0), Err(Refusal::Invalid(breach)));

    // Triangle 3 over edges (1,0), (0,1), (1,0): the pairs (1,0) and (2,1) are broken, and the first is told.
    let mut table = made(8, &[(0, 0, &[]), (1, 0, &[]), (2, 1, &[1, 0]), (4, 1, &[0, 1])]);
    table.words_mut()[RECORD_WORDS * 3..][..4].copy_from_slice(&[2, 2, 4, 2]);
    assert_eq!(refused(&table), Breach::Law { cell: 3, j: 1, l: 0 });
    assert_eq!(refused(&table).to_string(), "cell 3: face 0 of face 1 is not face 0 of face 0");
}

/// One cell of dimension 6 with all its faces, 127 cells, by seven cones.
fn simplex() -> Table {
    let mut table = Table::new(CAPACITY).unwrap();
    for cells in [0, 1, 3, 7, 15, 31, 63] {
        table.cone_over(&(0..cells).collect::<Vec<u16>>()).unwrap();
    }
    table
}

#[test]
fn the_largest_places_of_a_breach_arrive_whole() {
    let mut table = simplex();
    let at = |c: u16| RECORD_WORDS * usize::from(c);
    let face = |table: &Table, c, j: usize| table.words()[at(c) + 1 + j];
    let copy = |table: &mut Table, from, to| table.words_mut().copy_within(at(from)..at(from) + RECORD_WORDS, at(to));
    // A second cell beside face 5 of face 6 of the largest cell, with equal faces; a second face 6 that has it; a second cell over that.
    let top = 126;
    let side = face(&table, top, 6);
    let below = face(&table, side, 5);
    copy(&mut table, below, 200);
    copy(&mut table, side, 300);
    table.words_mut()[at(300) + 6] = 200;
    copy(&mut table, top, 511);
    table.audit().unwrap();
    table.words_mut()[at(511) + 7] = 300;
    assert_eq!(table.audit(), Err(Refusal::Invalid(Breach::Law { cell: 511, j: 6, l: 5 })));
    table.words_mut()[at(511) + 7] = 512;
    assert_eq!(table.audit(), Err(Refusal::Invalid(Breach::Face { cell: 511, place: 6 })));
}

#[test]
fn a_refused_file_names_the_breach_of_the_table_it_describes() {
    let mut file = torus().to_file().unwrap();
    file[74] = 0; // face 0 of triangle 5 is the point
    let mut table = torus();
    assert_eq!(table.read(&file), Err(Refusal::Invalid(Breach::Face { cell: 5, place: 0 })));
    assert!(table.words().iter().all(|&word| word == FREE));
}

#[test]
fn a_file_gives_the_table_back() {
    let table = torus();
    let file = table.to_file().unwrap();
    assert_eq!(file.len(), 80);
    assert_eq!(Table::from_file(&file), Ok(table));
    let mut read = Table::new(8).unwrap();
    assert_eq!(read.read(&file[..79]), Err(Refusal::BadContents));
    let mut twice = file.clone();
    twice[46] = 0; // edge 1 takes the point's number
    assert_eq!(read.read(&twice), Err(Refusal::BadNumber));
    for n in [&[][..], &[1], &[0, 0], &[1, 2]] {
        assert_eq!(Table::from_file(n), Err(Refusal::BadContents));
    }
    assert_eq!(Table::from_file(&[8; 9000]), Err(Refusal::BadContents));
}

#[test]
fn a_part_list_gives_its_cells() {
    let mut table = Table::new(8).unwrap();
    assert_eq!(table.import("3\n2 0 1\n0 1\n"), Ok(()));
    let triangle: [(u16, u16, &[u16]); 7] =
        [(0, 0, &[]), (1, 0, &[]), (2, 0, &[]), (3, 1, &[1, 0]), (4, 1, &[2, 0]), (5, 1, &[2, 1]), (6, 2, &[5, 4, 3])];
    assert_eq!(table, made(8, &triangle));
    assert_eq!(table.import(b"4\n0 1 2\n"), Ok(())); // the fourth point stays by itself
    assert_eq!(table.count().unwrap().holes[..2], [2, 0]);
    assert_eq!(table.import("5\n0 1 2\n"), Err(Refusal::NoRoom));
    assert!(table.words().iter().all(|&word| word == FREE));
    for text in ["", "3", "3\n0  1\n", "3\n0 1 ", "3\n01\n", "3 4\n", "3\n\n", "8\n0 1 2 3 4 5 6 7\n", "600\n5 x\n"] {
        assert_eq!(table.import(text), Err(Refusal::BadText), "{text:?}");
    }
    for text in ["3\n1 1\n", "3\n3\n", "0\n0\n", "70000\n69999 70000\n"] {
        assert_eq!(table.import(text), Err(Refusal::BadIndex), "{text:?}");
    }
    assert_eq!(Table::over([0; 9]).import(""), Err(Refusal::Length));
    assert_eq!(Table::from_list("513\n"), Err(Refusal::NoRoom));
    assert_eq!(Table::from_list("512\n").unwrap().count().unwrap().holes[0], 512);
}

#[test]
fn numbers_and_sentences_are_eighteen() {
    let mut sentences = std::collections::HashSet::new();
    for number in 1..=18 {
        let above = if number == 2 { 0x0009_0100 } else { 0x0009_0000 };
        let refusal = Refusal::answer(number | above).unwrap_err();
        assert_eq!(refusal.number(), number);
        sentences.insert(refusal.to_string());
    }
    assert_eq!(sentences.len(), 18);
    assert_eq!(Refusal::RuleA { row: 9 }.to_string(), "the evidence breaks rule A in row 9");
}

#[test]
fn a_packed_word_is_taken_apart() {
    let breach = |word| match Refusal::answer(word) {
        Err(Refusal::Invalid(breach)) => breach,
        other => panic!("{other:?}"),
    };
    assert_eq!(breach(2 | 1 << 8 | 511 << 16), Breach::Record { cell: 511 });
    assert_eq!(breach(2 | 2 << 8 | 6 << 10 | 7 << 16), Breach::Face { cell: 7, place: 6 });
    assert_eq!(breach(2 | 3 << 8 | 6 << 10 | 5 << 13 | 511 << 16), Breach::Law { cell: 511, j: 6, l: 5 });
    assert_eq!(Refusal::answer(14 | 511 << 16), Err(Refusal::RuleB { row: 511 }));
}

#[test]
#[should_panic(expected = "no refusal of version")]
fn an_older_archive_is_found_out() {
    let _ = Refusal::answer(2);
}
