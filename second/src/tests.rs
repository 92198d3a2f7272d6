//! Unit tests of the model: the cases of 01, its file, and small properties on random tables.

mod compaction;
mod lists;
mod weld;

use crate::call::by_model;
use crate::compare::broken::{damage, one_breach};
use crate::compare::damages;
use crate::compare::runs::Comparison;
use crate::compare::shrink::shrink;
use crate::compare::tables::{random_room, random_table};
use crate::model::breach::{first, Kind};
use crate::model::evidence::{boundary_of_row, check, reduce};
use crate::model::table::*;
use crate::model::{building, ranks, reading, sketch};
use crate::random::Random;
use crate::{call::*, cases, examples};
use std::collections::BTreeSet;

#[test]
fn cases_with_answers() {
    for (title, case) in cases::titled() {
        assert_eq!(case(by_model), Ok(()), "{title}");
    }
}

#[test]
fn the_file_of_52_bytes() {
    assert_eq!(sketch::printed(&examples::LOOP), examples::LOOP_PRINTED);
    let mut words = vec![9; 16];
    assert_eq!(sketch::read(&mut words, &examples::LOOP), Ok(()));
    assert_eq!(words, cases::table(2, &[(0, &[]), (1, &[0, 0])]));
    let mut target = vec![0x11; 60];
    assert_eq!(sketch::write(&words, &mut target), Ok(52));
    assert_eq!(target, [&examples::LOOP[..], &[0x11; 8]].concat());
}

#[test]
fn the_program_refuses() {
    for (bytes, text) in [
        (vec![], "refused 15\n"),
        (vec![2], "refused 15\n"),
        (vec![0; sketch::CONTENTS], "refused 15\n"),
        (vec![1; sketch::LONGEST + 1], "refused 15\n"),
    ] {
        assert_eq!(sketch::printed(&bytes), text);
    }
    let mut body = examples::LOOP.to_vec();
    body[46] = 0; // The edge has the point's number.
    assert_eq!(sketch::printed(&body), "refused 16\n");
    let mut body = examples::LOOP.to_vec();
    body[48] = 1; // The edge is its own face.
    assert_eq!(sketch::printed(&body), "refused 2\n");
    assert_eq!(sketch::printed(&body[..51]), "refused 15\n");
}

#[test]
fn the_ducts() {
    let holes = |cells| ranks::holes(&cases::table(16, cells)).map(|holes| holes[..3].to_vec());
    assert_eq!(holes(examples::DUCT_OPEN), Ok(vec![1, 1, 0]));
    assert_eq!(holes(examples::DUCT_CLOSED), Ok(vec![1, 0, 0]));
    let mut words = cases::table(16, examples::DUCT_OPEN);
    assert_eq!(building::merge(&mut words, 4, 5), refuse(6));
}

/// The meaning of b_p, by listing all sets of cells: cycles and boundaries are subspaces, so their numbers are powers of two.
fn holes_by_meaning(table: &Table) -> [u16; DIMENSIONS] {
    let sets = |p: usize| {
        let cells: Vec<u16> = table.live().filter(|(_, cell)| cell.dimension == p).map(|(number, _)| number).collect();
        (0..1_u32 << cells.len())
            .map(move |bits| (0..cells.len()).filter(|i| bits >> i & 1 == 1).map(|i| cells[i]).collect::<BTreeSet<_>>())
    };
    let mut holes = [0; DIMENSIONS];
    for (p, hole) in holes.iter_mut().enumerate() {
        let cycles = sets(p).filter(|set| boundary_of_row(table, set).is_empty()).count();
        let boundaries: BTreeSet<_> = sets(p + 1).map(|set| boundary_of_row(table, &set)).collect();
        *hole = (cycles / boundaries.len()).ilog2() as u16;
    }
    holes
}

#[test]
fn hole_numbers_three_ways() {
    let random = &mut Random::new(5);
    let mut seen = 0;
    for _ in 0..1500 {
        let room = random_room(random, 70);
        let words = random_table(random, room);
        let mut evidence = vec![0; room * mark_words(room)];
        reduce(&words, &mut evidence).expect("a valid table");
        let count = check(&words, &evidence).expect("good evidence");
        assert_eq!(Ok(count.holes), ranks::holes(&words));
        let table = Table::decode(&words).expect("a valid table");
        if count.cells.iter().all(|n| *n <= 9) {
            assert_eq!(count.holes, holes_by_meaning(&table));
            seen += 1;
        }
    }
    assert!(seen > 300);
}

#[test]
fn a_boundary_of_a_boundary_is_zero() {
    let random = &mut Random::new(6);
    for _ in 0..500 {
        let room = random_room(random, 70);
        let words = random_table(random, room);
        let table = Table::decode(&words).expect("a valid table");
        for p in 1..=TOP {
            let inside = |number: usize| table.cell(number as u16).is_some_and(|cell| cell.dimension == p);
            let chain: Vec<i64> = (0..room).map(|n| if inside(n) { random.below(99) as i64 - 49 } else { 0 }).collect();
            let (mut once, mut twice) = (vec![7; room], vec![7; room]);
            assert_eq!(reading::boundary(&words, &chain, p as u16, &mut once), Ok(()));
            assert_eq!(reading::boundary(&words, &once, p as u16 - 1, &mut twice), Ok(()));
            assert_eq!(twice, vec![0; room]);
        }
    }
}

#[test]
fn files_there_and_back() {
    let random = &mut Random::new(7);
    for _ in 0..500 {
        let room = random_room(random, MOST);
        let words = random_table(random, room);
        let file = sketch::file_of(&Table::decode(&words).expect("a valid table"));
        let mut again = vec![3; words.len()];
        assert_eq!(sketch::read(&mut again, &file), Ok(()));
        assert_eq!(again, words);
    }
    let longest = examples::longest();
    assert_eq!(longest[0].len(), sketch::CONTENTS + 2 + 6 + 8 + 10 + 12 + 14 + 506 * 16);
    assert!(sketch::printed(&longest[0]).ends_with("6 506 505\n"));
    assert_eq!(longest[1].len(), sketch::LONGEST);
    assert_eq!(sketch::printed(&longest[1]), "refused 2\n");
    assert_eq!(sketch::printed(&longest[2]), "refused 15\n");
}

#[test]
fn corners_and_incidence() {
    // The triangle with corners 0, 1, 2 has the edges [1,2], [0,2], [0,1] as faces.
    let words =
        cases::table(8, &[(0, &[]), (1, &[]), (2, &[]), (3, &[2, 1]), (4, &[2, 0]), (5, &[1, 0]), (6, &[3, 4, 5])]);
    for k in 0..3 {
        assert_eq!(reading::corner(&words, 6, k), Ok(k));
    }
    assert_eq!(reading::corner(&words, 6, 3), refuse(12));
    assert_eq!(reading::incidence(&words, 6, 4), Ok(-1));
    assert_eq!(reading::incidence(&words, 6, 0), refuse(5));
    // Incidence 4 and −3 are reached at p = 6: 6 and 7 take turns as faces.
    let mut cells: Vec<(u16, Vec<u16>)> = (0..6).map(|p| (p, vec![p.max(1) - 1; face_count(p as usize)])).collect();
    cells.extend([(6, vec![4; 6]), (7, vec![5, 6, 5, 6, 5, 6, 5])]);
    let list: Vec<(u16, &[u16])> = cells.iter().map(|(number, faces)| (*number, &faces[..])).collect();
    let words = cases::table(8, &list);
    assert_eq!(reading::incidence(&words, 7, 5), Ok(4));
    assert_eq!(reading::incidence(&words, 7, 6), Ok(-3));
}

#[test]
fn ceilings_are_met() {
    use crate::model::evidence::ceiling;
    // The torus: one addition in dimension 2, with 2 triangles of which 1 has a row with a boundary.
    let words = cases::table(8, cases::TORUS);
    assert_eq!(reduce(&words, &mut [0; 8]).map(|a| a[2]), Ok(1));
    assert_eq!(ceiling(2, 1), 1);
    // The worst star: a point joined to 170 others, then edges parallel to the last, 341 in all.
    let ends: Vec<[u16; 2]> = (171..512).map(|c| [170, 340_u16.saturating_sub(c)]).collect();
    let mut star: Vec<(u16, &[u16])> = (0..=170).map(|c| (c, &[][..])).collect();
    star.extend(ends.iter().enumerate().map(|(i, faces)| (171 + i as u16, &faces[..])));
    assert_eq!(reduce(&cases::table(512, &star), &mut [0; 512 * 8]).map(|a| a[1]), Ok(43_435));
    assert_eq!(ceiling(341, 170), 43_435);
}

#[test]
fn sheets() {
    let sheet = |cells| reading::sheet(&cases::table(8, cells));
    assert_eq!(sheet(&[]), Ok(false));
    assert_eq!(sheet(&[(0, &[]), (4, &[])]), Ok(true));
    assert_eq!(sheet(cases::TORUS), Ok(true));
    assert_eq!(sheet(&[(0, &[]), (1, &[0, 0]), (2, &[])]), Ok(false));
    // A loop has two places at its point; two loops at one point, a figure eight, have four.
    assert_eq!(sheet(&[(0, &[]), (1, &[0, 0])]), Ok(true));
    assert_eq!(sheet(&[(0, &[]), (1, &[0, 0]), (2, &[0, 0])]), Ok(false));
    // A triangle whose three sides are one loop; two triangles that meet one edge in three places, one of them twice.
    assert_eq!(sheet(&[(0, &[]), (1, &[0, 0]), (2, &[1, 1, 1])]), Ok(false));
    assert_eq!(sheet(cases::FOLDED), Ok(false));
}

#[test]
fn random_runs_of_the_model_with_itself() {
    let mut comparison = Comparison::new(by_model, 10_000);
    assert_eq!(comparison.all_runs(3, false), Ok(()));
    assert_eq!(damages::all(&mut comparison), Ok(()));
    assert!(comparison.tally.print(), "an answer was never met");
}

/// A model with a fault: a merge that compares sets of faces.
fn with_sets(case: &Case) -> Outcome {
    if let (Call::Merge { a, b }, Ok(mut table)) = (&case.call, Table::decode(&case.table)) {
        let sorted =
            |number: u16, table: &Table| table.cell(number).map(|cell| BTreeSet::from_iter(cell.faces.clone()));
        if by_model(case).number() == 6 && sorted(*a, &table) == sorted(*b, &table) {
            table.cells[*a.max(b) as usize] = None;
            let after = Case { table: table.encode(), call: case.call.clone() };
            return Outcome { word: 0, values: vec![*a.min(b) as i64], after, guard: None };
        }
    }
    by_model(case)
}

#[test]
fn a_fault_is_found_and_made_small() {
    let difference = Comparison::new(with_sets, 50_000).all_runs(4, false).expect_err("a difference");
    assert!(difference.contains("call merge"), "{difference}");
    let words = cases::table(32, cases::TORUS);
    let case = Case { table: words, call: Call::Merge { a: 4, b: 5 } };
    let small = shrink(&case, &|case| by_model(case) != with_sets(case));
    assert_eq!(small.table.len(), 6 * RECORD);
}

#[test]
fn damaged_tables_are_met() {
    let random = &mut Random::new(8);
    let refused = |random: &mut Random| {
        let mut words = random_table(random, 12);
        damage(random, &mut words);
        building::audit(&words).is_err()
    };
    let count = (0..400).filter(|_| refused(random)).count();
    assert!((150..400).contains(&count), "{count}");
}

/// Each pair of places of the law is the only one broken in some table.
#[test]
fn every_single_breach_is_met() {
    let random = &mut Random::new(9);
    let mut met = BTreeSet::new();
    for _ in 0..3000 {
        let words = one_breach(random, 12);
        let record = |number: u16| &words[number as usize * RECORD..][..RECORD];
        let mut broken = vec![];
        for cell in (0..12).filter(|number| (2..=6).contains(&record(*number)[0])) {
            let p = record(cell)[0] as usize;
            for j in 0..=p {
                for l in 0..j {
                    let face = |number: u16, place: usize| record(number)[1 + place];
                    if face(face(cell, j), l) != face(face(cell, l), j - 1) {
                        broken.push((p, j, l));
                    }
                }
            }
        }
        assert_eq!(broken.len(), 1);
        let named = building::audit(&words).expect_err("a breach").breach.expect("its place");
        assert_eq!((named.kind, named.j, named.l), (Kind::Law, broken[0].1, broken[0].2));
        met.extend(broken);
    }
    assert_eq!(met.len(), 3 + 6 + 10 + 15 + 21);
}

/// 01's validity and 02's breaches agree: a table is valid exactly when it has no breach.
#[test]
fn a_table_is_valid_when_it_has_no_breach() {
    let random = &mut Random::new(10);
    for _ in 0..3000 {
        let room = random_room(random, 70);
        let mut words = random_table(random, room);
        assert_eq!(first(&words), None);
        damage(random, &mut words);
        assert_eq!(building::audit(&words).is_ok(), first(&words).is_none());
    }
}
