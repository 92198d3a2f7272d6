//! Part lists: the texts by rendering, the cells by trying every set of points.

use crate::compare::lists::{random_lines, random_list, text_of};
use crate::model::lists::{cells_of, import, parts};
use crate::model::reading::corner;
use crate::model::table::*;
use crate::model::{ranks, sketch};
use crate::random::Random;

/// A text is well-formed when it is what its own numbers, 1 to 7 a line and one in the first, are written as.
fn by_rendering(text: &[u8]) -> bool {
    let Ok(text) = std::str::from_utf8(text) else { return false };
    let numbers = |line: &str| line.split_whitespace().filter_map(|word| word.parse().ok()).collect();
    let lines: Vec<Vec<usize>> = text.lines().map(numbers).collect();
    let Some((first, rest)) = lines.split_first().filter(|(first, _)| first.len() == 1) else { return false };
    let whole = rest.iter().all(|line| (1..=DIMENSIONS).contains(&line.len()));
    whole && lines.iter().flatten().all(|number| *number < 100_000) && text.as_bytes() == text_of(first[0], rest)
}

fn well_formed(text: &[u8]) -> bool {
    cells_of(MOST, text) != refuse(17)
}

/// Every text of up to 8 of the bytes `0`, `1`, space and newline, and random ones.
#[test]
fn texts_are_well_formed_as_rendered() {
    for length in 0..=8 {
        for number in 0..1 << (2 * length) {
            let text: Vec<u8> = (0..length).map(|place| b"01 \n"[number >> (2 * place) & 3]).collect();
            assert_eq!(well_formed(&text), by_rendering(&text), "{}", text.escape_ascii());
        }
    }
    let random = &mut Random::new(13);
    let mut refused = 0;
    for _ in 0..4000 {
        let text = random_list(random, 40);
        assert_eq!(well_formed(&text), by_rendering(&text), "{}", text.escape_ascii());
        refused += usize::from(!well_formed(&text));
    }
    assert!((300..3000).contains(&refused), "{refused}");
}

/// The cells are exactly the points and the sets that lie in one line, none twice, in the order of their numbers.
#[test]
fn cells_are_the_subsets_of_lines() {
    let random = &mut Random::new(14);
    for _ in 0..400 {
        let (count, lines) = random_lines(random, 200);
        let mut words = vec![5; 200 * RECORD];
        if count > 11 || import(&mut words, &text_of(count, &lines)).is_err() {
            continue;
        }
        let inside = |set: usize| lines.iter().any(|line| (0..count).all(|i| set >> i & 1 == 0 || line.contains(&i)));
        let wanted = (1..1_usize << count).filter(|set| set.count_ones() == 1 || inside(*set)).count();
        let table = Table::decode(&words).expect("a valid table");
        assert_eq!(table.live().count(), wanted);
        let corners = |number: u16| {
            let dimension = table.named(number).expect("a live cell").dimension as u16;
            (0..=dimension).map(|k| corner(&words, number, k).expect("a corner")).collect::<Vec<u16>>()
        };
        let mut last = (0, vec![]);
        for (number, cell) in table.live() {
            let own = corners(number);
            assert!(own.windows(2).all(|pair| pair[0] < pair[1]));
            assert!(own.len() == 1 || inside(own.iter().map(|i| 1 << i).sum()));
            for (j, face) in cell.faces.iter().enumerate() {
                assert_eq!(corners(*face), [&own[..j], &own[j + 1..]].concat());
            }
            assert!(last < (cell.dimension, own.clone()));
            last = (cell.dimension, own);
        }
    }
}

#[test]
fn what_parts_prints() {
    assert_eq!(parts(b"3\n0 3\n"), b"refused 18\n");
    assert_eq!(parts(b"513\n"), b"refused 9\n");
    assert_eq!(parts(b"3\n0 3"), b"refused 17\n");
    assert_eq!(parts(b"0\n").len(), sketch::CONTENTS);
    let sphere = parts(b"4\n1 2 3\n0 2 3\n0 1 3\n0 1 2\n");
    assert!(sketch::printed(&sphere).starts_with("0 4 1\n1 6 0\n2 4 1\n3 0 0\n"));
    let mut words = vec![1; MOST * RECORD];
    assert_eq!(sketch::read(&mut words, &sphere), Ok(()));
    assert_eq!(ranks::holes(&words).map(|holes| holes[2]), Ok(1));
}
