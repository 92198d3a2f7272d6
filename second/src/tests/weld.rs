//! Welds on random tables: the classes a second way, and the single merges.

use crate::compare::tables::{random_room, random_table};
use crate::model::building::{audit, merge};
use crate::model::table::*;
use crate::model::weld::{kept_numbers, weld};
use crate::random::Random;
use std::collections::BTreeSet;

/// All pairs that a list of face places, applied to both named cells, leads to.
fn reached(table: &Table, a: u16, b: u16, pairs: &mut BTreeSet<(u16, u16)>) {
    if pairs.insert((a, b)) {
        for j in 0..table.named(a).expect("live").faces.len() {
            reached(table, table.face(a, j), table.face(b, j), pairs);
        }
    }
}

/// The smallest number of each cell's class, where the classes are those of the reached pairs, joined one after the other.
fn classes(table: &Table, a: u16, b: u16) -> Vec<u16> {
    let mut pairs = BTreeSet::new();
    reached(table, a, b, &mut pairs);
    let mut class: Vec<u16> = (0..table.cells.len() as u16).collect();
    for (c, d) in pairs {
        let (x, y) = (class[c as usize], class[d as usize]);
        class.iter_mut().filter(|word| **word == x.max(y)).for_each(|word| *word = x.min(y));
    }
    class
}

/// Two cells of one dimension, in half of the cases of the largest that has two.
fn alike(random: &mut Random, table: &Table) -> Option<(u16, u16)> {
    let counts = table.counts();
    let dimensions: Vec<usize> = (0..=TOP).filter(|p| counts[*p] >= 2).collect();
    let largest = *dimensions.last()?;
    let p = if random.once_in(2) { largest } else { random.pick(&dimensions) };
    let mut numbers: Vec<u16> =
        table.live().filter(|(_, cell)| cell.dimension == p).map(|(number, _)| number).collect();
    random.shuffle(&mut numbers);
    Some((numbers[0], numbers[1]))
}

/// The table after each cell was merged with its class's number, by dimension, then by number; and how many merges that took.
fn by_merges(table: &Table, class: &[u16]) -> (Vec<u16>, usize) {
    let mut cells: Vec<(usize, u16)> = table.live().map(|(number, cell)| (cell.dimension, number)).collect();
    cells.retain(|(_, number)| class[*number as usize] != *number);
    cells.sort();
    let mut words = table.encode();
    for (_, number) in &cells {
        let kept = class[*number as usize];
        assert_eq!(merge(&mut words, kept, *number), Ok(kept));
    }
    (words, cells.len())
}

#[test]
fn welds_are_their_single_merges() {
    let random = &mut Random::new(12);
    let (mut welds, mut merges) = (0, 0);
    for _ in 0..3000 {
        let room = random_room(random, 140);
        let mut words = random_table(random, room);
        let table = Table::decode(&words).expect("valid");
        let Some((a, b)) = alike(random, &table) else { continue };
        assert_eq!(weld(&mut words, a, b), Ok(a.min(b)));
        assert_eq!(audit(&words), Ok(()));
        let (kept, class) = (kept_numbers(&table, a, b), classes(&table, a, b));
        for (number, _) in table.live() {
            assert_eq!(kept.get(&number).copied().unwrap_or(number), class[number as usize]);
        }
        let (merged, count) = by_merges(&table, &class);
        assert_eq!(merged, words);
        welds += 1;
        merges += count;
    }
    assert!(welds > 1000 && merges > 3 * welds, "{welds} welds, {merges} merges");
}
