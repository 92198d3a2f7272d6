//! Compaction on random tables: what 02 says of it, cell by cell and pair by pair.

use crate::compare::tables::{random_room, random_table};
use crate::model::compaction::compact;
use crate::model::ranks;
use crate::model::reading::incidence;
use crate::model::table::*;
use crate::random::Random;

#[test]
fn what_a_compaction_leaves() {
    let random = &mut Random::new(11);
    let mut moved = 0;
    for _ in 0..400 {
        let room = random_room(random, 70);
        let old = random_table(random, room);
        let (mut new, mut list) = (old.clone(), vec![7; room]);
        assert_eq!(compact(&mut new, &mut list), Ok(()));
        let (before, after) = (Table::decode(&old).expect("valid"), Table::decode(&new).expect("valid"));
        let live: Vec<u16> = before.live().map(|(number, _)| number).collect();
        moved += usize::from(live.iter().any(|number| list[*number as usize] != *number));
        // The new numbers are 0, 1, 2, .. without a gap, and free numbers have none.
        let mut numbers: Vec<u16> = live.iter().map(|number| list[*number as usize]).collect();
        numbers.sort();
        assert_eq!(numbers, (0..live.len() as u16).collect::<Vec<u16>>());
        assert!(before.free().iter().all(|number| list[*number as usize] == FREE));
        assert_eq!(after.live().count(), live.len());
        assert_eq!(ranks::holes(&old), ranks::holes(&new));
        for a in &live {
            let (x, s) = (list[*a as usize], before.named(*a).expect("live"));
            for b in &live {
                let (y, t) = (list[*b as usize], before.named(*b).expect("live"));
                assert_eq!(x < y, (s.dimension, a) < (t.dimension, b));
            }
            let b = random.pick(&live);
            assert_eq!(incidence(&old, *a, b), incidence(&new, x, list[b as usize]));
            for face in &s.faces {
                assert_eq!(incidence(&old, *a, *face), incidence(&new, x, list[*face as usize]));
            }
        }
    }
    assert!(moved > 200, "{moved}");
}
