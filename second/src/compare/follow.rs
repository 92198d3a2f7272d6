//! What 01 and 02 state of an accepted call, beyond its answer: tried with further calls on what it left.

use super::lists::rewritten;
use super::runs::{shown, Comparison, Difference};
use crate::call::{Call, Case, Outcome};
use crate::model::lists::cells_of;
use crate::model::ranks;
use crate::model::table::*;
use crate::model::weld::kept_numbers;
use crate::random::Random;

fn hold(case: &Case, holds: bool, what: &str) -> Result<(), Difference> {
    match holds {
        true => Ok(()),
        false => Err(format!("a property does not hold: {what}\n{}", shown(case))),
    }
}

impl Comparison {
    /// One call, then the properties of what it left.
    pub fn call_and_follow(&mut self, case: &Case) -> Result<Outcome, Difference> {
        let outcome = self.call(case)?;
        if outcome.word == 0 {
            self.follow(case, &outcome)?;
        }
        Ok(outcome)
    }

    fn follow(&mut self, case: &Case, outcome: &Outcome) -> Result<(), Difference> {
        match &outcome.after.call {
            Call::Empty | Call::Cone { .. } => self.stays_valid(case, outcome),
            Call::Merge { a, b } => {
                self.stays_valid(case, outcome)?;
                self.other_order(case, outcome, Call::Merge { a: *b, b: *a })
            }
            Call::Weld { a, b } => {
                self.stays_valid(case, outcome)?;
                self.other_order(case, outcome, Call::Weld { a: *b, b: *a })?;
                self.single_merges(case, outcome, *a, *b)
            }
            Call::Incidence { .. } => hold(case, (-3..=4).contains(&outcome.values[0]), "incidence lies from -3 to 4"),
            Call::Boundary { dimension, .. } if *dimension >= 1 => self.boundary_twice(case, outcome),
            Call::Reduce { evidence } => {
                let call = Call::Check { evidence: evidence.clone() };
                let checked = self.call_and_follow(&Case { table: case.table.clone(), call })?;
                hold(case, checked.word == 0, "the reducer's evidence is accepted")
            }
            Call::Check { .. } => {
                let holes = ranks::holes(&case.table).expect("a valid table");
                let found = outcome.values[DIMENSIONS..2 * DIMENSIONS].iter();
                hold(case, found.eq(holes.map(i64::from).iter()), "the hole numbers are those of the ranks")
            }
            Call::Write { .. } | Call::Read { .. } => self.there_and_back(case, outcome),
            Call::Import { text } => {
                self.stays_valid(case, outcome)?;
                self.as_listed(case, outcome, text)
            }
            Call::Compact { list } => {
                self.stays_valid(case, outcome)?;
                self.once_more(case, outcome)?;
                self.under_the_list(case, &outcome.after.table, list)
            }
            _ => Ok(()),
        }
    }

    fn stays_valid(&mut self, case: &Case, outcome: &Outcome) -> Result<(), Difference> {
        let audit = self.call(&Case { table: outcome.after.table.clone(), call: Call::Audit })?;
        hold(case, audit.word == 0, "what is left is valid")
    }

    /// A merge or a weld asked for in the other order: "the answer is the kept number, the same for both orders of asking".
    fn other_order(&mut self, case: &Case, outcome: &Outcome, call: Call) -> Result<(), Difference> {
        let other = self.call(&Case { table: case.table.clone(), call })?;
        let same = other.values == outcome.values && other.after.table == outcome.after.table;
        hold(case, same, "both orders give the same")
    }

    /// "Single merges from dimension 0 upward give the same table": each joined cell with its class's number, rising.
    fn single_merges(&mut self, case: &Case, outcome: &Outcome, a: u16, b: u16) -> Result<(), Difference> {
        let old = Table::decode(&case.table).expect("a valid table");
        let kept = kept_numbers(&old, a, b);
        let mut joined: Vec<(usize, u16)> = old.live().map(|(number, cell)| (cell.dimension, number)).collect();
        joined.retain(|(_, number)| kept.get(number).is_some_and(|kept| kept != number));
        joined.sort();
        let mut table = case.table.clone();
        for (_, number) in joined {
            let (a, b) = (kept[&number], number);
            let merged = self.call(&Case { table, call: Call::Merge { a, b } })?;
            hold(case, merged.word == 0, &format!("the single merge of {a} and {b} is accepted"))?;
            table = merged.after.table;
        }
        hold(case, table == outcome.after.table, "the single merges give the same table")
    }

    /// "A second run changes no table word": its list leaves every number as it is.
    fn once_more(&mut self, case: &Case, outcome: &Outcome) -> Result<(), Difference> {
        let again = self.call(&outcome.after)?;
        hold(case, again.after.table == outcome.after.table, "a second compaction changes no word")?;
        let Call::Compact { list } = &again.after.call else { unreachable!() };
        let stays = (0..).zip(list).all(|(number, new)| [number, FREE].contains(new));
        hold(case, stays, "the list of a second compaction changes no number")
    }

    /// "Has the same hole numbers", and "incidence between any two cells is the same under the list".
    fn under_the_list(&mut self, case: &Case, compacted: &[u16], list: &[u16]) -> Result<(), Difference> {
        hold(case, ranks::holes(&case.table) == ranks::holes(compacted), "the hole numbers stay")?;
        let table = Table::decode(&case.table).expect("a valid table");
        let live: Vec<(u16, &Cell)> = table.live().collect();
        let random = &mut Random::new(case.table.iter().map(|word| u64::from(*word)).sum());
        for _ in 0..live.len().min(2) {
            let ((cell, s), (other, _)) = (random.pick(&live), random.pick(&live));
            let face = if s.faces.is_empty() { other } else { random.pick(&[&s.faces[..], &[other]].concat()) };
            let before = self.call(&Case { table: case.table.clone(), call: Call::Incidence { cell, face } })?;
            let (cell, face) = (list[cell as usize], list[face as usize]);
            let after = self.call(&Case { table: compacted.to_vec(), call: Call::Incidence { cell, face } })?;
            let same = (before.word, before.values) == (after.word, after.values);
            hold(case, same, "incidence is the same under the list")?;
        }
        Ok(())
    }

    /// A list is the same in any order of its lines and indices, and corner k of a cell is entry k of its corner list.
    fn as_listed(&mut self, case: &Case, outcome: &Outcome, text: &[u8]) -> Result<(), Difference> {
        let table = outcome.after.table.clone();
        let random = &mut Random::new(text.iter().map(|byte| u64::from(*byte)).sum());
        let text = rewritten(random, text);
        let again = self.call(&Case { table: case.table.clone(), call: Call::Import { text: text.clone() } })?;
        hold(case, again.word == 0 && again.after.table == table, "the order of lines and indices is free")?;
        let cells: Vec<(usize, Vec<u32>)> = cells_of(MOST, &text).into_iter().flatten().collect();
        for _ in 0..cells.len().min(2) {
            let cell = random.below(cells.len());
            let k = random.below(cells[cell].1.len());
            let call = Call::Corner { cell: cell as u16, k: k as u16 };
            let corner = self.call(&Case { table: table.clone(), call })?;
            hold(case, corner.values == [i64::from(cells[cell].1[k])], "corner k is entry k of the list")?;
        }
        Ok(())
    }

    fn boundary_twice(&mut self, case: &Case, outcome: &Outcome) -> Result<(), Difference> {
        let Call::Boundary { result, dimension, .. } = &outcome.after.call else { unreachable!() };
        let call = Call::Boundary { chain: result.clone(), dimension: dimension - 1, result: vec![1; result.len()] };
        let twice = self.call(&Case { table: case.table.clone(), call })?;
        let Call::Boundary { result, .. } = &twice.after.call else { unreachable!() };
        let zero = twice.word == 0 && result.iter().all(|c| *c == 0);
        hold(case, zero || twice.number() == 10, "a boundary's boundary is zero")
    }

    /// A written file read, or a read file written.
    fn there_and_back(&mut self, case: &Case, outcome: &Outcome) -> Result<(), Difference> {
        let table = outcome.after.table.clone();
        if let Call::Write { target } = &outcome.after.call {
            let file = target[..outcome.values[0] as usize].to_vec();
            let again = self.call(&Case { table: vec![77; table.len()], call: Call::Read { file } })?;
            hold(case, again.word == 0 && again.after.table == table, "written and read is the same table")?;
        }
        if let Call::Read { file } = &outcome.after.call {
            let call = Call::Write { target: vec![0xEE; file.len()] };
            let again = self.call(&Case { table, call })?;
            let same = again.word == 0 && again.after.call == Call::Write { target: file.clone() };
            hold(case, same, "read and written is the same file")?;
        }
        Ok(())
    }
}
