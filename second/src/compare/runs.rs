//! The driver of the comparison: building sessions, random tables, damaged tables.

use super::broken::{damage, one_breach};
use super::calls::{random_call, random_case};
use super::lists::{random_lines, text_of};
use super::shrink::shrink;
use super::tables::{random_room, random_table};
use super::tally::Tally;
use crate::call::{by_model, described, taken_apart, Call, Case, Outcome, Run, NAMES};
use crate::model::table::*;
use crate::random::Random;

/// What a comparison needs: what it compares with the model, the calls still to be made, and how often each answer was met.
pub struct Comparison {
    pub run: Run,
    pub calls: usize,
    pub made: usize,
    pub tally: Tally,
}

pub type Difference = String;

impl Comparison {
    pub fn new(run: Run, calls: usize) -> Comparison {
        Comparison { run, calls, made: 0, tally: Tally::new() }
    }

    /// Makes one call both ways and answers what it left.
    pub fn call(&mut self, case: &Case) -> Result<Outcome, Difference> {
        let run = self.run;
        let (ours, theirs) = (by_model(case), run(case));
        if ours != theirs {
            let small = shrink(case, &|case| by_model(case) != run(case));
            return Err(report(&small, &by_model(&small), &run(&small)));
        }
        self.made += 1;
        self.tally.add(&case.call, &ours);
        Ok(ours)
    }

    /// One run from its own seed; `most` bounds N.
    pub fn one_run(&mut self, seed: u64, most: usize) -> Result<(), Difference> {
        let random = &mut Random::new(seed);
        let room = random_room(random, most);
        match random.below(6) {
            0 | 1 => self.session(random, room),
            2..=4 => {
                let table = random_table(random, room);
                self.several(random, table, 10)
            }
            _ if random.once_in(3) => {
                let table = one_breach(random, room);
                self.several(random, table, 4)
            }
            _ => {
                let mut table = random_table(random, room);
                damage(random, &mut table);
                self.several(random, table, 6)
            }
        }
    }

    /// A table from its emptying, or now and then a random one or an imported list, through cones, merges, welds and compactions, with calls of all kinds between them.
    fn session(&mut self, random: &mut Random, room: usize) -> Result<(), Difference> {
        let old = (0..room * RECORD).map(|_| random.word()).collect();
        let mut table = self.call_and_follow(&Case { table: old, call: Call::Empty })?.after.table;
        match random.below(6) {
            0 | 1 => table = random_table(random, room),
            2 => {
                let (count, lines) = random_lines(random, room);
                let call = Call::Import { text: text_of(count, &lines) };
                table = self.call_and_follow(&Case { table, call })?.after.table;
            }
            _ => {}
        }
        for _ in 0..random.between(3, 30) {
            let place = random.pick(&[2, 2, 2, 2, 3, 3, 12, 13, 13]);
            let decoded = Table::decode(&table).ok();
            let call = random_call(random, &table, decoded.as_ref(), place);
            let outcome = self.call_and_follow(&Case { table, call })?;
            table = outcome.after.table;
            if random.once_in(2) {
                self.several(random, table.clone(), 3)?;
            }
        }
        Ok(())
    }

    /// Some random calls on a table. What an accepted building call leaves is taken on.
    fn several(&mut self, random: &mut Random, mut table: Vec<u16>, count: usize) -> Result<(), Difference> {
        for _ in 0..count {
            let case = random_case(random, &table);
            let outcome = self.call_and_follow(&case)?;
            let building =
                matches!(case.call, Call::Cone { .. } | Call::Merge { .. } | Call::Compact { .. } | Call::Weld { .. });
            if building && case.table.len() == table.len() {
                table = outcome.after.table;
            }
        }
        Ok(())
    }

    /// All runs from one seed. The first tenth of the calls keeps to small tables, so that a difference is met in a small case.
    pub fn all_runs(&mut self, seed: u64, trace: bool) -> Result<(), Difference> {
        let mut seeds = Random::new(seed);
        while self.made < self.calls {
            let most = if self.made < self.calls / 10 { 7 } else { MOST };
            let own = seeds.next();
            if trace {
                println!("run with seed {own}, N at most {most}");
            }
            if let Err(text) = self.one_run(own, most) {
                let made = self.made;
                return Err(format!("difference after {made} calls, run with seed {own}, N at most {most}\n{text}"));
            }
        }
        Ok(())
    }
}

pub fn shown(case: &Case) -> String {
    format!("{}  {}\n", described(&case.table), case.call.shown())
}

/// A difference in words: the case, and what each of the two left where they differ.
fn report(case: &Case, ours: &Outcome, theirs: &Outcome) -> Difference {
    let mut text = format!("call {}\n{}", NAMES[case.call.place()].0, shown(case));
    text += &format!("  answer: model {}, library {}\n", taken_apart(ours.word), taken_apart(theirs.word));
    if ours.values != theirs.values {
        text += &format!("  values: model {:?}, library {:?}\n", ours.values, theirs.values);
    }
    if ours.after.table != theirs.after.table {
        text += &format!("  model's{}  library's{}", described(&ours.after.table), described(&theirs.after.table));
    }
    if ours.after.call != theirs.after.call {
        text += &format!("  buffers: model {:?}\n  library {:?}\n", ours.after.call, theirs.after.call);
    }
    if let Some(guard) = &theirs.guard {
        text += &format!("  library: {guard}\n");
    }
    text
}
