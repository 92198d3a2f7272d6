//! Cases with the answers that the request gives them, against the model and, when it is linked, the library.

mod breach;
mod compaction;
mod lists;
mod measured;
mod weld;

use crate::call::{taken_apart, Call, Case, Outcome, Run};
use crate::model::table::{mark_words, Cell, Table, DIMENSIONS, RECORD};
#[cfg(test)]
pub use measured::FOLDED;
pub use measured::{PROJECTIVE_PLANE, TORUS};
use std::fmt::Debug;

pub type Verdict = Result<(), String>;

/// Drives the calls of a case and keeps its table.
pub struct Bench {
    pub run: Run,
    pub table: Vec<u16>,
}

/// A table from its cells, each a number and its faces.
pub fn table(room: usize, cells: &[(u16, &[u16])]) -> Vec<u16> {
    let mut table = Table { cells: vec![None; room] };
    for (number, faces) in cells {
        let dimension = faces.len().saturating_sub(1);
        table.cells[*number as usize] = Some(Cell { dimension, faces: faces.to_vec() });
    }
    table.encode()
}

pub fn same<T: PartialEq + Debug>(what: &str, found: T, wanted: T) -> Verdict {
    if found == wanted {
        Ok(())
    } else {
        Err(format!("{what}: {found:?} in place of {wanted:?}"))
    }
}

impl Bench {
    pub fn on(run: Run, room: usize, cells: &[(u16, &[u16])]) -> Bench {
        Bench { run, table: table(room, cells) }
    }

    fn room(&self) -> usize {
        self.table.len() / RECORD
    }

    pub fn call(&mut self, call: Call) -> Outcome {
        let outcome = (self.run)(&Case { table: self.table.clone(), call });
        self.table = outcome.after.table.clone();
        outcome
    }

    /// The word of the answer: 0, or the refusal's number with what it carries.
    pub fn word(&mut self, call: Call, wanted: u32) -> Verdict {
        let what = format!("answer of {}", call.shown());
        same(&what, taken_apart(self.call(call).word), taken_apart(wanted))
    }

    pub fn value(&mut self, call: Call, wanted: i64) -> Verdict {
        let what = format!("{call:?}");
        let outcome = self.call(call);
        same(&what, (outcome.word, outcome.values[0]), (0, wanted))
    }

    pub fn cells(&self, wanted: &[(u16, &[u16])]) -> Verdict {
        same("table", self.table.clone(), table(self.room(), wanted))
    }

    pub fn marks(&self, numbers: &[u16]) -> Call {
        let mut marks = vec![0; mark_words(self.room())];
        for number in numbers {
            marks[*number as usize / 64] |= 1 << (number % 64);
        }
        Call::Cone { marks }
    }

    pub fn rows(&self, rows: &[&[u16]]) -> Call {
        let width = mark_words(self.room());
        let mut evidence = vec![0; self.room() * width];
        for (place, row) in rows.iter().enumerate() {
            for number in *row {
                evidence[place * width + *number as usize / 64] |= 1 << (number % 64);
            }
        }
        Call::Check { evidence }
    }

    /// Reducer and checker: the hole numbers, of which those past the list are 0; answers the additions.
    pub fn holes(&mut self, wanted: &[i64]) -> Result<Vec<i64>, String> {
        let evidence = vec![7; self.room() * mark_words(self.room())];
        let reduced = self.call(Call::Reduce { evidence });
        same("answer of the reducer", reduced.word, 0)?;
        let Call::Reduce { evidence } = reduced.after.call else { unreachable!() };
        let checked = self.call(Call::Check { evidence });
        same("answer of the checker", checked.word, 0)?;
        let mut seven = wanted.to_vec();
        seven.resize(DIMENSIONS, 0);
        same("hole numbers", checked.values[DIMENSIONS..2 * DIMENSIONS].to_vec(), seven)?;
        Ok(reduced.values)
    }
}

/// A case with its title.
pub type Titled = (&'static str, fn(Run) -> Verdict);

/// All cases.
pub fn titled() -> Vec<Titled> {
    [measured::ALL, breach::ALL, compaction::ALL, weld::ALL, lists::ALL].concat()
}

/// Runs all cases with each of the named runs; one line for each case. Answers whether all held.
pub fn all(runs: &[(&str, Run)]) -> bool {
    let mut held = true;
    for (title, case) in titled() {
        let mut line = title.to_string();
        for (name, run) in runs {
            match case(*run) {
                Ok(()) => line += &format!("; {name} ok"),
                Err(fault) => {
                    held = false;
                    line += &format!("; {name} DIFFERS: {fault}");
                }
            }
        }
        println!("{line}");
    }
    held
}
