//! How often each answer of each call was met.

use crate::call::{Call, Outcome, NAMES};

/// The largest number of a refusal.
const LAST: usize = 18;
const KINDS: [&str; 4] = ["", "record", "face", "law"];

pub struct Tally {
    /// By place of the call in `NAMES`, then by number of the answer.
    met: [[usize; LAST + 1]; NAMES.len()],
    /// By place of the call, then by kind of breach; 0 for an answer without one.
    kinds: [[usize; KINDS.len()]; NAMES.len()],
}

impl Tally {
    pub fn new() -> Tally {
        Tally { met: [[0; LAST + 1]; NAMES.len()], kinds: [[0; KINDS.len()]; NAMES.len()] }
    }

    pub fn add(&mut self, call: &Call, outcome: &Outcome) {
        self.met[call.place()][outcome.number() as usize] += 1;
        self.kinds[call.place()][outcome.kind()] += 1;
    }

    /// One line for each call and one for each refusal. Answers whether each stated refusal of each call was met, and refusal 2
    /// with each kind of breach.
    pub fn print(&self) -> bool {
        let mut all_met = true;
        for (place, (name, refusals)) in NAMES.iter().enumerate() {
            let met = &self.met[place];
            let mut line = format!("{name}: {} calls, accepted {}", met.iter().sum::<usize>(), met[0]);
            all_met &= met[0] > 0;
            for number in refusals.iter() {
                line += &format!(", refused {} {}", number, met[*number as usize]);
                all_met &= met[*number as usize] > 0;
                if *number == 2 {
                    line += &self.breaches(place);
                    all_met &= (1..KINDS.len()).all(|kind| self.kinds[place][kind] > 0 || unable(name, kind));
                }
            }
            println!("{line}");
        }
        for number in 1..=LAST {
            let total: usize = self.met.iter().map(|met| met[number]).sum();
            println!("refusal {number}: {total}");
            all_met &= total > 0;
        }
        all_met
    }

    /// The kinds of breach that a call met.
    fn breaches(&self, place: usize) -> String {
        let one = |kind: usize| format!("{} {}", KINDS[kind], self.kinds[place][kind]);
        format!(" ({})", (1..KINDS.len()).map(one).collect::<Vec<String>>().join(", "))
    }
}

/// A file names dimensions 0 to 6 alone and has no unused words, so no record that it describes is broken.
fn unable(name: &str, kind: usize) -> bool {
    name == "read" && KINDS[kind] == "record"
}
