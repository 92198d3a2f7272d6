//! Single damages: every word of a few small tables replaced by other values, one word at a time, and the breach that is named.

use super::calls::random_call;
use super::files::records;
use super::runs::{Comparison, Difference};
use crate::call::{Call, Case, NAMES};
use crate::cases;
use crate::examples::DUCT_OPEN;
use crate::model::breach::{first, Breach, Kind};
use crate::model::table::*;
use crate::random::Random;
use std::collections::BTreeMap;

/// The parts of a breach but its cell, and how often a damage met them.
type Met = BTreeMap<(Kind, usize, usize), usize>;

/// A p-cell whose faces are all t, and beside t a cell for each place i that differs from t there alone. With one of these as
/// one of its faces, the p-cell breaks the law at one pair.
fn spread(p: usize) -> Vec<u16> {
    let mut cells: Vec<Cell> = vec![];
    let mut put = |dimension: usize, faces: Vec<u16>| {
        cells.push(Cell { dimension, faces });
        cells.len() as u16 - 1
    };
    let mut below = 0;
    for dimension in 0..p - 2 {
        below = put(dimension, vec![below; face_count(dimension)]);
    }
    let v = put(p - 2, vec![below; face_count(p - 2)]);
    let w = put(p - 2, vec![below; face_count(p - 2)]);
    let t = put(p - 1, vec![v; p]);
    for i in 0..p {
        let mut faces = vec![v; p];
        faces[i] = w;
        put(p - 1, faces);
    }
    put(p, vec![t; p + 1]);
    Table { cells: cells.into_iter().map(Some).chain([None]).collect() }.encode()
}

fn tables() -> Vec<Vec<u16>> {
    let mut tables: Vec<Vec<u16>> = (2..=TOP).map(spread).collect();
    for (room, cells) in [(8, cases::TORUS), (8, cases::PROJECTIVE_PLANE), (16, DUCT_OPEN)] {
        tables.push(cases::table(room, cells));
    }
    tables
}

/// What a word is replaced by: every number of the table, the ones around it, and single bits more or less.
fn values(room: usize, old: u16) -> Vec<u16> {
    let mut values: Vec<u16> = (0..room as u16 + 2).collect();
    values.extend([6, 7, 8, 255, 256, 511, 512, 513, 0x7FFF, 0x8000, 65534, FREE]);
    values.extend([old.wrapping_add(1), old.wrapping_sub(1), old ^ 0x0100, old ^ 0x8000]);
    values.sort();
    values.dedup();
    values
}

/// Makes all single damages and compares the audit, the reader and in turn every other call on each.
pub fn all(comparison: &mut Comparison) -> Result<(), Difference> {
    let random = &mut Random::new(2);
    let mut met = Met::new();
    let mut turn = 0;
    for sound in tables() {
        let room = sound.len() / RECORD;
        for at in 0..sound.len() {
            for value in values(room, sound[at]) {
                let mut table = sound.clone();
                table[at] = value;
                if let Some(Breach { kind, j, l, .. }) = first(&table) {
                    *met.entry((kind, j, l)).or_default() += 1;
                }
                turn = (turn + 1) % NAMES.len();
                let call = random_call(random, &table, None, turn);
                let file = records(&table);
                for call in [Call::Audit, Call::Read { file }, call] {
                    comparison.call(&Case { table: table.clone(), call })?;
                }
            }
        }
    }
    all_met(&met)
}

/// A record, a face at each of 7 places and the law at each of 21 pairs: each was the first breach of some damaged table.
fn all_met(met: &Met) -> Result<(), Difference> {
    for kind in [Kind::Record, Kind::Face, Kind::Law] {
        let counts: Vec<usize> = met.iter().filter(|((k, _, _), _)| *k == kind).map(|(_, count)| *count).collect();
        println!("single damages, {kind:?}: {} at {} places", counts.iter().sum::<usize>(), counts.len());
        let wanted = match kind {
            Kind::Record => 1,
            Kind::Face => DIMENSIONS,
            Kind::Law => DIMENSIONS * TOP / 2,
        };
        if counts.len() != wanted {
            return Err(format!("a single damage was never met: {kind:?} at {} of {wanted} places", counts.len()));
        }
    }
    Ok(())
}
