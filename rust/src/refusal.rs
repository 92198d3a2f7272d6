//! Why a call was refused.

use std::fmt;

use crate::Breach;

/// The eighteen refusals; [`Refusal::number`] is the one of `bumbleturf.h`. Several at once: the lowest number applies, but a boundary tests
/// 12 before 10 and 11, the first row at fault decides between 13 and 14, the reader tests 1, 15, 16, 2, and a part list
/// 1, 17, 18, 9.
#[derive(Clone, Copy, Debug, PartialEq, Eq, Hash)]
pub enum Refusal {
    /// 1: the table is not 8·N words with N from 1 to 512, or another buffer has not the length stated for that N.
    Length,
    /// 2: the table is not valid, for the reader as the file describes it; with its first breach.
    Invalid(Breach),
    /// 3: a named or marked number is not a live cell.
    NotLive,
    /// 4: a merge or weld names one cell twice.
    SameCell,
    /// 5: a merge or weld of unequal dimensions, or an incidence where p and p−1 do not fit.
    DimensionsDiffer,
    /// 6: a merge of cells whose face lists differ.
    FacesDiffer,
    /// 7: a face of a marked cell is not marked.
    NotClosed,
    /// 8: a marked cell has dimension 6.
    TopMarked,
    /// 9: fewer free records than marks + 1, more cells in a part list than N, or the writer's target is shorter than the file.
    NoRoom,
    /// 10: a coefficient outside ±2^40.
    TooLarge,
    /// 11: a coefficient other than zero at a number that is no live p-cell.
    Misplaced,
    /// 12: a dimension above 6, or a corner index above p.
    NoSuchPlace,
    /// 13: rule A of the evidence is broken, first in this row.
    RuleA {
        /// The first row at fault.
        row: u16,
    },
    /// 14: rule B of the evidence is broken, first in this row.
    RuleB {
        /// The first row at fault.
        row: u16,
    },
    /// 15: the file has under 44 bytes, an N that is not the table's, or a wrong offset or length.
    BadContents,
    /// 16: a body number of the file is not below N, not rising in its body, or used in a lower body.
    BadNumber,
    /// 17: the text is no part list.
    BadText,
    /// 18: an index of a part list is repeated in its line, or not below the count.
    BadIndex,
}

impl Refusal {
    /// The refusal's number, 1 to 18.
    pub fn number(self) -> u32 {
        match self {
            Refusal::Length => 1,
            Refusal::Invalid(_) => 2,
            Refusal::NotLive => 3,
            Refusal::SameCell => 4,
            Refusal::DimensionsDiffer => 5,
            Refusal::FacesDiffer => 6,
            Refusal::NotClosed => 7,
            Refusal::TopMarked => 8,
            Refusal::NoRoom => 9,
            Refusal::TooLarge => 10,
            Refusal::Misplaced => 11,
            Refusal::NoSuchPlace => 12,
            Refusal::RuleA { .. } => 13,
            Refusal::RuleB { .. } => 14,
            Refusal::BadContents => 15,
            Refusal::BadNumber => 16,
            Refusal::BadText => 17,
            Refusal::BadIndex => 18,
        }
    }

    /// What a C name answered, in one word: the number in its lowest eight bits, a breach above them, or the row of 13 and 14.
    pub(crate) fn answer(word: u32) -> Result<(), Refusal> {
        let row = (word >> 16) as u16;
        Err(match (word & 255, Breach::unpacked(word)) {
            (0, _) => return Ok(()),
            (1, _) => Refusal::Length,
            (2, Some(breach)) => Refusal::Invalid(breach),
            (3, _) => Refusal::NotLive,
            (4, _) => Refusal::SameCell,
            (5, _) => Refusal::DimensionsDiffer,
            (6, _) => Refusal::FacesDiffer,
            (7, _) => Refusal::NotClosed,
            (8, _) => Refusal::TopMarked,
            (9, _) => Refusal::NoRoom,
            (10, _) => Refusal::TooLarge,
            (11, _) => Refusal::Misplaced,
            (12, _) => Refusal::NoSuchPlace,
            (13, _) => Refusal::RuleA { row },
            (14, _) => Refusal::RuleB { row },
            (15, _) => Refusal::BadContents,
            (16, _) => Refusal::BadNumber,
            (17, _) => Refusal::BadText,
            (18, _) => Refusal::BadIndex,
            // Only another archive than the one this crate was written for can answer so.
            _ => panic!("the linked bumbleturf archive answered {word:#x}, which is no refusal of version {}", env!("CARGO_PKG_VERSION")),
        })
    }
}

impl fmt::Display for Refusal {
    fn fmt(&self, f: &mut fmt::Formatter<'_>) -> fmt::Result {
        f.write_str(match self {
            Refusal::Length => "a length is not the stated one",
            Refusal::Invalid(breach) => return write!(f, "the table is not valid; {breach}"),
            Refusal::NotLive => "a named or marked number is not a live cell",
            Refusal::SameCell => "one cell is named twice",
            Refusal::DimensionsDiffer => "the dimensions of the two cells do not fit",
            Refusal::FacesDiffer => "the face lists of the two cells differ",
            Refusal::NotClosed => "a face of a marked cell is not marked",
            Refusal::TopMarked => "a marked cell has dimension 6",
            Refusal::NoRoom => "too few records for the cells, or the target is shorter than the file",
            Refusal::TooLarge => "a coefficient lies outside ±2^40",
            Refusal::Misplaced => "a coefficient stands at a number that is no live cell of the dimension",
            Refusal::NoSuchPlace => "a dimension is above 6, or a corner index above the cell's dimension",
            Refusal::RuleA { row } => return write!(f, "the evidence breaks rule A in row {row}"),
            Refusal::RuleB { row } => return write!(f, "the evidence breaks rule B in row {row}"),
            Refusal::BadContents => "the file's table of contents or its length is wrong",
            Refusal::BadNumber => "a cell number of the file is not below N, not rising, or used twice",
            Refusal::BadText => "the text is no part list",
            Refusal::BadIndex => "an index of the part list is repeated in its line or not below the count",
        })
    }
}

impl std::error::Error for Refusal {}
