//! Where a table is broken: what refusal 2 carries.

use std::fmt;

use crate::{Table, RECORD_WORDS, TOP_DIMENSION};

/// The first breach of a table: the lowest cell, there the record before the faces and these before the law, then the lowest place. For
/// this search a cell is live when its word 0 is 0 to 6.
///
/// It prints as a sentence, `cell 9: face 0 names no live cell of the dimension below`; [`Breach::beside`] a table names the dimension too, and
/// what stands in the record.
#[derive(Clone, Copy, Debug, PartialEq, Eq, Hash)]
pub enum Breach {
    /// Word 0 is neither 0 to 6 nor 65535, or an unused word is not 65535.
    Record {
        /// The cell.
        cell: u16,
    },
    /// This face names no live cell of the dimension below.
    Face {
        /// The cell.
        cell: u16,
        /// The place of the face, 0 to 6.
        place: u8,
    },
    /// Face `l` of face `j` is not face `j` − 1 of face `l`.
    Law {
        /// The cell.
        cell: u16,
        /// The larger place, 1 to 6.
        j: u8,
        /// The smaller place, 0 to 5.
        l: u8,
    },
}

impl Breach {
    /// The cell at which the table is broken.
    pub fn cell(self) -> u16 {
        match self {
            Breach::Record { cell } | Breach::Face { cell, .. } | Breach::Law { cell, .. } => cell,
        }
    }

    /// The sentence with the dimension that this table gives the cell, and after it the cell's record, dimension first:
    /// `cell 9: face 0 names no live cell of dimension 0, in [1, 700, 3, 65535, 65535, 65535, 65535, 65535]`.
    pub fn beside<W: AsRef<[u16]>>(self, table: &Table<W>) -> String {
        match (self, table.words().chunks_exact(RECORD_WORDS).nth(self.cell().into())) {
            (Breach::Face { cell, place }, Some(record)) if (1..=TOP_DIMENSION).contains(&usize::from(record[0])) => {
                format!("cell {cell}: face {place} names no live cell of dimension {}, in {record:?}", record[0] - 1)
            }
            (_, Some(record)) => format!("{self}, in {record:?}"),
            (_, None) => self.to_string(),
        }
    }

    /// The breach in a packed answer, where it has one of the three kinds.
    pub(crate) fn unpacked(answer: u32) -> Option<Breach> {
        let cell = (answer >> 16) as u16;
        let (j, l) = ((answer >> 10 & 7) as u8, (answer >> 13 & 7) as u8);
        match answer >> 8 & 3 {
            1 => Some(Breach::Record { cell }),
            2 => Some(Breach::Face { cell, place: j }),
            3 => Some(Breach::Law { cell, j, l }),
            _ => None,
        }
    }
}

impl fmt::Display for Breach {
    fn fmt(&self, f: &mut fmt::Formatter<'_>) -> fmt::Result {
        match self {
            Breach::Record { cell } => write!(f, "cell {cell}: the record is neither a cell's nor free"),
            Breach::Face { cell, place } => write!(f, "cell {cell}: face {place} names no live cell of the dimension below"),
            Breach::Law { cell, j, l } => write!(f, "cell {cell}: face {l} of face {j} is not face {} of face {l}", j.saturating_sub(1)),
        }
    }
}
