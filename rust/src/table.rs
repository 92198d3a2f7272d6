//! The table and its calls.
//!
//! Each call lends the kernel slices whose lengths it passes along, so the kernel stays inside them; Rust's borrows keep what is written
//! apart from everything else the call lends, as the header asks.

use crate::raw::*;
use crate::Refusal;

/// The greatest N.
pub const CAPACITY: usize = 512;
/// The greatest dimension of a cell.
pub const TOP_DIMENSION: usize = 6;
/// Dimensions 0 to 6.
pub const DIMENSIONS: usize = TOP_DIMENSION + 1;
/// Words of one record: the dimension, then faces d_0 to d_6.
pub const RECORD_WORDS: usize = 8;
/// What stands in every unused word.
pub const FREE: u16 = 65535;
/// No sketch file is longer.
pub const FILE_BYTES: usize = 8236;

/// Words of 64 bits in a set of marks, or in one row of evidence, for a table with room for `n` cells.
pub fn mark_words(n: usize) -> usize {
    n / 64 + usize::from(n % 64 != 0)
}

/// Words of 64 bits in the evidence for a table with room for `n` cells, `n` at most [`CAPACITY`].
pub fn evidence_words(n: usize) -> usize {
    n.min(CAPACITY) * mark_words(n.min(CAPACITY))
}

/// What the checker answers: for each dimension 0 to 6 the live cells and the hole number. `holes[0]` counts pieces, `holes[1]` tunnels,
/// `holes[2]` voids.
#[derive(Clone, Copy, Debug, PartialEq, Eq)]
pub struct Count {
    pub cells: [u16; DIMENSIONS],
    pub holes: [u16; DIMENSIONS],
}

/// A table of cells over words that it owns (`Vec<u16>`, `[u16; 64]`) or borrows (`&mut [u16]`, or `&[u16]` for the reading calls).
///
/// Any words will do: each call looks at the table itself, and refuses with 1 or 2 what is none.
#[derive(Clone, Debug, PartialEq, Eq)]
pub struct Table<W = Vec<u16>> {
    words: W,
}

impl Table<Vec<u16>> {
    /// An empty table with room for `n` cells. Refused: 1 where `n` is not from 1 to 512.
    pub fn new(n: usize) -> Result<Self, Refusal> {
        // Tested ahead of the kernel, so that a wild number takes no memory.
        if n > CAPACITY {
            return Err(Refusal::Length);
        }
        let mut table = Table::over(vec![FREE; RECORD_WORDS * n]);
        table.empty()?;
        Ok(table)
    }

    /// A table for the N of a sketch file, filled from it. Refused: 15, 16, 2; an N outside 1 to 512 is 15.
    pub fn from_file(file: &[u8]) -> Result<Self, Refusal> {
        let n = match file {
            [low, high, ..] => usize::from(u16::from_le_bytes([*low, *high])),
            _ => return Err(Refusal::BadContents),
        };
        let mut table = Table::new(n).map_err(|_| Refusal::BadContents)?;
        table.read(file)?;
        Ok(table)
    }

    /// A table of N = 512, filled from a part list, as the program `parts` does. Refused: 17, 18, 9.
    ///
    /// ```
    /// let block = bumbleturf::Table::from_list("4\n0 1 2 3\n")?; // one tetrahedron
    /// assert_eq!(block.count()?.cells[..4], [4, 6, 4, 1]);
    /// # Ok::<(), bumbleturf::Refusal>(())
    /// ```
    pub fn from_list(text: impl AsRef<[u8]>) -> Result<Self, Refusal> {
        let mut table = Table::new(CAPACITY)?;
        table.import(text)?;
        Ok(table)
    }
}

impl<W> Table<W> {
    /// A table over these words, as they are.
    pub fn over(words: W) -> Self {
        Table { words }
    }

    /// The words again.
    pub fn into_words(self) -> W {
        self.words
    }
}

impl<W: AsRef<[u16]>> Table<W> {
    /// The words: record `c` is words 8·c to 8·c + 7.
    pub fn words(&self) -> &[u16] {
        self.words.as_ref()
    }

    /// N, the number of cells there is room for.
    pub fn room(&self) -> usize {
        self.words().len() / RECORD_WORDS
    }

    /// Whether the table is valid. Refused: 1, 2.
    pub fn audit(&self) -> Result<(), Refusal> {
        let t = self.words();
        Refusal::answer(unsafe { bt_audit(t.as_ptr(), t.len()) })
    }

    /// The sum of (−1)^j over the places j at which face j of `cell` is `face`; from −3 to 4. Refused: 1, 2, 3, and 5 where `face` is not
    /// one dimension below `cell`.
    pub fn incidence(&self, cell: u16, face: u16) -> Result<i64, Refusal> {
        let t = self.words();
        let mut sum = 0;
        Refusal::answer(unsafe { bt_incidence(t.as_ptr(), t.len(), cell, face, &mut sum) })?;
        Ok(sum)
    }

    /// The boundary of a chain of N coefficients in the named dimension, into a second buffer of N. Refused, in this order: 1, 2, 12 for a
    /// dimension above 6, 10 for a coefficient outside ±2^40, 11 for one at a number that is no live cell of that dimension.
    pub fn boundary(&self, chain: &[i64], dimension: u16, boundary: &mut [i64]) -> Result<(), Refusal> {
        let t = self.words();
        Refusal::answer(unsafe {
            bt_boundary(t.as_ptr(), t.len(), chain.as_ptr(), chain.len(), dimension, boundary.as_mut_ptr(), boundary.len())
        })
    }

    /// Corner `k` of a cell of dimension p. Refused: 1, 2, 3, and 12 where `k` is above p.
    pub fn corner(&self, cell: u16, k: u16) -> Result<u16, Refusal> {
        let t = self.words();
        let mut corner = 0;
        Refusal::answer(unsafe { bt_corner(t.as_ptr(), t.len(), cell, k, &mut corner) })?;
        Ok(corner)
    }

    /// Whether the part is a sheet. Refused: 1, 2.
    pub fn sheet(&self) -> Result<bool, Refusal> {
        let t = self.words();
        let mut yes = 0;
        Refusal::answer(unsafe { bt_sheet(t.as_ptr(), t.len(), &mut yes) })?;
        Ok(yes != 0)
    }

    /// Fills the evidence, [`evidence_words`] of N, and answers the additions made in each dimension. Refused: 1, 2.
    pub fn reduce(&self, evidence: &mut [u64]) -> Result<[u64; DIMENSIONS], Refusal> {
        let t = self.words();
        let mut additions = [0; DIMENSIONS];
        Refusal::answer(unsafe { bt_reduce(t.as_ptr(), t.len(), evidence.as_mut_ptr(), evidence.len(), &mut additions) })?;
        Ok(additions)
    }

    /// Tests evidence, whoever made it, and counts. Refused: 1, 2, then 13 or 14 with the first row at fault.
    pub fn check(&self, evidence: &[u64]) -> Result<Count, Refusal> {
        let t = self.words();
        let mut count = Count { cells: [0; DIMENSIONS], holes: [0; DIMENSIONS] };
        Refusal::answer(unsafe { bt_check(t.as_ptr(), t.len(), evidence.as_ptr(), evidence.len(), &mut count.cells, &mut count.holes) })?;
        Ok(count)
    }

    /// Reduces, then checks, with evidence of its own. Refused: 1, 2.
    pub fn count(&self) -> Result<Count, Refusal> {
        let mut evidence = vec![0; evidence_words(self.room())];
        self.reduce(&mut evidence)?;
        self.check(&evidence)
    }

    /// Writes the table as a sketch file and answers its length; no byte after it is touched. Refused: 1, 2, and 9 where `target` is
    /// shorter than the file. [`FILE_BYTES`] are always enough.
    pub fn write(&self, target: &mut [u8]) -> Result<usize, Refusal> {
        let t = self.words();
        let mut written = 0;
        Refusal::answer(unsafe { bt_write(t.as_ptr(), t.len(), target.as_mut_ptr(), target.len(), &mut written) })?;
        Ok(written)
    }

    /// The table as a sketch file. Refused: 1, 2.
    pub fn to_file(&self) -> Result<Vec<u8>, Refusal> {
        let mut file = vec![0; FILE_BYTES];
        let written = self.write(&mut file)?;
        file.truncate(written);
        Ok(file)
    }
}

impl<W: AsRef<[u16]> + AsMut<[u16]>> Table<W> {
    /// The words, for filling in records by hand; every call looks at them anew.
    pub fn words_mut(&mut self) -> &mut [u16] {
        self.words.as_mut()
    }

    /// Sets every word to 65535, over any old contents. Refused: 1.
    pub fn empty(&mut self) -> Result<(), Refusal> {
        let t = self.words_mut();
        Refusal::answer(unsafe { bt_empty(t.as_mut_ptr(), t.len()) })
    }

    /// Adds a point, the apex, and a cone over each marked cell; bit b of word w of the marks, [`mark_words`] of N, marks cell 64·w + b.
    /// Answers the apex. Refused: 1, 2, 3, 7 where a face of a marked cell is not marked, 8, 9 where there is no room.
    pub fn cone(&mut self, marks: &[u64]) -> Result<u16, Refusal> {
        let t = self.words_mut();
        let mut apex = 0;
        Refusal::answer(unsafe { bt_cone(t.as_mut_ptr(), t.len(), marks.as_ptr(), marks.len(), &mut apex) })?;
        Ok(apex)
    }

    /// [`Table::cone`] over the cells of a list, in any order; refused as it is.
    pub fn cone_over(&mut self, cells: &[u16]) -> Result<u16, Refusal> {
        let mut marks = [0; CAPACITY / 64];
        let marks = &mut marks[..mark_words(self.room().min(CAPACITY))];
        for cell in cells {
            match marks.get_mut(usize::from(cell / 64)) {
                Some(word) => *word |= 1 << (cell % 64),
                // There is no bit to ask the kernel with: such a number is no live cell, once the table is one.
                None => return self.audit().and(Err(Refusal::NotLive)),
            }
        }
        self.cone(marks)
    }

    /// Joins two different live cells of one dimension with equal face lists, and answers the kept number, the smaller one. Refused: 1, 2,
    /// 3, 4 where `a` is `b`, 5 for unequal dimensions, 6 where the face lists differ.
    pub fn merge(&mut self, a: u16, b: u16) -> Result<u16, Refusal> {
        let t = self.words_mut();
        let mut kept = 0;
        Refusal::answer(unsafe { bt_merge(t.as_mut_ptr(), t.len(), a, b, &mut kept) })?;
        Ok(kept)
    }

    /// Joins two different live cells of one dimension, their faces place by place, and so on down; each class of joined cells becomes its
    /// smallest number. Answers the kept number of the two. Refused: 1, 2, 3, 4 where `a` is `b`, 5 for unequal dimensions.
    pub fn weld(&mut self, a: u16, b: u16) -> Result<u16, Refusal> {
        let t = self.words_mut();
        let mut kept = 0;
        Refusal::answer(unsafe { bt_weld(t.as_mut_ptr(), t.len(), a, b, &mut kept) })?;
        Ok(kept)
    }

    /// Renumbers the live cells 0, 1, 2, .. by dimension, then by old number, and moves the free records to the end. The list, N words,
    /// gets each old number's new one, [`FREE`] for a free number. Evidence made before is for the old numbers. Refused: 1, 2.
    pub fn compact(&mut self, list: &mut [u16]) -> Result<(), Refusal> {
        let t = self.words_mut();
        Refusal::answer(unsafe { bt_compact(t.as_mut_ptr(), t.len(), list.as_mut_ptr(), list.len()) })
    }

    /// Fills the table from a sketch file; its old contents are not looked at. Refused, in this order: 1, 15, 16, 2; with 1 the table
    /// stays, with any other every word is 65535.
    pub fn read(&mut self, file: &[u8]) -> Result<(), Refusal> {
        let t = self.words_mut();
        Refusal::answer(unsafe { bt_read(t.as_mut_ptr(), t.len(), file.as_ptr(), file.len()) })
    }

    /// Fills the table from a part list; its old contents are not looked at. The text has a point count on its first line, then on each
    /// line 1 to 7 indices below it, one space between; every line ends with a newline. The points and each non-empty subset of a line
    /// become one cell, once, with corners in rising index, numbered by dimension, then by corners in dictionary order. Refused, in this
    /// order: 1, 17 for a text that is no part list, 18 for an index repeated in its line or not below the count, 9 for more cells than N;
    /// with 1 the table stays, with any other every word is 65535.
    pub fn import(&mut self, text: impl AsRef<[u8]>) -> Result<(), Refusal> {
        let (t, text) = (self.words_mut(), text.as_ref());
        Refusal::answer(unsafe { bt_import(t.as_mut_ptr(), t.len(), text.as_ptr(), text.len()) })
    }
}
