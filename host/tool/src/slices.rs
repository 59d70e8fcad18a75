//! The slices of a frame or of a field: a table of their settings, and which macroblock is of which.

use deblock::SliceRecord;

/// Every number is below the table's length.
#[derive(Clone)]
pub struct Slices {
    pub table: Vec<SliceRecord>,
    pub numbers: Vec<u16>,
}

impl Slices {
    /// As long as these, but before anything has arrived: zeros, which are legal.
    pub fn nothing(&self) -> Slices {
        Slices { table: vec![SliceRecord::default(); self.table.len()], numbers: vec![0; self.numbers.len()] }
    }

    /// Takes the number of macroblock m, and the record of its slice.
    pub fn take(&mut self, from: &Slices, m: usize) {
        let number = from.numbers[m];
        self.numbers[m] = number;
        self.table[usize::from(number)] = from.table[usize::from(number)];
    }
}
