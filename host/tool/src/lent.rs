//! A picture as filtering calls take it: by the calls with slices where it has a table of them, else by the
//! plain ones.

use deblock::{Answer, Place};
use std::ops::Range;

pub struct Lent<'a> {
    pub picture: deblock::Picture<'a>,
    pub has_slices: bool,
}

impl Lent<'_> {
    pub fn whole(&mut self) -> Answer {
        match self.has_slices {
            true => self.picture.whole_slices(),
            false => self.picture.whole(),
        }
    }

    pub fn rows(&mut self, rows: Range<usize>) -> Answer {
        match self.has_slices {
            true => self.picture.rows_slices(rows),
            false => self.picture.rows(rows),
        }
    }

    pub fn visit(&mut self, at: Place) -> Answer {
        match self.has_slices {
            true => self.picture.visit_slices(at),
            false => self.picture.visit(at),
        }
    }
}
