//! How two pictures differ, summed up and in words.

use crate::raw::Sample;
use crate::say::{counted, differ};
use std::collections::BTreeSet;

/// How many of the largest differences are kept, and how many macroblocks are named.
const LARGEST: usize = 5;
const NAMED: usize = 24;

#[derive(Default)]
pub struct Differences {
    /// Samples of Y, U and V that differ.
    samples: [usize; 3],
    /// The macroblocks that hold them, by row and column.
    macroblocks: BTreeSet<(usize, usize)>,
    largest: Vec<Sample>,
}

impl Differences {
    pub fn of(samples: impl Iterator<Item = Sample>) -> Differences {
        let mut all = Differences::default();
        samples.for_each(|s| all.add(s));
        all
    }

    fn add(&mut self, s: Sample) {
        self.samples["YUV".find(s.plane).expect("a plane")] += 1;
        self.macroblocks.insert((s.row, s.column));
        let place = self.largest.partition_point(|l| l.step() >= s.step());
        if place < LARGEST {
            self.largest.truncate(LARGEST - 1);
            self.largest.insert(place, s);
        }
    }

    pub fn is_empty(&self) -> bool {
        self.macroblocks.is_empty()
    }

    pub fn macroblocks(&self) -> usize {
        self.macroblocks.len()
    }

    /// The first macroblock in raster order, as its column and row.
    pub fn first(&self) -> Option<(usize, usize)> {
        self.macroblocks.first().map(|&(row, column)| (column, row))
    }

    /// On one line: how many samples, of which planes, by how much, and where.
    pub fn in_short(&self) -> String {
        let Some(first) = self.first() else { return differ(0, "sample") };
        let [y, u, v] = self.samples;
        let step = self.largest[0].step();
        let (samples, macroblocks) = (differ(y + u + v, "sample"), counted(self.macroblocks(), "macroblock"));
        format!("{samples} (Y {y}, U {u}, V {v}), by at most {step}, in {macroblocks}; the first is {first:?}")
    }

    /// Line by line: the same, the macroblocks, and the largest differences.
    pub fn at_length(&self) -> Vec<String> {
        let mut lines = vec![self.in_short()];
        if !self.is_empty() {
            lines.push(format!("macroblocks (column, row): {}", self.names()));
        }
        let largest = self.largest.iter();
        lines.extend(largest.map(|s| format!("{} at ({}, {}): {} and {}", s.plane, s.x, s.y, s.here, s.there)));
        lines
    }

    fn names(&self) -> String {
        let first = self.macroblocks.iter().take(NAMED);
        let names: Vec<String> = first.map(|(row, column)| format!("({column}, {row})")).collect();
        let more = if self.macroblocks() > NAMED { " .." } else { "" };
        names.join(" ") + more
    }
}

#[cfg(test)]
mod tests {
    use super::*;

    fn sample(plane: char, x: usize, there: u8) -> Sample {
        Sample { plane, x, y: 0, here: 10, there, column: x / 16, row: 0 }
    }

    #[test]
    fn nothing_one_and_many() {
        let said = |all: &[Sample]| Differences::of(all.iter().copied()).in_short();
        assert_eq!(said(&[]), "0 samples differ");
        assert_eq!(Differences::default().at_length(), ["0 samples differ"]);
        let one = "1 sample differs (Y 0, U 1, V 0), by at most 3, in 1 macroblock; the first is (1, 0)";
        assert_eq!(said(&[sample('U', 16, 13)]), one);
        let two = "2 samples differ (Y 1, U 0, V 1), by at most 9, in 2 macroblocks; the first is (0, 0)";
        assert_eq!(said(&[sample('Y', 16, 13), sample('V', 15, 1)]), two);
    }

    #[test]
    fn the_largest_come_first_and_no_more_than_five() {
        let steps = [3, 9, 1, 9, 2, 5, 4];
        let all = steps.iter().enumerate().map(|(x, &step)| sample('Y', x, 10 + step));
        let lines = Differences::of(all).at_length();
        let places: Vec<_> = lines[2..].iter().map(|l| l.split(':').next().unwrap_or_default()).collect();
        assert_eq!(places, ["Y at (1, 0)", "Y at (3, 0)", "Y at (5, 0)", "Y at (6, 0)", "Y at (0, 0)"]);
    }

    #[test]
    fn many_macroblocks_are_cut_short() {
        let lines = Differences::of((0..25).map(|m| sample('Y', 16 * m, 0))).at_length();
        assert!(lines[1].ends_with("(23, 0) .."), "{}", lines[1]);
    }
}
