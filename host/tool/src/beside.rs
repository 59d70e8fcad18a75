//! What a replay has painted beside the recorder's planes: each macroblock as it was when it became final.

use crate::differences::Differences;
use crate::part;
use crate::raw::{samples, Sample};
use crate::recording::Recording;
use crate::say::counted;
use crate::station::Station;
use deblock::Part;

/// The worse comes later.
#[derive(Clone, Copy, PartialEq, Eq, PartialOrd, Ord, Debug)]
pub enum Verdict {
    Equal,
    /// Some macroblocks did not become final; those that did are the recorder's.
    Incomplete,
    Different,
}

/// Macroblocks of one replay or of several.
#[derive(Default, PartialEq, Eq, Debug)]
pub struct Counts {
    all: usize,
    unvisited: usize,
    finals: usize,
    /// Those that are final and as the recorder's.
    equal: usize,
}

impl Counts {
    pub fn add(&mut self, other: &Counts) {
        self.all += other.all;
        self.unvisited += other.unvisited;
        self.finals += other.finals;
        self.equal += other.equal;
    }

    /// Nothing to say where every macroblock became final, and so was visited.
    pub fn in_words(&self) -> Option<String> {
        let Counts { all, unvisited, finals, equal } = self;
        let words =
            format!("never visited: {unvisited} of {all} macroblocks; final: {finals}, as the recorder's: {equal}");
        (finals < all).then_some(words)
    }
}

/// The frame, or each of its fields.
pub struct Beside(Vec<Compared>);

struct Compared {
    part: Part,
    counts: Counts,
    differences: Differences,
    /// Samples that are painted and that a later visit changed: none, by what is proved.
    changed: usize,
}

impl Beside {
    pub fn of(r: &Recording, end: &Station) -> Beside {
        let compared = end.arrived.iter().map(|own| {
            let (part, screen) = (own.part(), end.screen.view());
            let is_painted = |s: &Sample| own.is_painted(s.column, s.row);
            let differences = Differences::of(samples(part, screen, r.after.view()).filter(is_painted));
            let changed = samples(part, screen, end.picture.view()).filter(is_painted).count();
            let (all, unvisited, finals) = (own.all(), own.unvisited(), own.painted());
            let counts = Counts { all, unvisited, finals, equal: finals - differences.macroblocks() };
            Compared { part, counts, differences, changed }
        });
        Beside(compared.collect())
    }

    /// The worst.
    pub fn verdict(&self) -> Verdict {
        self.0.iter().map(Compared::verdict).max().unwrap_or(Verdict::Equal)
    }

    pub fn counts(&self) -> Counts {
        let mut sum = Counts::default();
        self.0.iter().for_each(|own| sum.add(&own.counts));
        sum
    }

    /// What differs, what changed, what was never visited, or that all is equal.
    pub fn lines(&self) -> Vec<String> {
        let mut lines: Vec<String> = self.0.iter().flat_map(Compared::lines).collect();
        if lines.is_empty() {
            lines.push("planes as the recorder's".into());
        }
        lines
    }
}

impl Compared {
    fn verdict(&self) -> Verdict {
        match (self.differences.is_empty() && self.changed == 0, self.counts.in_words()) {
            (true, None) => Verdict::Equal,
            (true, _) => Verdict::Incomplete,
            (false, _) => Verdict::Different,
        }
    }

    /// What differs, what changed and what was never visited.
    fn lines(&self) -> Vec<String> {
        let mut lines = if self.differences.is_empty() { Vec::new() } else { self.differences.at_length() };
        if self.changed > 0 {
            lines.push(format!("{} changed after being painted", counted(self.changed, "sample")));
        }
        lines.extend(self.counts.in_words());
        lines.into_iter().map(|line| part::told(self.part, line)).collect()
    }
}

#[cfg(test)]
mod tests {
    use super::*;
    use crate::orders::{raster, Request};
    use crate::part::FIELDS;
    use crate::recording::tests::{changed, fields, good, parse};
    use crate::station::replay;
    use deblock::Size;

    const SIZE: Size = Size { w: 1, h: 1 };

    fn verdict(recording: &[u8], order: &[Request]) -> (Verdict, Vec<String>) {
        let r = parse(recording).expect("a good recording");
        let beside = Beside::of(&r, &replay(&r.before, &r.settings, order, true));
        (beside.verdict(), beside.lines())
    }

    #[test]
    fn equal_incomplete_and_different() {
        let (visit, wrong) = (raster(&[Part::Frame], SIZE), changed(good(), 14 + 767, 101));
        assert_eq!(verdict(&good(), &visit), (Verdict::Equal, vec!["planes as the recorder's".into()]));
        let never = "never visited: 1 of 1 macroblocks; final: 0, as the recorder's: 0".to_string();
        assert_eq!(verdict(&wrong, &[]), (Verdict::Incomplete, vec![never]));
        let (worst, lines) = verdict(&wrong, &visit);
        assert_eq!((worst, lines.last().map(String::as_str)), (Verdict::Different, Some("V at (7, 7): 100 and 101")));
    }

    /// What was painted counts, and it must stay in the planes.
    #[test]
    fn painted_too_early() {
        let r = parse(&good()).expect("a good recording");
        let mut end = replay(&r.before, &r.settings, &raster(&[Part::Frame], SIZE), true);
        end.picture.luma[0] += 1;
        let changed = Beside::of(&r, &end);
        assert_eq!((changed.verdict(), changed.lines()), {
            (Verdict::Different, vec!["1 sample changed after being painted".into()])
        });
        end.screen.luma[0] += 1;
        assert_eq!(Beside::of(&r, &end).lines()[1..], {
            ["macroblocks (column, row): (0, 0)".to_string(), "Y at (0, 0): 101 and 100".into()]
        });
    }

    /// The last sample of V after the filter, on line 15 of the frame, is in the bottom field.
    #[test]
    fn a_field_is_named() {
        let visits = raster(&FIELDS, SIZE);
        assert_eq!(verdict(&fields(), &visits), (Verdict::Equal, vec!["planes as the recorder's".into()]));
        let wrong = changed(fields(), 14 + 2 * 768 - 1, 101);
        let never = "bottom field: never visited: 1 of 1 macroblocks; final: 0, as the recorder's: 0".to_string();
        assert_eq!(verdict(&wrong, &visits[..1]), (Verdict::Incomplete, vec![never]));
        let (worst, lines) = verdict(&wrong, &visits);
        assert!(worst == Verdict::Different && lines.iter().all(|line| line.starts_with("bottom field: ")));
        assert_eq!(lines.last().map(String::as_str), Some("bottom field: V at (7, 7): 100 and 101"));
    }

    #[test]
    fn counts_add_up() {
        let mut all = Counts { all: 4, unvisited: 0, finals: 4, equal: 4 };
        assert_eq!(all.in_words(), None);
        all.add(&Counts { all: 4, unvisited: 2, finals: 1, equal: 0 });
        let words = "never visited: 2 of 8 macroblocks; final: 5, as the recorder's: 4";
        assert_eq!(all.in_words().as_deref(), Some(words));
    }
}
