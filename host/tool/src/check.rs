//! Holds the library to one recording: strengths from its grids, and its planes by visits in arrival orders.

use crate::beside::{Beside, Counts, Verdict};
use crate::orderfile::OrderFile;
use crate::orders::{self, Order};
use crate::picture::Picture;
use crate::progress::Progress;
use crate::recording::Recording;
use crate::station::{old_rule, replay};
use crate::strengths;
use crate::trouble::Trouble;

/// Random orders that are tried where none is given.
const SEEDS: u64 = 100;

/// How the macroblocks of a picture arrive.
pub struct Plan {
    pub given: Option<OrderFile>,
    /// Whether one that is not ready is not visited again.
    pub once: bool,
}

/// What came out, and the lines that say so.
pub struct Report {
    pub verdict: Verdict,
    pub lines: Vec<String>,
}

/// Whether the old release's rule gives other planes than the recorder's, so that a replay can show its
/// fault.
pub fn shows_the_fault(r: &Recording) -> bool {
    r.settings.iter().fold(r.before.clone(), old_rule) != r.after
}

impl Report {
    pub fn add(&mut self, other: Report) {
        self.verdict = self.verdict.max(other.verdict);
        self.lines.extend(other.lines);
    }
}

/// What came out, and the picture as the library filtered it in the given order, or in raster order if none
/// is given. An order that does not fit the picture is trouble.
pub fn picture(r: &Recording, plan: &Plan) -> Result<(Report, Picture), Trouble> {
    let (parts, size) = (r.parts(), r.before.size);
    let mut report = strengths::check(r);
    let orders = match &plan.given {
        Some(file) => vec![("the given order", file.order(&parts, size)?)],
        None => orders::named(&parts, size),
    };
    let mut ends = orders.iter().map(|(name, order)| one(r, name, order, plan.once));
    let (first, filtered) = ends.next().expect("at least one order");
    report.add(first);
    ends.for_each(|(other, _)| report.add(other));
    if plan.given.is_none() {
        report.add(many(r, plan.once));
    }
    Ok((report, filtered))
}

/// Visits the macroblocks in one order; also the picture at its end.
fn one(r: &Recording, name: &str, order: &Order, once: bool) -> (Report, Picture) {
    let end = replay(&r.before, &r.settings, order, !once);
    let beside = Beside::of(r, &end);
    let mut lines = vec![format!("{name}: {}", end.answers())];
    lines.extend(beside.lines().iter().map(|line| format!("  {line}")));
    (Report { verdict: beside.verdict(), lines }, end.picture)
}

/// Visits them in random orders; the first that gives another picture is told in full.
fn many(r: &Recording, once: bool) -> Report {
    let mut progress = Progress::new("random orders", SEEDS);
    let mut report = Report { verdict: Verdict::Equal, lines: Vec::new() };
    let (mut equal, mut counts) = (0, Counts::default());
    for seed in 0..SEEDS {
        let order = orders::random(&r.parts(), r.before.size, seed);
        let beside = Beside::of(r, &replay(&r.before, &r.settings, &order, !once));
        if beside.verdict() == Verdict::Different && report.verdict != Verdict::Different {
            report.add(one(r, &format!("random order of seed {seed}"), &order, once).0);
        }
        report.verdict = report.verdict.max(beside.verdict());
        equal += u64::from(beside.verdict() == Verdict::Equal);
        counts.add(&beside.counts());
        progress.step();
    }
    let (seeds, of) = (SEEDS - 1, if r.has_fields() { " of both fields" } else { "" });
    report.lines.push(format!("random orders{of}, seeds 0 to {seeds}: planes as the recorder's in {equal} of {SEEDS}"));
    report.lines.extend(counts.in_words().map(|words| format!("  {words}")));
    report
}

#[cfg(test)]
mod tests {
    use super::*;
    use crate::recording::tests::{changed, fields, good, parse};

    fn said(recording: &[u8], once: bool) -> (Verdict, String) {
        let checked = picture(&parse(recording).expect("it reads"), &Plan { given: None, once });
        let (Report { verdict, lines }, _) = checked.expect("no order is given");
        (verdict, lines.join("\n"))
    }

    #[test]
    fn a_good_recording() {
        let (verdict, lines) = said(&good(), false);
        assert_eq!(verdict, Verdict::Equal);
        assert!(lines.contains("strengths: as in the file\nraster order: 0 done: 1\n  planes as the recorder's"));
        assert!(lines.ends_with("\nrandom orders, seeds 0 to 99: planes as the recorder's in 100 of 100"));
        let (verdict, lines) = said(&fields(), false);
        assert_eq!((verdict, lines.matches(": 0 done: 2\n  planes as the recorder's").count()), (Verdict::Equal, 5));
        assert!(lines.starts_with("strengths: as in the file\n"));
        assert!(
            lines.ends_with("\nrandom orders of both fields, seeds 0 to 99: planes as the recorder's in 100 of 100")
        );
    }

    #[test]
    fn strengths_that_differ_or_are_refused() {
        for (recording, field) in [(good(), ""), (fields(), "bottom field: ")] {
            let last = recording.len() - 1;
            let (verdict, lines) = said(&changed(recording.clone(), last, 1), false);
            assert_eq!(verdict, Verdict::Different);
            assert!(lines.starts_with(&format!("{field}strengths: 1 macroblock differs, the first is (0, 0)\n")));
            let (verdict, lines) = said(&changed(recording, last - 143, 0), false);
            assert_eq!(verdict, Verdict::Different);
            assert!(lines.starts_with(&format!("{field}strengths: 1 refusal, the first at (0, 0) with 11 (")));
        }
    }

    /// A recording with an 8x8 flag and a count in block 0, which counts for the whole 8x8 block: 2 on the
    /// first half of both edges 2, and 0 on the others. Without the flag the strengths are others.
    #[test]
    fn strengths_by_the_flags_of_the_recording() {
        let mut coded = changed(good(), 10, 2);
        let flag = 14 + 768 + 3; // after the offsets and the QP
        coded.insert(flag, 1);
        coded[flag + 1 + 16] = 1;
        let strengths = coded.len() - 32;
        for k in [8, 9, 24, 25] {
            coded[strengths + k] = 2;
        }
        assert!(said(&coded, false).1.starts_with("strengths: as in the file\n"));
        let (verdict, lines) = said(&changed(coded, flag, 0), false);
        assert_eq!(verdict, Verdict::Different);
        assert!(lines.starts_with("strengths: 1 macroblock differs, the first is (0, 0)\n"));
    }

    #[test]
    fn planes_that_differ_are_told_once() {
        let (verdict, lines) = said(&changed(good(), 14 + 384, 99), true);
        assert_eq!(verdict, Verdict::Different);
        assert_eq!(lines.matches("random order of seed").count(), 1);
        assert!(lines.ends_with("in 0 of 100"));
    }
}
