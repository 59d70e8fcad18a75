//! Compares calls one by one and keeps count.

use crate::counts::Counts;
use crate::expect::{expect, second_opinion};
use crate::finality;
use crate::original;
use crate::request::{Call, Request, Structure, CALLS, FILTER_CALLS};
use crate::shrink;
use crate::subject::Subject;
use crate::table;
use std::collections::BTreeMap;
use std::fmt;

/// A comparison that failed, told in full.
pub struct Failure(pub String);

impl fmt::Display for Failure {
    fn fmt(&self, f: &mut fmt::Formatter) -> fmt::Result {
        f.write_str(&self.0)
    }
}

pub type Outcome = Result<(), Failure>;

pub struct Session<'a> {
    subject: &'a dyn Subject,
    /// Off for filters that are known to be wrong: that they are caught is all that is asked. No case is
    /// made small then, and there are no second opinions.
    thorough: bool,
    /// What the runs are about that are now made.
    of: Structure,
    /// For what each run is about, each run and each call, plain or with slices.
    counts: Counts<(Structure, &'static str, Call, bool)>,
    /// For each other kind of comparison (a whole picture after visits), how many were made.
    others: BTreeMap<&'static str, u64>,
    /// Calls that were done as the original decides.
    by_original: u64,
    /// What is compared of the calls that tell what is final.
    pub finality: finality::Session<'a>,
}

/// Of so many calls that the original decides, the model is asked about one. The original is asked about
/// every call that the model decides, as far as it can be.
const MODEL_ASKED: u64 = 8;

impl<'a> Session<'a> {
    pub fn new(subject: &'a dyn Subject, thorough: bool) -> Self {
        let (counts, others) = (Counts::new(), BTreeMap::new());
        let finality = finality::Session::new(subject.finality(), thorough);
        Session { subject, thorough, of: Structure::Frame, counts, others, by_original: 0, finality }
    }

    /// From now on runs are about frames, or about fields: a field's part may be wrong, and be that of a
    /// frame.
    pub fn about(&mut self, of: Structure) {
        self.of = of;
    }

    /// Makes the call and compares its answer and every lent byte, guards included.
    pub fn check(&mut self, run: &'static str, r: &Request) -> Outcome {
        let mut want = r.clone();
        let number = expect(&mut want);
        if number == 0 && self.thorough {
            self.second(run, r, &want)?;
        }
        match compared(self.subject, r, number, &want) {
            Ok(()) => {
                self.count(run, r, number);
                Ok(())
            }
            Err(what) if !self.thorough => Err(Failure(format!("{}, {run}, {}: {what}", self.of.words(), r.name()))),
            Err(what) => {
                let small = shrink::smallest(r, |r| mismatch(self.subject, r).is_err());
                let after = mismatch(self.subject, &small).err().unwrap_or_default();
                Err(Failure(format!(
                    "{}, {run}, call {} on {} by {}: {what}\nthe smallest such case: {after}\n{}",
                    self.of.words(),
                    r.name(),
                    r.w,
                    r.h,
                    shrink::describe(&small)
                )))
            }
        }
    }

    /// Asks the model where the original decides, and the original where the model does: what the call is
    /// held to must be what both of them say.
    fn second(&mut self, run: &'static str, r: &Request, want: &Request) -> Outcome {
        let decides = original::decides(r);
        self.by_original += u64::from(decides);
        let asks = !decides || self.by_original.is_multiple_of(MODEL_ASKED);
        let other = asks.then(|| second_opinion(r)).flatten();
        self.note(held_to(r, decides, other.is_some()));
        if r.call == Call::StrengthsRow {
            self.note(held_to_in_rows(decides, other.is_some()));
        }
        if r.has_tables() {
            self.note(held_to_with_tables(decides, other.is_some()));
        }
        if r.sliced {
            self.note(held_to_with_slices(decides, other.is_some()));
        }
        match other.and_then(|other| other.difference(want)) {
            None => Ok(()),
            Some(what) => {
                let case = shrink::describe(r);
                Err(Failure(format!("{run}: model and original differ, so the judge is at fault: {what}\n{case}")))
            }
        }
    }

    /// Makes the call in place, for sequences; the caller compares the memory.
    pub fn call(&mut self, run: &'static str, r: &mut Request, number: u32) -> Outcome {
        let answer = self.subject.call(r);
        if answer != number {
            let (x, y, w, h, part) = (r.x, r.y, r.w, r.h, r.part);
            let what = format!("visit of ({x}, {y}) in {w} by {h}, part {part}, answered {answer} instead of {number}");
            return Err(Failure(format!("{run}: {what}")));
        }
        self.count(run, r, number);
        Ok(())
    }

    /// Makes the call on two requests that differ in nothing that it reads, and compares what they become:
    /// the same answer, what differed is as it was, and all else is alike.
    pub fn alike(&mut self, run: &'static str, r: &Request, other: &Request) -> Outcome {
        self.check(run, r)?;
        self.check(run, other)?;
        let (mut one, mut two) = (r.clone(), other.clone());
        let answers = [self.subject.call(&mut one), self.subject.call(&mut two)];
        two.undo(r, other);
        let what = match two.difference(&one) {
            _ if answers[0] != answers[1] => format!("answered {answers:?}"),
            Some(what) => what,
            None => {
                self.note("calls made again with other bytes wherever they do not read");
                return Ok(());
            }
        };
        Err(Failure(format!("{run}, {}: bytes that are not read tell: {what}\n{}", r.name(), shrink::describe(r))))
    }

    pub fn note(&mut self, what: &'static str) {
        *self.others.entry(what).or_default() += 1;
    }

    /// How many calls of the runs about frames, or about fields, were compared.
    pub fn calls(&self, of: Structure) -> u64 {
        self.counts.calls(|(own, ..)| *own == of)
    }

    /// How many of all these were calls with slices.
    pub fn sliced_calls(&self) -> u64 {
        self.counts.calls(|(.., sliced)| *sliced)
    }

    /// The numbers that a call could have answered and has not, in words.
    pub fn unseen(&self) -> Vec<String> {
        let calls = CALLS.map(|call| (call, false)).into_iter().chain(FILTER_CALLS.map(|call| (call, true)));
        let all = calls.flat_map(|(call, sliced)| table::numbers().map(move |number| (call, sliced, number)));
        let unseen = all.filter(|&(call, sliced, number)| {
            let is_own = |(.., own, with_slices): &(_, _, Call, bool)| (*own, *with_slices) == (call, sliced);
            table::can_give(call, sliced, number) && self.counts.answered(is_own, number) == 0
        });
        unseen.map(|(call, sliced, number)| format!("{number} of {}", call.name(sliced))).collect()
    }

    pub fn print(&self) {
        self.counts.print(|(of, run, call, sliced)| [of.words().to_string(), run.to_string(), call.name(*sliced)]);
        for (what, count) in &self.others {
            println!("{what}: {count}");
        }
    }

    fn count(&mut self, run: &'static str, r: &Request, number: u32) {
        self.counts.count((self.of, run, r.call, r.sliced), number);
    }
}

/// What a call is held to, in words.
fn held_to(r: &Request, original_decides: bool, both: bool) -> &'static str {
    match (r.structure(), original_decides, both) {
        (Structure::Frame, ..) if original::is_asked_twice(r) => {
            "calls on frames with two chroma offsets, held to the model and to the original, asked with each"
        }
        (Structure::Field, ..) if original::is_asked_twice(r) => {
            "calls on fields with two chroma offsets, held to the model and to the original, asked with each"
        }
        (Structure::Frame, true, false) => "calls on frames, held to the original",
        (Structure::Frame, true, true) => "calls on frames, held to the original and to the model",
        (Structure::Frame, false, true) if r.sliced => "calls on frames, held to the model and to the original",
        (Structure::Frame, false, false) => "calls on frames with 8x8 flags, held to the model",
        (Structure::Frame, false, true) => "calls on frames with 8x8 flags, held to the model and to the original",
        (Structure::Field, _, false) => "calls on fields, held to the model",
        (Structure::Field, _, true) => "calls on fields, held to the model and to the original",
    }
}

/// What a row of strengths is held to, in words; it is told as any other call too.
fn held_to_in_rows(original_decides: bool, both: bool) -> &'static str {
    match (original_decides, both) {
        (true, false) => "rows of strengths among these, held to the original, asked by macroblocks",
        (true, true) => "rows of strengths among these, held to the original, asked by macroblocks, and to the model",
        (false, false) => "rows of strengths among these, held to the model",
        (false, true) => "rows of strengths among these, held to the model and to the original, asked by macroblocks",
    }
}

/// What a call with reference tables is held to, in words; it is told as one without them too.
fn held_to_with_tables(original_decides: bool, both: bool) -> &'static str {
    match (original_decides, both) {
        (true, false) => "calls with reference tables among these, held to the original",
        (true, true) => "calls with reference tables among these, held to the original and to the model",
        (false, false) => "calls with reference tables among these, held to the model",
        (false, true) => "calls with reference tables among these, held to the model and to the original",
    }
}

/// What a call with slices is held to, in words; it is told as one without them too.
fn held_to_with_slices(original_decides: bool, both: bool) -> &'static str {
    match (original_decides, both) {
        (true, false) => "calls by one slice of mode 0 among these, held to the original",
        (true, true) => "calls by one slice of mode 0 among these, held to the original and to the model",
        (false, false) => "calls with slices among these, held to the model",
        (false, true) => "calls with slices among these, held to the model and to the original, asked by chunks",
    }
}

/// What is not as it must be, if anything is not.
fn mismatch(subject: &dyn Subject, r: &Request) -> Result<(), String> {
    let mut want = r.clone();
    let number = expect(&mut want);
    compared(subject, r, number, &want)
}

fn compared(subject: &dyn Subject, r: &Request, number: u32, want: &Request) -> Result<(), String> {
    let mut got = r.clone();
    let answer = subject.call(&mut got);
    if answer != number {
        return Err(format!("answered {answer} instead of {number}"));
    }
    match got.difference(want) {
        Some(what) => Err(format!("answered {answer}, but {what}")),
        None => Ok(()),
    }
}
