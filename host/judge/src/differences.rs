//! What the Rust original does where the archive refuses, and the other differences of docs/DIFFERENCES.md.
//!
//! A row of that page and its check stand together in one entry of a table here, so that a row that is not
//! true fails. The rows are printed as the page has them, and host/run compares the two.

mod lengths;
mod rows;
mod stated;
mod values;

use crate::original::lent;
use crate::request::{Call, Request};
use crate::subject::{Archive, Subject};
use crate::table;
use lengths::LENGTHS;
use oracle::{Blocks, Offsets, Planes, Stored};
use rows::{Row, Rust};
use stated::{Stated, STATED};
use std::panic::{catch_unwind, set_hook, take_hook, AssertUnwindSafe};
use values::VALUES;

/// The table by refusal number, in the order of the numbers.
fn refused() -> impl Iterator<Item = &'static Row> {
    LENGTHS.iter().chain(VALUES)
}

/// Prints both tables. True if every row is.
pub fn run() -> bool {
    let archive = Archive::new();
    println!("| what | smallest input | here | elsewhere |\n|---|---|---|---|");
    let stated = STATED.iter().filter(|row| !told(&row.line(), row.check(&archive))).count();
    println!("\n| no. | smallest input | the Rust |\n|---|---|---|");
    let refused = refused().filter(|row| !told(&row.line(), row.check(&archive))).count();
    stated + refused == 0
}

/// Prints a row, and beside the table what is not true of it.
fn told(line: &str, checked: Result<(), String>) -> bool {
    println!("{line}");
    if let Err(what) = &checked {
        eprintln!("NOT TRUE: {line}\n          {what}");
    }
    checked.is_ok()
}

impl Stated {
    fn line(&self) -> String {
        format!("| {} | {} | {} | {} |", self.what, self.input, self.here, self.elsewhere)
    }

    fn check(&self, archive: &Archive) -> Result<(), String> {
        if (self.holds)(archive) {
            Ok(())
        } else {
            Err("its check fails".to_string())
        }
    }
}

impl Row {
    fn line(&self) -> String {
        let rust = match self.rust {
            Rust::CannotBeLent(why) => why.to_string(),
            Rust::Does(claims) => words(claims),
            Rust::DoesInRelease(claims) => format!("{}; a debug build panics", words(claims)),
        };
        format!("| {} | {} | {rust} |", self.no, self.input)
    }

    /// The archive refuses each of the row's inputs, which is one step from an input that is taken, and of
    /// each the claims are true.
    fn check(&self, archive: &Archive) -> Result<(), String> {
        let base = (self.base)();
        if archive.call(&mut base.clone()) != 0 {
            return Err("the input that was to be spoiled is not taken".to_string());
        }
        for spoil in self.spoils {
            let mut q = base.clone();
            spoil(&mut q);
            self.refused(archive, &q)?;
            self.claimed(&q)?;
        }
        Ok(())
    }

    /// Three times, so that each way to lend memory comes up: between guards, and against a fence on either
    /// side.
    fn refused(&self, archive: &Archive, q: &Request) -> Result<(), String> {
        if table::answer(q) != self.no {
            return Err(format!("the rules answer {}", table::answer(q)));
        }
        for _ in 0..3 {
            let mut after = q.clone();
            let answer = archive.call(&mut after);
            if answer != self.no || after != *q {
                return Err(format!("the archive answered {answer}; changed: {:?}", after.difference(q)));
            }
        }
        Ok(())
    }

    fn claimed(&self, q: &Request) -> Result<(), String> {
        let claims = match self.rust {
            Rust::CannotBeLent(_) => return Ok(()),
            Rust::DoesInRelease(_) if cfg!(debug_assertions) => &[("a debug build panics", Seen::panics as _)],
            Rust::Does(claims) | Rust::DoesInRelease(claims) => claims,
        };
        let seen = original(q);
        match claims.iter().find(|(_, holds)| !holds(&seen)) {
            Some((words, _)) => Err(format!("the Rust does not do this: {words} (did it end? {})", seen.ended)),
            None => Ok(()),
        }
    }
}

fn words(claims: &[Claim]) -> String {
    claims.iter().map(|(words, _)| *words).collect::<Vec<&str>>().join("; ")
}

/// What the original does with an input, in words and as a check.
pub type Claim = (&'static str, fn(&Seen) -> bool);

/// A call of the original and what came of it.
pub struct Seen {
    pub before: Request,
    /// The planes as they were left, also by a call that panicked.
    pub after: Request,
    /// A strength call's answer.
    pub own: Option<[u8; 32]>,
    pub ended: bool,
}

/// Lends the request to the original as it is; of 8x8 flags its strength calls are told the macroblock's own,
/// by kind none. A panic is an outcome, and is not printed; one in the
/// conversion to the original's types is none, since nobody could have made that call: it ends the program.
pub fn original(q: &Request) -> Seen {
    let has_call = !matches!(q.call, Call::Visit | Call::StrengthsRow);
    assert!(has_call && q.kind < 4 && !q.sliced, "the original has no such call");
    let [a, b, chroma, chroma_v] = q.offsets;
    assert_eq!(chroma, chroma_v, "the original has one chroma offset");
    let mut after = q.clone();
    let blocks = Blocks::new(q.w, lent(q));
    let stored = (!q.call.is_strengths()).then(|| Stored::new(q.w, q.h, &q.strengths, &q.qps, &q.t8s));
    let offsets = Offsets { a, b, chroma };
    let t8 = q.t8s.get(q.at()) == Some(&1);
    let planes = Planes { luma: &mut after.luma, u: &mut after.u, v: &mut after.v };
    let call = AssertUnwindSafe(|| match (q.call, &stored) {
        (Call::Kind, _) => Some(blocks.by_kind(q.x, q.y, q.kind)),
        (Call::Flags, _) => Some(blocks.by_flags(q.x, q.y, q.flat != 0, q.uniform != 0, t8)),
        (Call::Rows, Some(stored)) => {
            stored.filter_rows(planes, q.first..q.last, offsets);
            None
        }
        (_, Some(stored)) => {
            stored.filter_frame(planes, offsets);
            None
        }
        _ => Some(blocks.flagless(q.x, q.y, t8)),
    });
    let hook = take_hook();
    set_hook(Box::new(|_| ()));
    let outcome = catch_unwind(call);
    set_hook(hook);
    let (ended, own) = (outcome.is_ok(), outcome.ok().flatten());
    Seen { before: q.clone(), after, own, ended }
}

impl Seen {
    pub fn panics(&self) -> bool {
        !self.ended
    }

    /// It ended, and every sample is as it was.
    pub fn nothing(&self) -> bool {
        self.ended && self.own.is_none() && self.after == self.before
    }

    /// It ended as the changed input does, which is one that we take: with these strengths, or these samples.
    /// A sample too many stays. An equation between two calls that filter nothing would say nothing, and does
    /// not count.
    pub fn as_with(&self, change: fn(&mut Request)) -> bool {
        let filters = self.own.is_some() || self.after.luma != self.before.luma;
        self.ended && filters && self.luma_as(change) && self.chroma_as(change)
    }

    pub fn luma_as(&self, change: fn(&mut Request)) -> bool {
        let other = self.good(change);
        other.own == self.own && same(&self.before.luma, &self.after.luma, &other.after.luma)
    }

    pub fn chroma_as(&self, change: fn(&mut Request)) -> bool {
        let other = self.good(change);
        let (was, is) = (&self.before, &self.after);
        same(&was.u, &is.u, &other.after.u) && same(&was.v, &is.v, &other.after.v)
    }

    pub fn luma_stays(&self) -> bool {
        self.after.luma == self.before.luma
    }

    pub fn chroma_stays(&self) -> bool {
        self.after.u == self.before.u && self.after.v == self.before.v
    }

    /// The original on the changed input.
    fn good(&self, change: fn(&mut Request)) -> Seen {
        let mut q = self.before.clone();
        change(&mut q);
        assert_eq!(table::answer(&q), 0, "a row compares with an input that is not taken");
        original(&q)
    }
}

/// Equal as far as both go; what is longer than the other stays as it was.
fn same(was: &[u8], is: &[u8], other: &[u8]) -> bool {
    let both = is.len().min(other.len());
    is[..both] == other[..both] && is[both..] == was[both..]
}

/// A whole picture: stripes of four columns, 60 in one, and in the next one 60 in the top row of a macroblock
/// and 12 more in each row below, so that the indices that a row tells apart filter it otherwise. Strength 3
/// on vertical edge 2 of each macroblock, which luma and chroma read; QP 30, offsets 0, no 8x8 flags.
pub fn picture(w: usize, h: usize) -> Request {
    let plane = |side: usize| -> Vec<u8> {
        let sample = |(x, y): (usize, usize)| if x / 4 % 2 == 0 { 60 } else { 60 + 12 * (y % side) as u8 };
        (0..side * side * w * h).map(|i| sample((i % (side * w), i / (side * w)))).collect()
    };
    let mut q = Request::new(Call::Whole, w, h);
    (q.luma, q.u, q.v) = (plane(16).into(), plane(8).into(), plane(8).into());
    q.strengths = edge(2, 3).repeat(w * h).into();
    q.qps = vec![30; w * h].into();
    q
}

/// All 32 strengths 0 but those of edge `e`, which are `s`: 0 to 3 vertical ones, 4 to 7 horizontal ones.
pub fn edge(e: usize, s: u8) -> [u8; 32] {
    std::array::from_fn(|i| if i / 4 == e { s } else { 0 })
}

/// `outer` on the two outer edges, `inner` on the six inner ones.
pub fn strengths(outer: u8, inner: u8) -> [u8; 32] {
    std::array::from_fn(|i| if i / 4 % 4 == 0 { outer } else { inner })
}

/// The strengths of the last macroblock of `w` by `h` inter ones: counts 0, references 0, vectors 0, no list
/// 1.
pub fn inter(call: Call, w: usize, h: usize) -> Request {
    let n = 16 * w * h;
    let mut q = Request::new(call, w, h);
    (q.x, q.y, q.kind) = (w - 1, h - 1, 3);
    (q.inter, q.nnz) = (vec![1; n].into(), vec![0; n].into());
    (q.ref0, q.mv0) = (vec![0; n].into(), vec![0; 2 * n].into());
    q.strengths = vec![9; 2 * n].into();
    q
}

/// The same with intra ones, by kind Intra.
pub fn intra(call: Call, w: usize, h: usize) -> Request {
    let mut q = inter(call, w, h);
    q.inter.fill(0);
    q.kind = 0;
    q
}

#[cfg(test)]
mod tests {
    use super::*;

    /// A wrong number, an input that is not one step from a good one, an untrue claim, and one between two
    /// calls that filter nothing.
    #[test]
    fn untrue_rows_fail() {
        let archive = Archive::new();
        let row = |no, base, rust| {
            let row = Row { no, input: "QP 52", base, spoils: &[|q| q.qps[0] = 52], rust };
            row.check(&archive).is_ok()
        };
        let lone = || picture(1, 1);
        let weak = || Request { strengths: vec![0; 32].into(), ..picture(1, 1) };
        assert!(row(8, lone, Rust::Does(&[("as with 51", |seen| seen.as_with(|q| q.qps[0] = 51))])));
        assert!(!row(9, lone, Rust::CannotBeLent("the number is 8")));
        assert!(!row(8, || Request { offsets: [13; 4], ..picture(1, 1) }, Rust::CannotBeLent("13 is refused")));
        assert!(!row(8, lone, Rust::Does(&[("panics", Seen::panics)])));
        assert!(!row(8, lone, Rust::Does(&[("does nothing", Seen::nothing)])));
        assert!(!row(8, lone, Rust::Does(&[("as with 50", |seen| seen.as_with(|q| q.qps[0] = 50))])));
        assert!(!row(8, weak, Rust::Does(&[("as with 50", |seen| seen.as_with(|q| q.qps[0] = 50))])));
    }

    /// Else an equation between two results would say nothing of a plane.
    #[test]
    fn the_picture_is_filtered_in_every_plane() {
        let seen = original(&picture(1, 1));
        let (was, is) = (&seen.before, &seen.after);
        assert!(seen.ended && was.luma != is.luma && was.u != is.u && was.v != is.v);
    }

    /// Here in a debug build, since tests are one: the original's assertions are in force, and its sums do
    /// not wrap.
    #[test]
    fn every_row_is_true() {
        let archive = Archive::new();
        let stated = STATED.iter().map(|row| (row.line(), row.check(&archive)));
        let lines = refused().map(|row| (row.line(), row.check(&archive)));
        for (line, checked) in stated.chain(lines) {
            assert_eq!(checked, Ok(()), "{line}");
        }
        assert!(table::numbers().filter(|no| *no > 0).all(|no| refused().any(|row| row.no == no)));
        assert!(refused().map(|row| row.no).is_sorted());
    }
}
