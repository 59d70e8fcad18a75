//! From a case that fails to one that a person can read: smaller sizes, then plainer contents, as long as it
//! fails.

use crate::request::{Buffer, Call, Lent, Request};
use deblock::SliceRecord;
use std::fmt::{Debug, Write};
use std::time::{Duration, Instant};

/// How long to look for a smaller case.
const PATIENCE: Duration = Duration::from_secs(10);

/// The smallest case found that still fails.
pub fn smallest(r: &Request, fails: impl Fn(&Request) -> bool) -> Request {
    let end = Instant::now() + PATIENCE;
    let mut best = r.clone();
    while let Some(smaller) = crops(&best).into_iter().find(|c| Instant::now() < end && fails(c)) {
        best = smaller;
    }
    plain_numbers(&mut best, &fails);
    let mut keep = |r: &Request| Instant::now() < end && fails(r);
    plain(&mut best, |r| &mut r.kinds, 3, &mut keep);
    plain(&mut best, |r| &mut r.t8s, 0, &mut keep);
    plain(&mut best, |r| &mut r.nnz, 0, &mut keep);
    plain(&mut best, |r| &mut r.pictures1, 0, &mut keep);
    plain(&mut best, |r| &mut r.pictures0, 0, &mut keep);
    plain(&mut best, |r| &mut r.mv1, 0, &mut keep);
    plain(&mut best, |r| &mut r.mv0, 0, &mut keep);
    plain(&mut best, |r| &mut r.ref1, -1, &mut keep);
    plain(&mut best, |r| &mut r.ref0, 0, &mut keep);
    plain(&mut best, |r| &mut r.inter, 1, &mut keep);
    plain(&mut best, |r| &mut r.slices, SliceRecord::default(), &mut keep);
    plain(&mut best, |r| &mut r.numbers, 0, &mut keep);
    plain(&mut best, |r| &mut r.strengths, 0, &mut keep);
    plain(&mut best, |r| &mut r.marks, 0, &mut keep);
    plain(&mut best, |r| &mut r.qps, 30, &mut keep);
    plain(&mut best, |r| &mut r.u, 100, &mut keep);
    plain(&mut best, |r| &mut r.v, 100, &mut keep);
    plain(&mut best, |r| &mut r.luma, 100, &mut keep);
    best
}

/// The case with fewer macroblocks, where its lengths are those of its size.
fn crops(r: &Request) -> Vec<Request> {
    areas(r.w, r.h).into_iter().filter_map(|area| crop(r, area)).collect()
}

/// Areas with a half or one column or row of macroblocks less: the columns from the first number on and
/// before the second, likewise the rows.
pub fn areas(w: usize, h: usize) -> Vec<[usize; 4]> {
    if !(1..=256).contains(&w) || !(1..=256).contains(&h) {
        return Vec::new();
    }
    let areas = [
        [0, w / 2, 0, h],
        [w / 2, w, 0, h],
        [0, w, 0, h / 2],
        [0, w, h / 2, h],
        [1, w, 0, h],
        [0, w - 1, 0, h],
        [0, w, 1, h],
        [0, w, 0, h - 1],
    ];
    areas.into_iter().filter(|[x0, x1, y0, y1]| x0 < x1 && y0 < y1 && (x1 - x0, y1 - y0) != (w, h)).collect()
}

fn crop(r: &Request, area: [usize; 4]) -> Option<Request> {
    let [x0, x1, y0, y1] = area;
    let (w, h) = (x1 - x0, y1 - y0);
    let mut c = r.clone();
    (c.w, c.h) = (w, h);
    let has_row = !matches!(r.call, Call::Whole | Call::Rows);
    let has_column = has_row && r.call != Call::StrengthsRow;
    let shifted = |has_place: bool, at: usize, from: usize| if has_place { at.checked_sub(from) } else { Some(0) };
    (c.x, c.y) = (shifted(has_column, r.x, x0)?, shifted(has_row, r.y, y0)?);
    c.first = r.first.saturating_sub(y0).min(h);
    c.last = r.last.saturating_sub(y0).min(h);
    let old = r.w;
    cut(&mut c.kinds, old, r.h, (1, 1), area)?;
    cut(&mut c.inter, old, r.h, (4, 4), area)?;
    cut(&mut c.nnz, old, r.h, (4, 4), area)?;
    cut(&mut c.ref0, old, r.h, (4, 4), area)?;
    cut(&mut c.mv0, old, r.h, (8, 4), area)?;
    cut(&mut c.ref1, old, r.h, (4, 4), area)?;
    cut(&mut c.mv1, old, r.h, (8, 4), area)?;
    cut(&mut c.numbers, old, r.h, (1, 1), area)?;
    cut(&mut c.strengths, old, r.h, (32, 1), area)?;
    let share = r.structure().share();
    cut(&mut c.luma, old, r.h, (16, 16 * share), area)?;
    cut(&mut c.u, old, r.h, (8, 8 * share), area)?;
    cut(&mut c.v, old, r.h, (8, 8 * share), area)?;
    cut(&mut c.qps, old, r.h, (1, 1), area)?;
    cut(&mut c.t8s, old, r.h, (1, 1), area)?;
    cut(&mut c.marks, old, r.h, (1, 1), area)?;
    Some(c)
}

/// Keeps the area of a grid with `cell.0` by `cell.1` entries a macroblock.
pub fn cut<T: Lent>(b: &mut Buffer<T>, w: usize, h: usize, cell: (usize, usize), area: [usize; 4]) -> Option<()> {
    let [x0, x1, y0, y1] = area;
    let row = w * cell.0;
    if b.is_empty() {
        return Some(());
    }
    if b.len() != row * h * cell.1 {
        return None;
    }
    let kept: Vec<T> =
        (y0 * cell.1..y1 * cell.1).flat_map(|y| b[y * row + x0 * cell.0..y * row + x1 * cell.0].to_vec()).collect();
    *b = kept.into();
    Some(())
}

fn plain_numbers(best: &mut Request, fails: &impl Fn(&Request) -> bool) {
    for i in 0..best.offsets.len() {
        attempt(best, fails, |r| r.offsets[i] = 0);
    }
    attempt(best, fails, |r| r.flat = 0);
    attempt(best, fails, |r| r.uniform = 0);
    attempt(best, fails, |r| {
        r.ref1 = Buffer::default();
        r.mv1 = Buffer::default();
    });
    attempt(best, fails, |r| r.t8s = Buffer::default());
    attempt(best, fails, |r| r.kinds = Buffer::default());
    attempt(best, fails, |r| r.tables().into_iter().for_each(|table| *table = Buffer::default()));
    for list in 0..2 {
        shorter(best, fails, |r| r.lists()[list].pictures.len(), |r, to| r.tables()[list].resize(to, 0));
    }
    shorter(best, fails, |r| r.slices.len(), |r, to| r.slices.resize(to, SliceRecord::default()));
}

/// Cuts a table to half of its length and by one entry, again and again as long as that fails.
fn shorter(
    best: &mut Request,
    fails: &impl Fn(&Request) -> bool,
    length: impl Fn(&Request) -> usize,
    resize: impl Fn(&mut Request, usize),
) {
    loop {
        let length = length(best);
        let mut cut = |to: usize| to < length && attempt(best, fails, |r| resize(r, to));
        if !cut(length / 2) && !cut(length.saturating_sub(1)) {
            return;
        }
    }
}

/// Whether the case still fails so, and is changed.
fn attempt(best: &mut Request, fails: &impl Fn(&Request) -> bool, change: impl Fn(&mut Request)) -> bool {
    let mut tried = best.clone();
    change(&mut tried);
    let still = fails(&tried);
    if still {
        *best = tried;
    }
    still
}

/// Makes runs of entries equal to `value`: all, then halves, quarters, down to single ones.
fn plain<T: Lent>(
    best: &mut Request,
    member: impl Fn(&mut Request) -> &mut Buffer<T>,
    value: T,
    keep: &mut impl FnMut(&Request) -> bool,
) {
    let len = member(best).len();
    let mut run = len;
    while run > 0 {
        for from in (0..len).step_by(run) {
            let mut tried = best.clone();
            let to = len.min(from + run);
            let some = &mut member(&mut tried)[from..to];
            if some.iter().any(|v| *v != value) {
                some.fill(value);
                if keep(&tried) {
                    *best = tried;
                }
            }
        }
        run /= 2;
    }
}

/// The case in words: the numbers, and every entry that is not the plain one.
pub fn describe(r: &Request) -> String {
    let mut s = format!("{} w {} h {} part {}", r.name(), r.w, r.h, r.part);
    let mut say = |args: std::fmt::Arguments| s.write_fmt(args).expect("a string takes everything");
    say(format_args!(" x {} y {} first {} last {}", r.x, r.y, r.first, r.last));
    say(format_args!(" kind {} flat {} uniform {} offsets {:?}", r.kind, r.flat, r.uniform, r.offsets));
    let entries = [
        entries("kinds (else 3)", &r.kinds, 3),
        entries("inter (else 1)", &r.inter, 1),
        entries("nnz", &r.nnz, 0),
        entries("ref0", &r.ref0, 0),
        entries("mv0", &r.mv0, 0),
        entries("ref1 (else -1)", &r.ref1, -1),
        entries("mv1", &r.mv1, 0),
        entries("pictures0", &r.pictures0, 0),
        entries("pictures1", &r.pictures1, 0),
        entries("slices (else mode 0, offsets 0)", &r.slices, SliceRecord::default()),
        entries("numbers", &r.numbers, 0),
        entries("strengths", &r.strengths, 0),
        entries("y (else 100)", &r.luma, 100),
        entries("u (else 100)", &r.u, 100),
        entries("v (else 100)", &r.v, 100),
        entries("qps (else 30)", &r.qps, 30),
        entries("t8s", &r.t8s, 0),
        entries("marks", &r.marks, 0),
    ];
    s + &entries.concat()
}

fn entries<T: Lent + Debug>(name: &str, b: &Buffer<T>, plain: T) -> String {
    let odd: Vec<String> =
        b.iter().enumerate().filter(|e| *e.1 != plain).map(|(i, v)| format!("[{i}] {v:?}")).collect();
    match odd.len() {
        _ if b.is_empty() => String::new(),
        0..=64 => format!("\n  {name}: length {}, {}", b.len(), odd.join(" ")),
        n => format!("\n  {name}: length {}, {} .. {} more", b.len(), odd[..64].join(" "), n - 64),
    }
}

#[cfg(test)]
mod tests {
    use super::*;
    use crate::request::Structure;

    /// A case that fails as long as one strength of the last macroblock is 3 comes down to just that.
    #[test]
    fn shrinks_to_what_matters() {
        let mut q = crate::make::picture(&mut inputs::Rng::new(8), Structure::Frame, Call::Whole, 5, 4);
        q.strengths[32 * 19 + 7] = 3;
        q.offsets = [1, 2, 3, 4];
        let fails = |r: &Request| r.strengths.len() == 32 * r.w * r.h && r.strengths[32 * (r.w * r.h - 1) + 7] == 3;
        let small = smallest(&q, fails);
        assert_eq!((small.w, small.h, small.offsets), (1, 1, [0; 4]));
        assert_eq!(small.strengths.iter().map(|&s| s as u32).sum::<u32>(), 3);
        assert!(small.luma.iter().all(|&s| s == 100));
        assert!(describe(&small).contains("strengths: length 32, [7] 3"));
    }

    /// A table is cut to what is needed of it, the other one to nothing.
    #[test]
    fn tables_become_short() {
        let mut q = crate::make::blocks(&mut inputs::Rng::new(8), Structure::Frame, Call::Flagless, 2, 2);
        q.tables().into_iter().for_each(|table| *table = vec![9; 30].into());
        q.pictures1[6] = 300;
        let small = smallest(&q, |r| r.pictures1.contains(&300));
        assert_eq!((small.w, small.h, small.pictures0.len()), (1, 1, 0));
        assert_eq!(small.pictures1[..], [0, 0, 0, 0, 0, 0, 300]);
    }

    /// A row comes down to the macroblock that matters, wherever in it that is.
    #[test]
    fn a_row_becomes_one_macroblock() {
        let mut q = crate::make::blocks(&mut inputs::Rng::new(8), Structure::Frame, Call::StrengthsRow, 5, 3);
        (q.y, q.kinds) = (1, vec![0; 15].into());
        q.kinds[8] = 9;
        let small = smallest(&q, |r| r.kinds.iter().skip(r.w * r.y).take(r.w).any(|kind| *kind == 9));
        assert_eq!((small.w, small.h, small.y, &small.kinds[..]), (1, 1, 0, &[9][..]));
    }

    #[test]
    fn wrong_lengths_are_not_cropped() {
        let mut q = crate::make::picture(&mut inputs::Rng::new(8), Structure::Frame, Call::Whole, 5, 4);
        q.u.resize(7, 0);
        assert_eq!(smallest(&q, |r| r.u.len() == 7).w, 5);
    }
}
