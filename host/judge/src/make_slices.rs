//! Random slices to which no refusal applies.

use crate::make;
use crate::request::{Call, Request, Structure};
use deblock::SliceRecord;
use inputs::Rng;

/// Comes up seldom: more records than any picture has macroblocks, and some that no number reaches.
const LONG: [usize; 2] = [40_000, 70_000];

/// A filtering call with slices on a picture of any content.
pub fn picture(r: &mut Rng, of: Structure, call: Call, w: usize, h: usize) -> Request {
    let mut q = make::picture(r, of, call, w, h);
    lend(r, &mut q);
    q
}

/// Makes the call one with slices. The picture's own A and B, which are not lent, become such as would tell.
pub fn lend(r: &mut Rng, q: &mut Request) {
    q.sliced = true;
    q.offsets[..2].fill(r.pick(&[0, 12, -99]));
    let numbers = numbers(r, q.w, q.h);
    let count = 1 + numbers.iter().copied().max().expect("there is a macroblock");
    let length = match r.below(12) {
        _ if r.once_in(600) => r.pick(&LONG),
        0..=5 => count,
        6..=9 => count + 1 + r.below(3),
        _ => count.max(300),
    };
    let places = places(r, count, length);
    q.slices = table(r, length).into();
    q.numbers = numbers.into_iter().map(|slice| places[slice]).collect::<Vec<u16>>().into();
}

/// Of each macroblock which slice it is in: slices one after the other, as streams have them, by rows, in
/// columns, as a checkerboard, at random, one for each macroblock, or one in all.
fn numbers(r: &mut Rng, w: usize, h: usize) -> Vec<usize> {
    let n = w * h;
    let kind = r.below(8);
    let (few, seldom) = (1 + r.below(5), 2 + r.below(2 * w));
    let mut slice = 0;
    let mut in_order = |m: usize, ends: bool| {
        slice += usize::from(m > 0 && ends);
        slice
    };
    (0..n)
        .map(|m| match kind {
            0 => 0,
            1 | 2 => in_order(m, r.once_in(seldom)),
            3 => m / w,
            4 => m % w % 2,
            5 => (m % w + m / w) % 2,
            6 => r.below(few),
            _ => m,
        })
        .collect()
}

/// For each of `count` slices another place in a table of that length, as far as numbers reach.
fn places(r: &mut Rng, count: usize, length: usize) -> Vec<u16> {
    let within = length.min(1 << 16);
    let mut all: Vec<u16> = (0..within).map(|place| place as u16).collect();
    match r.below(3) {
        0 => {}
        1 => all.rotate_left(within - count),
        _ => r.shuffle(&mut all),
    }
    all.truncate(count);
    all
}

/// Records of all modes or of one, all equal or each with offsets of its own.
fn table(r: &mut Rng, length: usize) -> Vec<SliceRecord> {
    let modes = r.pick(&[&[0][..], &[1], &[2], &[0, 2], &[0, 1, 2], &[0, 1, 2], &[0, 0, 0, 1], &[2, 2, 1]]);
    let offsets = r.below(4);
    let one = record(r, modes, 2);
    let mut own = || match offsets {
        0 => one,
        1 => SliceRecord { mode: r.pick(modes), ..one },
        offsets => record(r, modes, offsets),
    };
    (0..length).map(|_| own()).collect()
}

/// Offsets at a limit or 0, or any.
fn record(r: &mut Rng, modes: &[u8], offsets: usize) -> SliceRecord {
    let mut offset = || if offsets == 2 { r.pick(&[-12, 0, 12]) } else { r.within(-12, 12) as i8 };
    let (a, b) = (offset(), offset());
    SliceRecord { mode: r.pick(modes), a, b }
}

#[cfg(test)]
mod tests {
    use super::*;
    use crate::original::is_asked_by_chunks;
    use crate::request::FILTER_CALLS;
    use crate::table::answer;
    use std::collections::BTreeSet;

    /// How many of 2000 made requests are so.
    fn count(is_so: impl Fn(&Request) -> bool) -> usize {
        let mut r = Rng::new(1);
        (0..2000).filter(|_| is_so(&picture(&mut r, Structure::Frame, Call::Whole, 3, 3))).count()
    }

    /// Whether two macroblocks side by side, or one above the other, are so.
    fn meets(q: &Request, is_so: fn(&Request, usize, usize) -> bool) -> bool {
        (0..9).any(|m| m % 3 > 0 && is_so(q, m - 1, m) || m >= 3 && is_so(q, m - 3, m))
    }

    fn is_border_of_mode_2(q: &Request, p: usize, own: usize) -> bool {
        q.numbers[p] != q.numbers[own] && q.record(own).mode == 2
    }

    #[test]
    fn all_are_good() {
        let mut r = Rng::new(2);
        for call in FILTER_CALLS {
            let answers = (0..500).map(|_| answer(&picture(&mut r, Structure::Frame, call, 3, 3)));
            assert!(answers.collect::<BTreeSet<u32>>().is_subset(&[0, 13, 14].into()));
        }
    }

    /// Each comes up in at least one request of twenty.
    #[test]
    fn slices_of_every_sort_come_up() {
        let sorts: [fn(&Request) -> bool; 9] = [
            |q| !is_asked_by_chunks(q),
            |q| q.slices.len() > q.numbers.iter().collect::<BTreeSet<_>>().len(),
            |q| q.slices.len() == 300 && q.numbers.iter().any(|&number| number > 255),
            |q| meets(q, is_border_of_mode_2),
            |q| meets(q, |q, p, own| is_border_of_mode_2(q, p, own) && q.record(p) == q.record(own)),
            |q| meets(q, |q, p, own| q.numbers[p] == q.numbers[own] && q.record(own).mode == 2),
            |q| meets(q, |q, p, own| q.record(p).mode == 1 && q.record(own).mode == 0),
            |q| meets(q, |q, p, own| q.record(p).a != q.record(own).a && q.record(own).mode == 0),
            |q| q.numbers.iter().collect::<BTreeSet<_>>().len() == 9,
        ];
        for (i, sort) in sorts.into_iter().enumerate() {
            assert!(count(sort) >= 100, "sort {i}: {}", count(sort));
        }
        assert!(count(|q| LONG.contains(&q.slices.len())) > 0);
    }
}
