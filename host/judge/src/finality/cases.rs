//! Everything, where everything is few, and the limits.

use super::ask::{Ask, Call, CALLS};
use super::session::Session;
use crate::session::Outcome;
use crate::small::product;
use inputs::Rng;

pub fn run(s: &mut Session) -> Outcome {
    for (w, h, ..) in product([3, 3, 1, 1]) {
        every_marking(s, w + 1, h + 1)?;
    }
    every_value(s)?;
    every_size(s)?;
    every_side(s)?;
    limits(s)
}

/// Both calls about a macroblock.
fn both(s: &mut Session, run: &'static str, a: &mut Ask) -> Outcome {
    for call in CALLS {
        a.call = call;
        s.check(run, a)?;
    }
    Ok(())
}

/// Both calls about every macroblock, and those just outside.
fn everywhere(s: &mut Session, run: &'static str, a: &mut Ask) -> Outcome {
    for (x, y, ..) in product([a.w + 1, a.h + 1, 1, 1]) {
        (a.x, a.y) = (x, y);
        both(s, run, a)?;
    }
    Ok(())
}

fn lent(w: usize, h: usize, marks: Vec<u8>) -> Ask {
    Ask { call: Call::IsFinal, w, h, x: 0, y: 0, marks: marks.into() }
}

/// Every way to write 0, 1 and 2 as marks.
fn every_marking(s: &mut Session, w: usize, h: usize) -> Outcome {
    let n = w * h;
    for code in 0..3usize.pow(n as u32) {
        let marks = (0..n).map(|m| (code / 3usize.pow(m as u32) % 3) as u8).collect();
        everywhere(s, "small", &mut lent(w, h, marks))?;
    }
    Ok(())
}

/// Every byte as each of nine marks, the others set.
fn every_value(s: &mut Session) -> Outcome {
    for (value, m, ..) in product([256, 9, 1, 1]) {
        let mut a = lent(3, 3, vec![1; 9]);
        a.marks[m] = value as u8;
        everywhere(s, "small", &mut a)?;
    }
    Ok(())
}

/// Every size up to just above the largest, with no marks and with one; then sizes whose product wraps, to 0
/// and to 1 among others.
fn every_size(s: &mut Session) -> Outcome {
    let powers = (0..64).flat_map(|n| [1 << n, (1usize << n) - 1, (1 << n) + 1]);
    let sides: Vec<usize> = powers.chain([usize::MAX]).collect();
    let wrapping = product([sides.len(), sides.len(), 1, 1]).map(|(w, h, ..)| (sides[w], sides[h]));
    let small = product([259, 259, 1, 1]).map(|(w, h, ..)| (w, h));
    for (w, h) in small.chain(wrapping) {
        both(s, "sizes", &mut lent(w, h, Vec::new()))?;
        both(s, "sizes", &mut lent(w, h, vec![1]))?;
    }
    Ok(())
}

/// Every width and every height, and one too many, with the other side 1 or 2.
fn every_side(s: &mut Session) -> Outcome {
    let mut r = Rng::new(7);
    for side in 1..=257 {
        for (w, h) in [(side, 1), (1, side), (side, 2), (2, side)] {
            let mut a = lent(w, h, some(&mut r, w * h));
            for at in [(0, 0), (w - 1, h - 1), (r.below(w), r.below(h))] {
                (a.x, a.y) = at;
                both(s, "sides", &mut a)?;
            }
        }
    }
    Ok(())
}

/// Marks most of which are set.
pub fn some(r: &mut Rng, n: usize) -> Vec<u8> {
    (0..n).map(|_| u8::from(!r.once_in(8))).collect()
}

/// The largest sizes, those just above them, and the station's own.
const LIMITS: [(usize, usize); 14] = [
    (256, 144),
    (144, 256),
    (192, 192),
    (256, 1),
    (1, 256),
    (45, 36),
    (256, 145),
    (145, 256),
    (193, 192),
    (192, 193),
    (256, 256),
    (257, 1),
    (1, 257),
    (257, 143),
];

/// Around every corner, just outside, far outside and anywhere; with marks of the right length, one short,
/// one long, and none.
fn limits(s: &mut Session) -> Outcome {
    let mut r = Rng::new(8);
    for (w, h) in LIMITS {
        for len in [w * h, w * h - 1, w * h + 1, 0] {
            let mut a = lent(w, h, some(&mut r, len));
            let (columns, rows) = (around(&mut r, w), around(&mut r, h));
            for (x, y, ..) in product([columns.len(), rows.len(), 1, 1]) {
                (a.x, a.y) = (columns[x], rows[y]);
                both(s, "limits", &mut a)?;
            }
        }
    }
    Ok(())
}

fn around(r: &mut Rng, side: usize) -> [usize; 9] {
    [0, 1, side.saturating_sub(2), side - 1, side, side + 1, r.below(side), 1 << 63, usize::MAX]
}
