//! One round: about a second of random work, all of it fixed by one seed.

use crate::make;
use crate::make_slices;
use crate::refusals;
use crate::request::{Call, Structure, FILTER_CALLS, STRENGTH_CALLS};
use crate::session::{Outcome, Session};
use crate::unread;
use crate::visits;
use inputs::Rng;

/// The sizes at the limits, and the station's own.
const LIMITS: [(usize, usize); 8] =
    [(256, 144), (1, 256), (256, 1), (144, 256), (192, 192), (45, 36), (2, 256), (256, 2)];

/// How much of a round to do: for wrong filters less will do, and the largest sizes are not needed.
#[derive(Clone, Copy, PartialEq, Eq)]
pub enum Depth {
    Full,
    Brief,
}

/// Frames, then a quarter as much of fields, of which every sixteenth round has large ones.
pub fn round(s: &mut Session, seed: u64, depth: Depth) -> Outcome {
    let times = |n: usize| if depth == Depth::Full { n } else { n / 8 };
    s.about(Structure::Frame);
    let mut r = Rng::new(seed);
    ordinary(s, &mut r, Structure::Frame, times)?;
    for _ in 0..times(24) {
        unread::check(s, &mut r, Structure::Frame)?;
    }
    if depth == Depth::Full {
        large(s, &mut r, Structure::Frame, seed)?;
    }
    s.about(Structure::Field);
    let mut r = Rng::new(!seed);
    ordinary(s, &mut r, Structure::Field, |n| times(n) / 4)?;
    for _ in 0..times(24) {
        unread::check(s, &mut r, Structure::Field)?;
    }
    if depth == Depth::Full && seed.is_multiple_of(16) {
        large(s, &mut r, Structure::Field, seed / 16)?;
    }
    slices(s, seed, depth, times)
}

/// The calls with slices: frames, then half as much of fields. Every eighth round has large frames, every
/// sixteenth large fields.
fn slices(s: &mut Session, seed: u64, depth: Depth, times: impl Fn(usize) -> usize) -> Outcome {
    let mut r = Rng::new(seed ^ u64::from_be_bytes(*b"  slices"));
    for (of, share) in [(Structure::Frame, 1), (Structure::Field, 2)] {
        s.about(of);
        ordinary_slices(s, &mut r, of, |n| times(n) / share)?;
        if depth == Depth::Full && seed.is_multiple_of(8 * share as u64) {
            large_slices(s, &mut r, of, seed / (8 * share as u64))?;
        }
    }
    Ok(())
}

fn ordinary_slices(s: &mut Session, r: &mut Rng, of: Structure, times: impl Fn(usize) -> usize) -> Outcome {
    for call in FILTER_CALLS {
        for _ in 0..times(200) {
            let (w, h) = make::size(r, 16);
            s.check("random", &make_slices::picture(r, of, call, w, h))?;
        }
    }
    for _ in 0..times(16) {
        let (w, h) = make::size(r, 20);
        visits::sequence_with_slices(s, r, of, w, h)?;
    }
    refusals::every_pair_with_slices(s, r, of, 9)?;
    for _ in 0..times(1600) {
        refusals::spoiled_with_slices(s, r, of)?;
    }
    for _ in 0..times(24) {
        unread::check_with_slices(s, r, of)?;
    }
    Ok(())
}

/// Visits of a picture of a size in between, and each call at a limit: another limit with each number.
fn large_slices(s: &mut Session, r: &mut Rng, of: Structure, number: u64) -> Outcome {
    let (w, h) = make::size(r, 600);
    visits::sequence_with_slices(s, r, of, w, h)?;
    let (w, h) = LIMITS[number as usize % LIMITS.len()];
    for call in FILTER_CALLS {
        s.check("limits", &make_slices::picture(r, of, call, w, h))?;
    }
    Ok(())
}

/// Small pictures, `times` as many as one would make of frames.
fn ordinary(s: &mut Session, r: &mut Rng, of: Structure, times: impl Fn(usize) -> usize) -> Outcome {
    for call in STRENGTH_CALLS {
        for _ in 0..times(250) {
            let (w, h) = make::size(r, 12);
            let mut q = make::grids(r, of, call, w, h);
            for _ in 0..8 {
                s.check("random", &q)?;
                make::place(r, &mut q);
            }
        }
    }
    for call in FILTER_CALLS {
        for _ in 0..times(300) {
            let (w, h) = make::size(r, 24);
            s.check("random", &make::picture(r, of, call, w, h))?;
        }
    }
    for _ in 0..times(40) {
        let (w, h) = make::size(r, 30);
        visits::sequence(s, r, of, w, h)?;
    }
    refusals::every_pair(s, r, of, 12)?;
    for _ in 0..times(8000) {
        refusals::spoiled(s, r, of)?;
    }
    Ok(())
}

/// Two pictures of sizes in between, and one at a limit: another limit with each number.
fn large(s: &mut Session, r: &mut Rng, of: Structure, number: u64) -> Outcome {
    let (w, h) = make::size(r, 1200);
    visits::sequence(s, r, of, w, h)?;
    let (w, h) = make::size(r, 8000);
    s.check("random", &make::picture(r, of, Call::Rows, w, h))?;
    let (w, h) = LIMITS[number as usize % LIMITS.len()];
    for call in FILTER_CALLS {
        s.check("limits", &make::picture(r, of, call, w, h))?;
    }
    for call in STRENGTH_CALLS {
        s.check("limits", &make::grids(r, of, call, w, h))?;
    }
    if w * h <= 2000 || number.is_multiple_of(16) {
        visits::sequence(s, r, of, w, h)?;
    }
    Ok(())
}
