//! The original's answers as recordings (crates/recordings/FORMAT.md), end to end: pictures of every content
//! and grids of every kind, small ones, always the same.

use crate::expect::expect;
use crate::make;
use crate::original;
use crate::request::{Call, Request, Structure};
use crate::table;
use inputs::Rng;
use std::io::Write;

const PICTURES: u64 = 120;
/// Macroblocks of a picture at most.
const AREA: usize = 4;

/// Writes them all; whether the writing succeeded.
pub fn run(out: &mut impl Write) -> bool {
    (1..=PICTURES).all(|seed| out.write_all(&recording(seed)).is_ok())
}

fn recording(seed: u64) -> Vec<u8> {
    let mut r = Rng::new(seed);
    let (w, h) = make::size(&mut r, AREA);
    let before = make::picture_of_one_offset(&mut r, Structure::Frame, Call::Whole, w, h);
    // every third has strengths that no grids give, 4 on inner edges among them
    if seed.is_multiple_of(3) {
        return write(&before, None);
    }
    let mut grids = make::blocks(&mut r, Structure::Frame, Call::Flagless, w, h);
    grids.t8s = before.t8s.clone();
    make::spread_counts(&mut grids);
    for m in 0..w * h {
        (grids.x, grids.y) = (m % w, m / w);
        assert_eq!(table::answer(&grids), 0, "made grids are good");
        assert!(original::work(&mut grids), "the original can be asked where counts are spread");
    }
    let mut before = before;
    before.strengths = grids.strengths.clone();
    write(&before, Some(&grids))
}

fn write(before: &Request, grids: Option<&Request>) -> Vec<u8> {
    let mut after = before.clone();
    assert_eq!(expect(&mut after), 0, "a made picture is good");
    let [a, b, chroma_u, chroma_v] = before.offsets.map(|o| o as i8 as u8);
    let lists = grids.is_some_and(|g| !g.ref1.is_empty());
    let flags = u8::from(lists) + 2 * u8::from(!before.t8s.is_empty()) + 16 * u8::from(grids.is_none());
    let mut out = b"DBV1".to_vec();
    out.extend([before.w as u8, 0, before.h as u8, 0, 8, 1, flags, chroma_u, chroma_v, 0]);
    for picture in [before, &after] {
        out.extend([&picture.luma[..], &picture.u, &picture.v].concat());
    }
    out.extend([a, b]);
    out.extend([&before.qps[..], &before.t8s].concat());
    if let Some(g) = grids {
        out.extend([&g.inter[..], &g.nnz].concat());
        for (refs, mvs) in [(&g.ref0, &g.mv0), (&g.ref1, &g.mv1)] {
            out.extend(refs.iter().map(|&r| r as u8));
            out.extend(mvs.iter().flat_map(|v| v.to_le_bytes()));
        }
    }
    out.extend(&before.strengths[..]);
    out
}
