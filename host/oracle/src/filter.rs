//! Filtering from stored strengths: `filter_frame` and `filter_frame_rows`.

use crate::deblock::{self, BlockInfo, MbBs};
use core::ops::Range;

/// The three planes of a picture, lent for filtering.
pub struct Planes<'a> {
    pub luma: &'a mut [u8],
    pub u: &'a mut [u8],
    pub v: &'a mut [u8],
}

#[derive(Clone, Copy, PartialEq)]
pub struct Offsets {
    pub a: i32,
    pub b: i32,
    pub chroma: i32,
}

/// What a picture's filtering reads, in the original's types: converted once, so that a clock need not count
/// it.
pub struct Stored {
    pub width: usize,
    pub height: usize,
    strengths: Vec<MbBs>,
    qps: Vec<u8>,
    t8s: Vec<bool>,
}

impl Stored {
    /// Takes any lengths, as the original does, but for a part of a macroblock's 32 strengths: no type of the
    /// original holds that, and dropping it here would hide it.
    pub fn new(width: usize, height: usize, strengths: &[u8], qps: &[u8], t8s: &[u8]) -> Self {
        assert_eq!(strengths.len() % 32, 0, "the original is lent whole macroblocks of strengths");
        Stored {
            width,
            height,
            strengths: strengths.chunks_exact(32).map(stored).collect(),
            qps: qps.to_vec(),
            t8s: t8s.iter().map(|&flag| flag != 0).collect(),
        }
    }

    /// The same picture with no strength set: nothing is filtered until `set` says so.
    pub fn blank(width: usize, height: usize, qps: &[u8], t8s: &[u8]) -> Self {
        Self::new(width, height, &vec![0; 32 * width * height], qps, t8s)
    }

    /// Replaces the strengths of macroblock `m` (in raster order).
    pub fn set(&mut self, m: usize, strengths: &[u8]) {
        self.strengths[m] = stored(strengths);
    }

    pub fn filter_frame(&self, p: Planes, o: Offsets) {
        let (w, h) = (self.width, self.height);
        deblock::filter_frame(p.luma, p.u, p.v, w, h, &self.qps, o.chroma, o.a, o.b, &self.info());
    }

    pub fn filter_rows(&self, p: Planes, rows: Range<usize>, o: Offsets) {
        let (w, h) = (self.width, self.height);
        deblock::filter_frame_rows(p.luma, p.u, p.v, w, h, rows, &self.qps, o.chroma, o.a, o.b, &self.info());
    }

    /// The original's second way over rows, for strengths whose maker has left 0 where the 8x8 flag skips.
    pub fn filter_rows_pre(&self, p: Planes, rows: Range<usize>, o: Offsets) {
        let (w, h) = (self.width, self.height);
        deblock::filter_frame_rows_pre(p.luma, p.u, p.v, w, h, rows, &self.qps, o.chroma, o.a, o.b, &self.info());
    }

    fn info(&self) -> BlockInfo<'_> {
        BlockInfo {
            inter: &[],
            nnz: &[],
            mv: &[],
            ref_id: &[],
            mv1: &[],
            ref_id1: &[],
            w4: self.width.wrapping_mul(4), // a panic must be the original's own
            t8x8: &self.t8s,
            bs: &self.strengths,
            poc0: &[],
            poc1: &[],
            kind: &[],
        }
    }
}

fn stored(bytes: &[u8]) -> MbBs {
    let edges = |from: usize| core::array::from_fn(|e| core::array::from_fn(|s| bytes[from + 4 * e + s]));
    MbBs { v: edges(0), h: edges(16) }
}
