//! Strengths of one macroblock: `derive_mb_kind`, `derive_mb_bs` and `derive_mb`.

use crate::probed::{self, BlockInfo, MbBs, MbKind};

/// The six 4x4 grids and the two tables in the layouts of docs/RULES.md, "Sizes and layouts".
#[derive(Clone, Copy, Default)]
pub struct Grids<'a> {
    pub inter: &'a [u8],
    pub nnz: &'a [u8],
    pub ref0: &'a [i8],
    pub mv0: &'a [i16],
    pub ref1: &'a [i8],
    pub mv1: &'a [i16],
    pub pictures0: &'a [i32],
    pub pictures1: &'a [i32],
}

/// The grids in the original's types: converted once, asked for any macroblock.
pub struct Blocks {
    width: usize,
    inter: Vec<bool>,
    nnz: Vec<u8>,
    ref0: Vec<i8>,
    mv0: Vec<(i16, i16)>,
    ref1: Vec<i8>,
    mv1: Vec<(i16, i16)>,
    /// Its lists `poc0` and `poc1`.
    pictures: [Vec<i32>; 2],
}

impl Blocks {
    /// Takes any lengths, as the original does, but for half a vector: no type of the original holds that,
    /// and dropping it here would hide it.
    pub fn new(width: usize, g: Grids) -> Self {
        let pairs = |mv: &[i16]| {
            assert_eq!(mv.len() % 2, 0, "the original is lent whole vectors");
            mv.chunks_exact(2).map(|v| (v[0], v[1])).collect()
        };
        Blocks {
            width,
            inter: g.inter.iter().map(|&b| b != 0).collect(),
            nnz: g.nnz.to_vec(),
            ref0: g.ref0.to_vec(),
            mv0: pairs(g.mv0),
            ref1: g.ref1.to_vec(),
            mv1: pairs(g.mv1),
            pictures: lists([g.pictures0, g.pictures1]),
        }
    }

    /// The same without lists: the original then takes a reference as a picture's number, -1 too.
    pub fn without_lists(self) -> Self {
        Blocks { pictures: [Vec::new(), Vec::new()], ..self }
    }

    /// Strengths by kind: 0 intra, 1 skip, 2 inter uniform, 3 inter.
    pub fn by_kind(&self, x: usize, y: usize, kind: u8) -> [u8; 32] {
        let kind = MbKind::from_u8(kind).expect("one of the four kinds");
        bytes(probed::derive_mb_kind(&self.info(), x, y, kind))
    }

    /// Strengths with the flags as given.
    pub fn by_flags(&self, x: usize, y: usize, flat: bool, uniform: bool, t8: bool) -> [u8; 32] {
        bytes(probed::probe::derive_flags(&self.info(), x, y, flat, uniform, t8))
    }

    /// Strengths without flags: the original looks for flat and uniform itself.
    pub fn flagless(&self, x: usize, y: usize, t8: bool) -> [u8; 32] {
        bytes(probed::derive_mb(&self.info(), x, y, t8))
    }

    /// What the original's own functions are lent: for a clock, which asks them without a conversion.
    pub fn info(&self) -> BlockInfo<'_> {
        BlockInfo {
            inter: &self.inter,
            nnz: &self.nnz,
            mv: &self.mv0,
            ref_id: &self.ref0,
            mv1: &self.mv1,
            ref_id1: &self.ref1,
            w4: self.width.wrapping_mul(4), // a panic must be the original's own
            t8x8: &[],
            bs: &[],
            poc0: &self.pictures[0],
            poc1: &self.pictures[1],
            kind: &[],
        }
    }
}

/// The tables themselves, just one of them empty among them. Where both are, identity lists: reference r is
/// picture r, and -1 becomes the original's NO_REF.
fn lists(tables: [&[i32]; 2]) -> [Vec<i32>; 2] {
    match tables {
        [[], []] => [(0..128).collect(), (0..128).collect()],
        lent => lent.map(<[i32]>::to_vec),
    }
}

/// Vertical edges first, four segments each, then horizontal ones: the 32 bytes of a macroblock.
fn bytes(m: MbBs) -> [u8; 32] {
    let mut out = [0; 32];
    for (to, from) in out.iter_mut().zip(m.v.iter().chain(&m.h).flatten()) {
        *to = *from;
    }
    out
}
