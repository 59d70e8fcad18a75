//! A child module of a copy of deblock.rs: hands out what is private there.

use super::*;

/// What `derive_mb_bs` fills: the vertical edges of a macroblock, then the horizontal ones.
pub type Edges = [[[i32; 4]; 4]; 2];

/// `derive_mb_bs` with flat and uniform as given, into strengths that are zeroed first, as `derive_mb` does.
pub fn derive_flags_into(info: &BlockInfo, x: usize, y: usize, flags: [bool; 2], t8: bool, to: &mut Edges) {
    let tile = gather_tile(info, x, y);
    *to = Edges::default();
    let ([flat, uniform], [v, h]) = (flags, to);
    derive_mb_bs(&tile, x, y, flat, uniform, t8, v, h);
}

/// The same as the other calls hand strengths out.
pub fn derive_flags(info: &BlockInfo, x: usize, y: usize, flat: bool, uniform: bool, t8: bool) -> MbBs {
    let mut edges = Edges::default();
    derive_flags_into(info, x, y, [flat, uniform], t8, &mut edges);
    let [v, h] = edges.map(|edges| edges.map(|edge| edge.map(|s| s as u8)));
    MbBs { v, h }
}
