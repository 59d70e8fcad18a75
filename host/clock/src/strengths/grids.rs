//! Made 4x4 grids: pictures whose macroblocks are of the kinds that a content asks for.

use super::contents::Content;
use super::motion::{List, Motion, UNUSED};
use crate::{H, W};
use deblock::Kind;
use inputs::Rng;
use std::array::from_fn;

/// The grids of a picture, and the kind of each macroblock: of those that are true of it the one that says
/// most.
pub struct Grids {
    pub kinds: Vec<Kind>,
    /// 8x8 flags, or none at all.
    pub t8s: Vec<u8>,
    inter: Vec<u8>,
    nnz: Vec<u8>,
    refs: [Vec<i8>; 2],
    mvs: [Vec<i16>; 2],
    tables: [&'static [i32]; 2],
}

impl Grids {
    pub fn new(r: &mut Rng, content: &Content) -> Grids {
        let around = Motion::new(r, content.two_lists);
        let kinds: Vec<Kind> = (0..W * H).map(|_| r.pick(content.kinds)).collect();
        let flagged = if content.t8s { W * H } else { 0 };
        let t8s: Vec<u8> = (0..flagged).map(|_| r.pick(&[0, 1])).collect();
        let mut blocks = vec![Block::default(); 16 * W * H];
        for (m, &kind) in kinds.iter().enumerate() {
            let first = m / W * 16 * W + m % W * 4;
            for (i, block) in macroblock(r, kind, is_8x8(&t8s, m), around).into_iter().enumerate() {
                blocks[first + i / 4 * 4 * W + i % 4] = block;
            }
        }
        let lists = [&blocks[..], if content.two_lists { &blocks } else { &[] }];
        Grids {
            kinds,
            t8s,
            inter: blocks.iter().map(|block| block.inter).collect(),
            nnz: blocks.iter().map(|block| block.count).collect(),
            refs: from_fn(|list| lists[list].iter().map(|block| block.lists[list].reference).collect()),
            mvs: from_fn(|list| lists[list].iter().flat_map(|block| block.lists[list].vector).collect()),
            tables: content.tables,
        }
    }

    pub fn lent(&self) -> deblock::Grids<'_> {
        let Grids { inter, nnz, refs: [ref0, ref1], mvs: [mv0, mv1], tables: [pictures0, pictures1], .. } = self;
        deblock::Grids { inter, nnz, ref0, mv0, ref1, mv1, pictures0, pictures1 }
    }

    /// The same in the original's types.
    pub fn converted(&self) -> oracle::Blocks {
        let deblock::Grids { inter, nnz, ref0, mv0, ref1, mv1, pictures0, pictures1 } = self.lent();
        oracle::Blocks::new(W, oracle::Grids { inter, nnz, ref0, mv0, ref1, mv1, pictures0, pictures1 })
    }
}

/// Whether the 8x8 flag of a macroblock is set.
pub fn is_8x8(t8s: &[u8], m: usize) -> bool {
    t8s.get(m) == Some(&1)
}

#[derive(Clone, Copy, Default)]
struct Block {
    inter: u8,
    count: u8,
    lists: [List; 2],
}

fn macroblock(r: &mut Rng, kind: Kind, is_8x8: bool, around: Motion) -> [Block; 16] {
    let own = around.neighbour(r);
    let lists = match kind {
        Kind::Intra => [[UNUSED; 2]; 16],
        Kind::Skip | Kind::InterUniform => [own.lists(); 16],
        Kind::Inter => parts(r, is_8x8, own),
    };
    let counts = if kind == Kind::Skip { [0; 16] } else { counts(r, is_8x8) };
    from_fn(|i| Block { inter: (kind != Kind::Intra).into(), count: counts[i], lists: lists[i] })
}

/// Coefficients in about one block of four, and in one at least. With an 8x8 transform that is said of 8x8
/// blocks, and their four blocks have the same count: there the original, which takes a block's own, agrees.
fn counts(r: &mut Rng, is_8x8: bool) -> [u8; 16] {
    let first = |i: usize| if is_8x8 { i / 8 * 8 + i % 4 / 2 * 2 } else { i };
    let mut counts: [u8; 16] = from_fn(|_| if r.once_in(4) { r.within(1, 16) as u8 } else { 0 });
    if (0..16).all(|i| counts[first(i)] == 0) {
        counts[first(r.below(16))] = 1;
    }
    from_fn(|i| counts[first(i)])
}

/// The sizes of parts in blocks, across and down. With an 8x8 transform it is one of the first three, since
/// then no part is smaller than an 8x8 block.
const PARTS: [(usize, usize); 6] = [(2, 4), (4, 2), (2, 2), (2, 1), (1, 2), (1, 1)];

/// The blocks of a macroblock in parts of one size, each with a motion near `own`, not all with the same.
fn parts(r: &mut Rng, is_8x8: bool, own: Motion) -> [[List; 2]; 16] {
    let (across, down) = r.pick(if is_8x8 { &PARTS[..3] } else { &PARTS });
    loop {
        let parts: [[List; 2]; 16] = from_fn(|_| own.neighbour(r).lists());
        let blocks = from_fn(|i| parts[i / 4 / down * 4 + i % 4 / across]);
        if blocks != [blocks[0]; 16] {
            return blocks;
        }
    }
}

#[cfg(test)]
mod tests;
