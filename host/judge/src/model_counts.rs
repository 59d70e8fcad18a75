//! The model's coefficients. Clause 8.7.2.1 gives 2 where a sample beside the edge is in a 4x4 block that has
//! transform coefficients, or where "the 8x8 block containing the sample is in a macroblock with
//! transform_size_8x8_flag equal to 1 and contains non-zero transform coefficients".

use crate::mistakes::Mistake;
use crate::model::Model;
use crate::request::Request;

/// The blocks of the macroblock that a block lies in.
fn around(r: &Request, block: usize) -> impl Iterator<Item = usize> {
    let line = 4 * r.w;
    let corner = block / line / 4 * 4 * line + block % line / 4 * 4;
    (0..16).map(move |k| corner + k / 4 * line + k % 4)
}

impl Model {
    /// Whether the transform block that holds `block` has coefficients. `other` lies across the edge.
    pub fn is_coded(&self, r: &Request, block: usize, other: usize) -> bool {
        if self.is_8x8(r, block, other) {
            around(r, block).any(|i| r.nnz[i] != 0 && self.counts_for(r, i, block, other))
        } else {
            r.nnz[block] != 0
        }
    }

    /// Whether the block is taken to lie in a macroblock with the 8x8 flag.
    fn is_8x8(&self, r: &Request, block: usize, other: usize) -> bool {
        let has_flag = |m: usize| r.t8s.get(m) == Some(&1);
        let (own, across) = (r.macroblock_of(block), r.macroblock_of(other));
        match self.mistake {
            Some(Mistake::CountsOfBlocks) => false,
            Some(Mistake::CountsOfBlocksOnP) if block < other => false,
            Some(Mistake::OwnFlagBeside) => has_flag(r.at()),
            Some(Mistake::FlagBesideWithin) if block > other => has_flag(across),
            Some(Mistake::EightUnflagged) if own < across => true,
            _ => has_flag(own),
        }
    }

    /// Whether block `i` of the same macroblock, which has an 8x8 transform, counts for the block: it does
    /// where both lie in one 8x8 block.
    fn counts_for(&self, r: &Request, i: usize, block: usize, other: usize) -> bool {
        let place = |i: usize| (i % (4 * r.w), i / (4 * r.w));
        let ((x, y), (own_x, own_y)) = (place(i), place(block));
        let shared = (x / 2, y / 2) == (own_x / 2, own_y / 2);
        let is_neighbour = r.macroblock_of(block) < r.macroblock_of(other);
        match self.mistake {
            Some(Mistake::CountsOfMacroblock) => true,
            // beside the edge itself: in the block's column, or in its row
            Some(Mistake::FourFlagged) if is_neighbour => {
                shared && if other == block + 1 { x == own_x } else { y == own_y }
            }
            Some(Mistake::TwelveFlagged) if is_neighbour => shared || i + 2 * (other - block) == block,
            _ => shared,
        }
    }
}

#[cfg(test)]
mod tests {
    use super::*;
    use crate::small::kinds_picture;

    /// The strengths of macroblock (x, y) where of 2 by 2 of one motion just one block is counted, by the
    /// square that its count stands for: 2 on each edge that the square has a block beside.
    fn beside_square(r: &Request, counted: usize) -> [u8; 32] {
        let side = if r.t8s[r.macroblock_of(counted)] == 1 { 2 } else { 1 };
        let squared = |(x, y): (usize, usize)| (x / side, y / side);
        let is_in = |block| squared(block) == squared((counted % 8, counted / 8));
        std::array::from_fn(|k| {
            let (edge, segment) = (k / 4 % 4, k % 4);
            let (column, row) = if k < 16 { (edge, segment) } else { (segment, edge) };
            let q = (4 * r.x + column, 4 * r.y + row);
            let p = if k < 16 { q.0.checked_sub(1).map(|x| (x, q.1)) } else { q.1.checked_sub(1).map(|y| (q.0, y)) };
            let skipped = r.t8s[r.at()] == 1 && edge % 2 == 1;
            if p.is_some_and(|p| (is_in(p) || is_in(q)) && !skipped) {
                2
            } else {
                0
            }
        })
    }

    #[test]
    fn a_count_stands_for_a_square() {
        for (code, counted) in (0..16 * 64).map(|i| (i / 64, i % 64)) {
            let mut r = kinds_picture(0, 2, 2, &[2; 4]);
            r.t8s = (0..4).map(|m| (code >> m & 1) as u8).collect::<Vec<u8>>().into();
            r.nnz[counted] = 200;
            for m in 0..4 {
                (r.x, r.y) = (m % 2, m / 2);
                Model::default().strengths(&mut r);
                assert_eq!(r.strengths[32 * m..][..32], beside_square(&r, counted));
            }
        }
    }
}
