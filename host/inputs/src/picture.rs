//! Made planes and made strengths.

use crate::Rng;

/// What a plane looks like.
#[derive(Clone, Copy)]
pub struct Texture {
    /// How far the levels of 4x4 blocks lie apart: what quantising leaves.
    pub step: i32,
    /// Noise of each sample.
    pub noise: i32,
    /// The level around which it lies; far out, samples saturate.
    pub base: i32,
}

/// A plane of `w` by `h` samples: a slope, a level for each 4x4 block, and noise.
pub fn texture(r: &mut Rng, w: usize, h: usize, t: Texture) -> Vec<u8> {
    let (across, down) = (r.within(-3, 3), r.within(-3, 3));
    let columns = w.div_ceil(4);
    let levels: Vec<i32> = (0..columns * h.div_ceil(4)).map(|_| r.within(-t.step, t.step)).collect();
    let mut plane = Vec::with_capacity(w * h);
    for y in 0..h {
        for x in 0..w {
            let slope = (across * x as i32) / 16 + (down * y as i32) / 16;
            let sample = t.base + slope + levels[y / 4 * columns + x / 4] + r.within(-t.noise, t.noise);
            plane.push(sample.clamp(0, 255) as u8);
        }
    }
    plane
}

/// What the strengths of a picture come from.
#[derive(Clone, Copy, PartialEq, Eq, Debug)]
pub enum Content {
    /// Every macroblock intra: 4 on outer edges, 3 on inner ones.
    Intra,
    /// One macroblock in 16 intra; in the others 0, 1 and 2 equally often.
    Mixed,
    /// A still wall: 85 of 100 macroblocks have no strength at all, the others some edges of 0, 1 and 2.
    Still,
    /// Any strength anywhere, 4 on inner edges and at the border among them.
    Wild,
}

/// The strengths of `count` macroblocks.
pub fn strengths(r: &mut Rng, count: usize, content: Content) -> Vec<u8> {
    (0..count).flat_map(|_| macroblock(r, content)).collect()
}

fn macroblock(r: &mut Rng, content: Content) -> [u8; 32] {
    let intra = std::array::from_fn(|i| if i % 16 < 4 { 4 } else { 3 });
    match content {
        Content::Intra => intra,
        Content::Mixed if r.once_in(16) => intra,
        Content::Mixed => std::array::from_fn(|_| r.below(3) as u8),
        Content::Still if r.below(100) < 85 => [0; 32],
        Content::Still => {
            let edges: [bool; 8] = std::array::from_fn(|_| r.once_in(2));
            std::array::from_fn(|i| if edges[i / 4] { r.below(3) as u8 } else { 0 })
        }
        Content::Wild => match r.below(5) {
            0 => [0; 32],
            1 => intra,
            2 => [r.below(5) as u8; 32],
            3 => std::array::from_fn(|_| if r.once_in(6) { r.below(5) as u8 } else { 0 }),
            _ => std::array::from_fn(|_| r.below(5) as u8),
        },
    }
}
