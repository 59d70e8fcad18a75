//! A picture with stored strengths, and the time that each way takes for it.

use super::ways::{whole, Way};
use crate::{H, W};
use inputs::{strengths, texture, Content, Rng, Texture};

pub struct Picture {
    pub planes: [Vec<u8>; 3],
    pub strengths: Vec<u8>,
    pub qps: Vec<u8>,
    pub t8s: Vec<u8>,
}

impl Picture {
    pub fn new(r: &mut Rng, content: Content, look: Texture) -> Picture {
        let n = W * H;
        let look = Texture { base: r.within(60, 190), ..look };
        Picture {
            planes: [16, 8, 8].map(|side| texture(r, side * W, side * H, look)),
            strengths: strengths(r, n, content),
            qps: (0..n).map(|_| r.within(28, 36) as u8).collect(),
            t8s: vec![0; n],
        }
    }

    /// The seconds of each way; `turn` says which comes first.
    pub fn times(&self, turn: usize) -> [f64; Way::ALL.len()] {
        let mut times = [0.0; Way::ALL.len()];
        let mut first: Option<[Vec<u8>; 3]> = None;
        for i in 0..Way::ALL.len() {
            let way = Way::ALL[(turn + i) % Way::ALL.len()];
            let mut planes = self.planes.clone();
            times[way as usize] = way.seconds(self, &mut planes);
            if matches!(way, Way::Fields) {
                continue;
            }
            let same = first.get_or_insert_with(|| planes.clone());
            assert!(*same == planes, "{way:?} differs from the way before it: run the judge");
        }
        times
    }

    /// The seconds of the archive's whole-picture call with each of two pairs of chroma offsets, U's and V's;
    /// `turn` says which comes first.
    pub fn chroma_times(&self, pairs: [[i32; 2]; 2], turn: usize) -> [f64; 2] {
        let mut times = [0.0; 2];
        for i in [turn % 2, (turn + 1) % 2] {
            times[i] = whole(self, &mut self.planes.clone(), pairs[i]);
        }
        times
    }
}
