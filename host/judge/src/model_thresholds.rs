//! The model's thresholds: clause 8.7.2.2, and the tables of the standard.

use crate::mistakes::Mistake;
use crate::model::{Edge, Model};
use crate::request::{Call, Request};

pub struct Thresholds {
    pub alpha: i32,
    pub beta: i32,
    pub tc0: [i32; 3],
}

impl Model {
    /// Of an edge between macroblocks of QPs `p` and `q`.
    pub fn thresholds(&self, r: &Request, e: Edge, p: i32, q: i32) -> Thresholds {
        let [a, b] = self.filter_offsets(r, e);
        let [.., chroma_u, _] = r.offsets;
        let own = e.chroma.map(|is_v| self.chroma_offset(r, is_v));
        let beside = if self.has(Mistake::BesideByOffsetOfU) { own.map(|_| chroma_u) } else { own };
        // a mistake may let any offset through to here
        let map = |qp: i32, offset: Option<i32>| match offset {
            Some(offset) => mapped(qp.saturating_add(offset).clamp(0, 51)),
            None => qp,
        };
        let round = if self.has(Mistake::AverageRoundsDown) { 0 } else { 1 };
        let average = match self.mistake {
            Some(Mistake::AveragesBeforeMapping) => map((p + q + 1) >> 1, own),
            _ => (map(p, beside) + map(q, own) + round) >> 1,
        };
        let index_a = (average + a).clamp(0, 51) as usize;
        let index_b = (average + b).clamp(0, 51) as usize;
        let beta = BETA[if self.has(Mistake::BetaByIndexA) { index_a } else { index_b }];
        let tc0 = TC0[if self.has(Mistake::Tc0ByIndexB) { index_b } else { index_a }];
        Thresholds { alpha: ALPHA[index_a], beta, tc0 }
    }

    /// What is added to a QP before Table 8-15 (clause 8.5.8): chroma_qp_index_offset in U, which is Cb, and
    /// second_chroma_qp_index_offset in V, which is Cr.
    fn chroma_offset(&self, r: &Request, is_v: bool) -> i32 {
        let [.., chroma_u, chroma_v] = r.offsets;
        let takes_u = match self.mistake {
            Some(Mistake::ChromaOffsetIgnored) => return 0,
            Some(Mistake::ChromaOffsetsAdded) if is_v => return chroma_u + chroma_v,
            Some(Mistake::UByOffsetOfV) => false,
            Some(Mistake::VByOffsetOfU) => true,
            Some(Mistake::ChromaOffsetsExchanged) => is_v,
            Some(Mistake::RowsByOffsetOfU) => !is_v || r.call == Call::Rows,
            Some(Mistake::VisitByOffsetOfU) => !is_v || r.call == Call::Visit,
            Some(Mistake::FieldByOffsetOfU) => !is_v || r.part != 0,
            _ => !is_v,
        };
        if takes_u {
            chroma_u
        } else {
            chroma_v
        }
    }
}

fn mapped(qp: i32) -> i32 {
    const TABLE_8_15: [i32; 22] =
        [29, 30, 31, 32, 32, 33, 34, 34, 35, 35, 36, 36, 37, 37, 37, 38, 38, 38, 39, 39, 39, 39];
    if qp < 30 {
        qp
    } else {
        TABLE_8_15[qp as usize - 30]
    }
}

/// Table 8-16, from the standard.
#[rustfmt::skip]
const ALPHA: [i32; 52] = [
    0, 0, 0, 0, 0, 0, 0, 0, 0, 0, 0, 0, 0, 0, 0, 0, 4, 4, 5, 6, 7, 8, 9, 10, 12, 13, 15, 17, 20, 22, 25, 28,
    32, 36, 40, 45, 50, 56, 63, 71, 80, 90, 101, 113, 127, 144, 162, 182, 203, 226, 255, 255,
];
#[rustfmt::skip]
const BETA: [i32; 52] = [
    0, 0, 0, 0, 0, 0, 0, 0, 0, 0, 0, 0, 0, 0, 0, 0, 2, 2, 2, 3, 3, 3, 3, 4, 4, 4, 6, 6, 7, 7, 8, 8,
    9, 9, 10, 10, 11, 11, 12, 12, 13, 13, 14, 14, 15, 15, 16, 16, 17, 17, 18, 18,
];
/// Table 8-17, for strengths 1, 2 and 3.
#[rustfmt::skip]
const TC0: [[i32; 3]; 52] = [
    [0, 0, 0], [0, 0, 0], [0, 0, 0], [0, 0, 0], [0, 0, 0], [0, 0, 0], [0, 0, 0], [0, 0, 0], [0, 0, 0],
    [0, 0, 0], [0, 0, 0], [0, 0, 0], [0, 0, 0], [0, 0, 0], [0, 0, 0], [0, 0, 0], [0, 0, 0], [0, 0, 1],
    [0, 0, 1], [0, 0, 1], [0, 0, 1], [0, 1, 1], [0, 1, 1], [1, 1, 1], [1, 1, 1], [1, 1, 1], [1, 1, 1],
    [1, 1, 2], [1, 1, 2], [1, 1, 2], [1, 1, 2], [1, 2, 3], [1, 2, 3], [2, 2, 3], [2, 2, 4], [2, 3, 4],
    [2, 3, 4], [3, 3, 5], [3, 4, 6], [3, 4, 6], [4, 5, 7], [4, 5, 8], [4, 6, 9], [5, 7, 10], [6, 8, 11],
    [6, 8, 13], [7, 10, 14], [8, 11, 16], [9, 12, 18], [10, 13, 20], [11, 15, 23], [13, 17, 25],
];
