//! The model's strengths: clause 8.7.2.1 as docs/RULES.md, "Strengths", words it.

use crate::mistakes::Mistake;
use crate::model::Model;
use crate::request::{Call, Request};

/// The pictures that a block predicts from, with their vectors.
type Used = Vec<(i32, [i32; 2])>;

impl Model {
    pub fn strengths(&self, r: &mut Request) {
        let t8 = r.t8s.get(r.at()) == Some(&1) && !self.keeps_strengths(r);
        let mut own = [0; 32];
        for horizontal in [false, true] {
            for edge in 0..4 {
                let border = edge == 0 && if horizontal { r.y == 0 } else { r.x == 0 };
                if border || t8 && edge % 2 == 1 {
                    continue;
                }
                for segment in 0..4 {
                    let (bx, by) = if horizontal { (segment, edge) } else { (edge, segment) };
                    let q = (4 * r.y + by) * 4 * r.w + 4 * r.x + bx;
                    let p = if horizontal { q - 4 * r.w } else { q - 1 };
                    let four = edge == 0 && self.has_four(r, horizontal);
                    own[16 * horizontal as usize + 4 * edge + segment] = self.strength(r, p, q, four);
                }
            }
        }
        if self.has(Mistake::ConstantStrengths) {
            own = [1; 32];
        }
        if self.has(Mistake::DirectionsExchanged) {
            own.rotate_left(16);
        }
        let at = 32 * r.at();
        r.strengths[at..at + 32].copy_from_slice(&own);
    }

    /// Whether the 8x8 flag skips no edge.
    fn keeps_strengths(&self, r: &Request) -> bool {
        match self.mistake {
            Some(Mistake::FlagKeepsStrengths) => true,
            Some(Mistake::KindKeepsStrengths) => r.call == Call::Kind,
            _ => false,
        }
    }

    /// Whether the strength calls take the picture for a field.
    fn is_field(&self, r: &Request) -> bool {
        match self.mistake {
            Some(Mistake::FrameAsField) => true,
            Some(Mistake::OneAloneIsField) => r.part == 1,
            _ => r.part != 0,
        }
    }

    /// Whether outer edges of this direction get 4 beside an intra macroblock: in a field upper ones do not.
    fn has_four(&self, r: &Request, horizontal: bool) -> bool {
        match self.mistake {
            Some(Mistake::OuterIntraThree) => false,
            Some(Mistake::FieldUpperFour) => true,
            Some(Mistake::FieldLeftThree) => !self.is_field(r),
            _ => !(horizontal && self.is_field(r)),
        }
    }

    /// The largest differences, across and down, that are not far. Down a field 2 quarter samples are 4 of
    /// the frame.
    fn reach(&self, r: &Request) -> [i32; 2] {
        match self.mistake {
            Some(Mistake::FarFromFive) => [4, 4],
            Some(Mistake::FieldFarFromFour) => [3, 3],
            Some(Mistake::FieldFarAcross) if self.is_field(r) => [1, 1],
            _ if self.is_field(r) => [3, 1],
            _ => [3, 3],
        }
    }

    /// `four`: an intra block gives 4, not 3.
    fn strength(&self, r: &Request, p: usize, q: usize, four: bool) -> u8 {
        if r.inter[p] == 0 || r.inter[q] == 0 {
            return if four { 4 } else { 3 };
        }
        if self.is_coded(r, q, p) || self.is_coded(r, p, q) && !self.has(Mistake::OwnCountAlone) {
            return 2;
        }
        self.differs(&self.used(r, p), &self.used(r, q), self.reach(r)) as u8
    }

    fn used(&self, r: &Request, i: usize) -> Used {
        let lists = r.lists().into_iter().enumerate().filter(|(_, list)| !list.refs.is_empty());
        let looked_at = lists.filter(|(number, _)| *number == 0 || !self.has(Mistake::ListOneIgnored));
        let used = looked_at.filter_map(|(number, list)| {
            let picture = self.picture(r, number, list.refs[i])?;
            Some((picture, [list.mvs[2 * i].into(), list.mvs[2 * i + 1].into()]))
        });
        used.collect()
    }

    fn differs(&self, p: &Used, q: &Used, reach: [i32; 2]) -> bool {
        if p.len() != q.len() {
            return true;
        }
        let matches = |a: &(i32, [i32; 2]), b: &(i32, [i32; 2])| a.0 == b.0 && self.near(a.1, b.1, reach);
        match (&p[..], &q[..]) {
            ([a], [b]) => !matches(a, b),
            ([a, b], [c, d]) => {
                let direct = matches(a, c) && matches(b, d);
                let crossed = matches(a, d) && matches(b, c) && !self.has(Mistake::NoCrossedPairing);
                let crossed = crossed && !(self.has(Mistake::NoCrossedForEqual) && a.0 == b.0);
                !(direct || crossed)
            }
            _ => false,
        }
    }

    fn near(&self, a: [i32; 2], b: [i32; 2], reach: [i32; 2]) -> bool {
        let far = |i: usize| {
            let d = a[i] - b[i];
            let d = if self.has(Mistake::VectorsWrap) { i32::from(d as i16) } else { d };
            let d = if self.has(Mistake::FarOneSided) { d.max(-reach[i]) } else { d };
            d < -reach[i] || d > reach[i]
        };
        !far(0) && (self.has(Mistake::VerticalIgnored) || !far(1))
    }
}
