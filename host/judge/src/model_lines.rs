//! The model's lines: clauses 8.7.2.3 and 8.7.2.4.

use crate::mistakes::Mistake;
use crate::model::Model;
use crate::model_thresholds::Thresholds;

impl Model {
    /// Filters the luma line whose q0 lies at `at` and whose samples lie `step` apart.
    pub fn luma_line(&self, plane: &mut [u8], at: usize, step: usize, strength: u8, thresholds: &Thresholds) {
        let Thresholds { alpha, beta, tc0 } = *thresholds;
        let get = |i: usize| i32::from(plane[at + i * step - 4 * step]);
        let [p3, p2, p1, p0] = [get(0), get(1), get(2), get(3)];
        let [q0, q1, q2, q3] = [get(4), get(5), get(6), get(7)];
        if !self.is_edge(thresholds, [p1, p0, q0, q1]) {
            return;
        }
        let (ap, aq) = match self.mistake {
            Some(Mistake::NearTestsP1) => ((p1 - p0).abs() < beta, (q1 - q0).abs() < beta),
            _ => ((p2 - p0).abs() < beta, (q2 - q0).abs() < beta),
        };
        let set = |i: usize, v: i32| plane[at + i * step - 4 * step] = v.clamp(0, 255) as u8;
        let line = [p3, p2, p1, p0, q0, q1, q2, q3];
        if strength < 4 {
            self.normal(line, [ap, aq], tc0[strength as usize - 1], set);
        } else {
            self.strong(line, [ap, aq], alpha, set);
        }
    }

    /// Strengths 1 to 3.
    fn normal(&self, line: [i32; 8], [ap, aq]: [bool; 2], tc0: i32, mut set: impl FnMut(usize, i32)) {
        let [_, p2, p1, p0, q0, q1, q2, _] = line;
        let tc = if self.has(Mistake::TcWithoutSides) { tc0 } else { tc0 + ap as i32 + aq as i32 };
        let delta = self.delta([p1, p0, q0, q1], tc);
        let (new_p0, new_q0) = ((p0 + delta).clamp(0, 255), (q0 - delta).clamp(0, 255));
        set(3, new_p0);
        set(4, new_q0);
        let half = |v: i32| if self.has(Mistake::HalvesTowardZero) { v / 2 } else { v >> 1 };
        let middle = match self.mistake {
            Some(Mistake::Q1FromNewP0) => (new_p0 + q0 + 1) >> 1,
            Some(Mistake::Q1FromBothNew) => (new_p0 + new_q0 + 1) >> 1,
            _ => (p0 + q0 + 1) >> 1,
        };
        if ap {
            let middle = (p0 + q0 + 1) >> 1;
            set(2, p1 + half(p2 + middle - 2 * p1).clamp(-tc0, tc0));
        }
        if aq {
            set(5, q1 + half(q2 + middle - 2 * q1).clamp(-tc0, tc0));
        }
    }

    /// Strength 4.
    fn strong(&self, line: [i32; 8], [ap, aq]: [bool; 2], alpha: i32, mut set: impl FnMut(usize, i32)) {
        let [p3, p2, p1, p0, q0, q1, q2, q3] = line;
        let margin = if self.has(Mistake::StrongMargin) { 1 } else { 2 };
        let strong = (p0 - q0).abs() < (alpha >> 2) + margin;
        if strong && ap {
            set(3, (p2 + 2 * p1 + 2 * p0 + 2 * q0 + q1 + 4) >> 3);
            set(2, (p2 + p1 + p0 + q0 + 2) >> 2);
            let far = if self.has(Mistake::P3AsP2) { p2 } else { p3 };
            set(1, (2 * far + 3 * p2 + p1 + p0 + q0 + 4) >> 3);
        } else {
            set(3, (2 * p1 + p0 + q1 + 2) >> 2);
        }
        if strong && aq {
            set(4, (q2 + 2 * q1 + 2 * q0 + 2 * p0 + p1 + 4) >> 3);
            set(5, (q2 + q1 + q0 + p0 + 2) >> 2);
            set(6, (2 * q3 + 3 * q2 + q1 + q0 + p0 + 4) >> 3);
        } else {
            set(4, (2 * q1 + q0 + p1 + 2) >> 2);
        }
    }

    /// The same for chroma: p0 and q0 alone change.
    pub fn chroma_line(&self, plane: &mut [u8], at: usize, step: usize, strength: u8, thresholds: &Thresholds) {
        let get = |i: usize| i32::from(plane[at + i * step - 2 * step]);
        let [p1, p0, q0, q1] = [get(0), get(1), get(2), get(3)];
        if !self.is_edge(thresholds, [p1, p0, q0, q1]) {
            return;
        }
        let mut set = |i: usize, v: i32| plane[at + i * step - 2 * step] = v.clamp(0, 255) as u8;
        if strength < 4 {
            let more = if self.has(Mistake::ChromaTc0) { 0 } else { 1 };
            let delta = self.delta([p1, p0, q0, q1], thresholds.tc0[strength as usize - 1] + more);
            set(1, p0 + delta);
            set(2, q0 - delta);
        } else {
            set(1, (2 * p1 + p0 + q1 + 2) >> 2);
            set(2, (2 * q1 + q0 + p1 + 2) >> 2);
        }
    }

    fn is_edge(&self, thresholds: &Thresholds, [p1, p0, q0, q1]: [i32; 4]) -> bool {
        let alpha = thresholds.alpha + self.has(Mistake::AlphaReached) as i32;
        (p0 - q0).abs() < alpha && (p1 - p0).abs() < thresholds.beta && (q1 - q0).abs() < thresholds.beta
    }

    fn delta(&self, [p1, p0, q0, q1]: [i32; 4], tc: i32) -> i32 {
        let sum = 4 * (q0 - p0) + (p1 - q1) + if self.has(Mistake::NoRounding) { 0 } else { 4 };
        let delta = if self.has(Mistake::RoundsTowardZero) { sum / 8 } else { sum >> 3 };
        delta.clamp(-tc, tc)
    }
}
