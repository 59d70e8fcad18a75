//! Everything, where everything is few.

use crate::make;
use crate::request::{Call, Request, Structure, FILTER_CALLS};
use crate::session::{Outcome, Session};
use crate::small_fields;
use crate::small_flags;
use crate::small_rows;
use crate::small_slices;
use crate::small_tables;
use inputs::{Rng, Texture};

pub const SIZES: [(usize, usize); 4] = [(1, 1), (2, 1), (1, 2), (2, 2)];

/// All the exhaustive runs; `share` 1 is all of it, 2 every second case, and so on.
pub fn run(s: &mut Session, share: usize) -> Outcome {
    let mut thin = Thin::one_of(share);
    for part in 0..3 {
        s.about(Structure::of(part));
        every_strength_on_every_segment(s, &mut thin, part)?;
        every_row_range(s, part)?;
        every_limit_of_offsets(s, part)?;
        small_slices::run(s, &mut thin, part)?;
        if part < 2 {
            // which field it is matters neither to thresholds nor to strength calls; of sides both come up
            every_side(s, &mut thin, Structure::of(part))?;
            every_threshold(s, &mut thin, part)?;
            every_pair_of_chroma_qps(s, &mut thin, part)?;
            every_pair_of_chroma_offsets(s, &mut thin, part)?;
            every_pair_of_motions(s, &mut thin, part)?;
            every_kind_of_macroblock(s, &mut thin, part)?;
            small_flags::run(s, &mut thin, part)?;
            small_rows::run(s, &mut thin, part)?;
            small_tables::run(s, &mut thin, part)?;
        }
    }
    small_fields::run(s, &mut thin)
}

/// Takes one case of `share`.
pub struct Thin {
    share: usize,
    count: usize,
}

impl Thin {
    pub fn one_of(share: usize) -> Thin {
        Thin { share, count: 0 }
    }

    pub fn takes(&mut self) -> bool {
        self.count += 1;
        self.count.is_multiple_of(self.share)
    }
}

/// A picture whose blocks differ by little, so that QPs of 25 on filter it.
pub fn blocky(part: u8, call: Call, w: usize, h: usize, seed: u64) -> Request {
    let n = w * h;
    let mut q = Request::new(call, w, h);
    (q.part, q.last) = (part, h);
    make::planes(&mut Rng::new(seed), Structure::of(part), &mut q, Texture { step: 5, noise: 1, base: 120 });
    q.strengths = vec![0; 32 * n].into();
    q.qps = vec![34; n].into();
    q.marks = if call == Call::Visit { vec![1; n].into() } else { Vec::new().into() };
    q
}

/// Each of the 32 segments alone with each strength, and all with the same; with and without 8x8; in every
/// place.
fn every_strength_on_every_segment(s: &mut Session, thin: &mut Thin, part: u8) -> Outcome {
    for (w, h) in SIZES {
        for (m, strength, flag, qp) in product([w * h, 5, 3, 3]) {
            for segment in 0..33 {
                if !thin.takes() {
                    continue;
                }
                let call = if segment % 2 == 0 { Call::Whole } else { Call::Visit };
                let mut q = blocky(part, call, w, h, (7 * segment + strength) as u64);
                (q.x, q.y) = (m % w, m / w);
                let all = segment == 32;
                let own = if all { 32 * m..32 * m + 32 } else { 32 * m + segment..32 * m + segment + 1 };
                q.strengths[own].fill(strength as u8);
                q.qps.fill([28, 36, 46][qp]);
                if flag > 0 {
                    q.t8s = vec![flag as u8 - 1; w * h].into();
                }
                if call == Call::Visit {
                    q.marks[m] = 0;
                }
                s.check("small", &q)?;
            }
        }
    }
    Ok(())
}

/// Number `i` of the 25 offsets that are taken.
fn offset(i: usize) -> i32 {
    i as i32 - 12
}

/// Every QP with every pair of offsets A and B.
fn every_threshold(s: &mut Session, thin: &mut Thin, part: u8) -> Outcome {
    for (qp, a, b, _) in product([52, 25, 25, 1]) {
        if thin.takes() {
            let mut q = blocky(part, Call::Whole, 1, 1, (qp * 31 + a * 7 + b) as u64);
            q.strengths.iter_mut().enumerate().for_each(|(i, s)| *s = (1 + i % 4) as u8);
            q.qps.fill(qp as u8);
            let chroma = (a + b) % 25;
            q.offsets = [a, b, chroma, chroma].map(offset);
            s.check("small", &q)?;
        }
    }
    Ok(())
}

/// Every pair of neighbouring QPs with every chroma offset of U, and of V: with the same for both, and with
/// two, which the QPs put 1 to 24 apart.
fn every_pair_of_chroma_qps(s: &mut Session, thin: &mut Thin, part: u8) -> Outcome {
    for (two, p, q0, chroma) in product([2, 52, 52, 25]) {
        if thin.takes() {
            let (w, h) = if (p + q0 + chroma) % 2 == 0 { (2, 1) } else { (1, 2) };
            let mut q = blocky(part, Call::Whole, w, h, (p * 53 + q0) as u64);
            // the outer edge of the second macroblock alone
            q.strengths[32..36].fill(if w == 2 { 3 } else { 0 });
            q.strengths[48..52].fill(if h == 2 { 3 } else { 0 });
            q.qps.copy_from_slice(&[p as u8, q0 as u8]);
            let apart = two * (1 + (p + q0) % 24);
            q.offsets = [0, 0, offset(chroma), offset((chroma + apart) % 25)];
            s.check("small", &q)?;
        }
    }
    Ok(())
}

/// Every pair of chroma offsets with every QP, in one call or another. The steps grow with the QP, so that
/// thresholds leave some of them and filter others.
fn every_pair_of_chroma_offsets(s: &mut Session, thin: &mut Thin, part: u8) -> Outcome {
    for (qp, u, v, _) in product([52, 25, 25, 1]) {
        if thin.takes() {
            let mut q = blocky(part, FILTER_CALLS[(qp + u + v) % 3], 1, 1, 0);
            let look = Texture { step: 2 + (qp * qp / 50) as i32, noise: 1, base: 128 };
            make::planes(&mut Rng::new((u * 25 + v) as u64), Structure::of(part), &mut q, look);
            q.strengths.fill(3);
            q.qps.fill(qp as u8);
            q.marks.fill(0);
            q.offsets = [0, 0, offset(u), offset(v)];
            s.check("small", &q)?;
        }
    }
    Ok(())
}

/// The first and the last number that is taken, those next to them and those of an i32: for each of the four
/// offsets alone, and for both chroma ones.
fn every_limit_of_offsets(s: &mut Session, part: u8) -> Outcome {
    for (of, value, call, _) in product([5, 6, 3, 1]) {
        let mut q = blocky(part, FILTER_CALLS[call], 1, 1, 6);
        q.strengths.fill(3);
        q.marks.fill(0);
        let own = if of < 4 { of..of + 1 } else { 2..4 };
        q.offsets[own].fill([-12, 12, -13, 13, i32::MIN, i32::MAX][value]);
        s.check("small", &q)?;
    }
    Ok(())
}

/// Every range of rows of a small picture, wrong ones among them.
fn every_row_range(s: &mut Session, part: u8) -> Outcome {
    let mut r = Rng::new(3);
    for (h, first, last, _) in product([6, 8, 8, 1]) {
        let mut q = make::picture(&mut r, Structure::of(part), Call::Rows, 2, h + 1);
        (q.part, q.first, q.last) = (part, first, last);
        s.check("small", &q)?;
    }
    Ok(())
}

/// Every width and every height, with the other side 1 or 2.
fn every_side(s: &mut Session, thin: &mut Thin, of: Structure) -> Outcome {
    let mut r = Rng::new(4);
    for (side, other, tall, call) in product([256, 2, 2, 2]) {
        if thin.takes() {
            let (w, h) = if tall == 1 { (other + 1, side + 1) } else { (side + 1, other + 1) };
            s.check("small", &make::picture(&mut r, of, [Call::Whole, Call::Visit][call], w, h))?;
            s.check("small", &make::grids(&mut r, of, [Call::Flagless, Call::StrengthsRow][call], w, h))?;
        }
    }
    Ok(())
}

/// Two macroblocks side by side or one above the other, each of one motion: every pair of a small alphabet.
fn every_pair_of_motions(s: &mut Session, thin: &mut Thin, part: u8) -> Outcome {
    const REFS: [i8; 3] = [-1, 5, 7];
    let (near, far) = if part == 0 { (3, 4) } else { (1, 2) }; // down
    let vectors = [(0, 0), (3, 0), (4, 0), (0, -far), (8, -near)];
    let motion = |i: usize| (REFS[i / 5], vectors[i % 5]);
    for (p0, p1, q0, q1) in product([15, 15, 15, 15]) {
        if !thin.takes() {
            continue;
        }
        let (w, h) = if (p0 + p1) % 2 == 0 { (2, 1) } else { (1, 2) };
        let lists = [[p0, p1], [q0, q1]].map(|lists| lists.map(motion));
        s.check("small", &two_macroblocks(part, w, h, lists))?;
    }
    Ok(())
}

/// A reference and its vector.
pub type Motion = (i8, (i16, i16));

/// Two macroblocks without coefficients, each of one motion in both lists; the second is asked for.
pub fn two_macroblocks(part: u8, w: usize, h: usize, lists: [[Motion; 2]; 2]) -> Request {
    let mut q = Request::new(Call::Flagless, w, h);
    (q.part, q.x, q.y) = (part, w - 1, h - 1);
    let list = |l: usize| (0..32).map(move |i| lists[if w == 2 { i % 8 / 4 } else { i / 16 }][l]);
    q.inter = vec![1; 32].into();
    q.nnz = vec![0; 32].into();
    q.ref0 = list(0).map(|m| m.0).collect::<Vec<i8>>().into();
    q.ref1 = list(1).map(|m| m.0).collect::<Vec<i8>>().into();
    q.mv0 = list(0).flat_map(|m| [m.1 .0, m.1 .1]).collect::<Vec<i16>>().into();
    q.mv1 = list(1).flat_map(|m| [m.1 .0, m.1 .1]).collect::<Vec<i16>>().into();
    q.strengths = vec![9; 64].into();
    q
}

/// Every picture of eight kinds of macroblock on the four smallest sizes, without 8x8 flags and with some,
/// asked in every way, true or not.
fn every_kind_of_macroblock(s: &mut Session, thin: &mut Thin, part: u8) -> Outcome {
    let mut r = Rng::new(5);
    for (w, h) in SIZES {
        let n = w * h;
        for code in 0..8usize.pow(n as u32) {
            if !thin.takes() {
                continue;
            }
            let kinds: Vec<usize> = (0..n).map(|m| code / 8usize.pow(m as u32) % 8).collect();
            let mut q = kinds_picture(part, w, h, &kinds);
            ask_everywhere(s, &mut q)?;
            q.t8s = (0..n).map(|_| r.below(2) as u8).collect::<Vec<u8>>().into();
            ask_everywhere(s, &mut q)?;
        }
    }
    Ok(())
}

/// Of each macroblock by every kind, a wrong one among them, with all flags and with nothing known; then of
/// each row.
pub fn ask_everywhere(s: &mut Session, q: &mut Request) -> Outcome {
    let kinds = (0..5).map(|kind| (Call::Kind, kind));
    let ways: Vec<(Call, u8)> =
        kinds.chain((0..4).map(|flags| (Call::Flags, flags))).chain([(Call::Flagless, 0)]).collect();
    for m in 0..q.w * q.h {
        (q.x, q.y) = (m % q.w, m / q.w);
        for (call, number) in &ways {
            (q.call, q.kind, q.flat, q.uniform) = (*call, *number, number & 1, number & 2);
            s.check("small", q)?;
        }
    }
    ask_rows(s, q)
}

/// Of each row by kinds, of which each macroblock gets every one, and at last with nothing known.
fn ask_rows(s: &mut Session, q: &mut Request) -> Outcome {
    q.call = Call::StrengthsRow;
    for (y, first) in (0..q.h).flat_map(|y| (0..6).map(move |first| (y, first))) {
        let kinds = if first == 5 { 0 } else { q.w * q.h };
        q.kinds = (0..kinds).map(|m| ((first + 2 * m) % 5) as u8).collect::<Vec<u8>>().into();
        q.y = y;
        s.check("small", q)?;
    }
    Ok(())
}

/// 0, 1 intra; 2 flat; 3 flat, another picture; 4 uniform with a coefficient; 5 halves; 6 both lists; 7 a
/// lone far block. What is far is so across, in a field down.
pub fn kinds_picture(part: u8, w: usize, h: usize, kinds: &[usize]) -> Request {
    let n = 16 * w * h;
    let (down, from) = if part == 0 { (0, 4) } else { (1, 2) };
    let mut q = Request::new(Call::Kind, w, h);
    q.part = part;
    q.inter = vec![0; n].into();
    q.nnz = vec![0; n].into();
    q.ref0 = vec![0; n].into();
    q.mv0 = vec![0; 2 * n].into();
    q.ref1 = vec![-1; n].into();
    q.mv1 = vec![0; 2 * n].into();
    q.strengths = vec![200; 2 * n].into();
    for b in 0..n {
        let (bx, by) = (b % (4 * w), b / (4 * w));
        let (x, y) = (bx % 4, by % 4);
        let kind = kinds[by / 4 * w + bx / 4];
        q.inter[b] = (kind > 1) as u8;
        q.nnz[b] = (kind == 1 || kind == 4 && (x, y) == (0, 0)) as u8;
        q.ref0[b] = if kind == 3 { 1 } else { 0 };
        q.ref1[b] = if kind == 6 { 1 } else { -1 };
        let far = kind == 5 && x > 1 || kind == 7 && (x, y) == (3, 3);
        q.mv0[2 * b + down] = if far { from } else { 0 };
        q.mv1[2 * b + 1] = if kind == 6 { 3 } else { 0 };
    }
    q
}

/// All quadruples below the four numbers.
pub fn product(n: [usize; 4]) -> impl Iterator<Item = (usize, usize, usize, usize)> {
    let [a, b, c, d] = n;
    (0..a * b * c * d).map(move |i| (i / (b * c * d), i / (c * d) % b, i / d % c, i % d))
}

#[cfg(test)]
mod tests {
    use super::*;
    use crate::mistakes::Mistake;
    use crate::model::Model;

    /// Whether a part of the set tells.
    fn tells(set: fn(&mut Session, &mut Thin, u8) -> Outcome, mistake: Option<Mistake>) -> bool {
        let model = Model::with(mistake);
        let mut thin = Thin::one_of(16);
        (0..2).any(|part| set(&mut Session::new(&model, false), &mut thin, part).is_err())
    }

    #[test]
    fn chroma_offsets_of_the_wrong_plane_are_told() {
        let wrong = [
            Mistake::UByOffsetOfV,
            Mistake::VByOffsetOfU,
            Mistake::BesideByOffsetOfU,
            Mistake::ChromaOffsetsExchanged,
            Mistake::ChromaOffsetsAdded,
        ];
        for set in [every_pair_of_chroma_qps, every_pair_of_chroma_offsets] {
            assert!(!tells(set, None));
            assert_eq!(wrong.into_iter().find(|mistake| !tells(set, Some(*mistake))), None);
        }
        let in_one_call = [Mistake::RowsByOffsetOfU, Mistake::VisitByOffsetOfU, Mistake::FieldByOffsetOfU];
        assert!(in_one_call.into_iter().all(|mistake| tells(every_pair_of_chroma_offsets, Some(mistake))));
        for mistake in [Mistake::OffsetOfUUnasked, Mistake::OffsetOfVUnasked] {
            assert!(tells(|s, _, part| every_limit_of_offsets(s, part), Some(mistake)));
        }
    }
}
