//! Of fields alone: everything, where everything is few.

use crate::refusals::{self, Sure};
use crate::request::{Call, Request, FILTER_CALLS, STRENGTH_CALLS};
use crate::session::{Outcome, Session};
use crate::small::{blocky, product, two_macroblocks, Thin};
use crate::table;
use deblock::SliceRecord;

pub fn run(s: &mut Session, thin: &mut Thin) -> Outcome {
    every_part(s)?;
    every_difference(s, thin)?;
    every_pair_of_refusals(s)
}

/// Every byte for the part, in every call: with planes of a frame and with those of two fields, in an empty
/// range of rows and not, with one slice and without; a strength call, which any byte but 0 tells of a field,
/// side by side and one above the other, and under an intra macroblock.
fn every_part(s: &mut Session) -> Outcome {
    for (part, second, call, third) in product([256, 2, STRENGTH_CALLS.len(), 2]) {
        let part = part as u8;
        if let Some(filter) = FILTER_CALLS.get(call) {
            let q = Request { part, first: 2 * third, ..ready(second as u8, *filter) };
            s.check("parts", &q)?;
            s.check("parts", &with_one_slice(q))?;
        }
        let mut q = two_macroblocks(part, 2 - second, 1 + second, [[(5, (0, 0)); 2], [(5, (0, 2)); 2]]);
        q.inter[..16 * second * third].fill(0);
        (q.call, q.kind, q.kinds) = (STRENGTH_CALLS[call], 3, vec![3; 2].into());
        s.check("parts", &q)?;
    }
    Ok(())
}

fn with_one_slice(q: Request) -> Request {
    let whole = SliceRecord { mode: 0, a: 0, b: 0 };
    Request { sliced: true, slices: vec![whole].into(), numbers: vec![0; q.w * q.h].into(), ..q }
}

/// A filtering call on 2 by 2 macroblocks, for a visit on the last of them.
fn ready(part: u8, call: Call) -> Request {
    let mut q = blocky(part, call, 2, 2, 1);
    (q.x, q.y) = (1, 1);
    q.strengths.fill(3);
    q.t8s = vec![0; 4].into();
    q.marks.iter_mut().skip(3).for_each(|mark| *mark = 0);
    q
}

/// Every small difference of two vectors, in either list, side by side and one above the other, in the middle
/// and at the ends of 16 bits.
fn every_difference(s: &mut Session, thin: &mut Thin) -> Outcome {
    for (across, down, list, base) in product([13, 13, 2, 3]) {
        let base = [0, i16::MAX - 6, i16::MIN + 6][base];
        let other = (base + across as i16 - 6, base + down as i16 - 6);
        for (w, h) in [(2, 1), (1, 2)] {
            let mut lists = [[(-1, (0, 0)); 2]; 2];
            (lists[0][list], lists[1][list]) = ((5, (base, base)), (5, other));
            if thin.takes() {
                s.check("small", &two_macroblocks(1, w, h, lists))?;
            }
        }
    }
    Ok(())
}

/// What each refusal of a call on two fields of 2 by 2 macroblocks is sure to come of, in the order in which
/// they are asked.
const SURE: [Sure; 13] = [
    (1, |q| q.h = 257),
    (2, |q| (q.x, q.last) = (2, 3)),
    (19, |q| q.part = 3),
    (3, |q| q.v.resize(127, 0)),
    (4, |q| q.qps.resize(5, 0)),
    (6, |q| q.offsets[1] = 13),
    (6, |q| q.offsets[2] = 13),
    (6, |q| q.offsets[3] = -13),
    (7, |q| q.t8s[3] = 2),
    (8, |q| q.qps[3] = 52),
    (9, |q| q.strengths[127] = 5),
    (13, |q| q.marks[3] = 1),
    (14, |q| q.marks[2] = 0),
];

/// Each alone and each with each, in both fields.
fn every_pair_of_refusals(s: &mut Session) -> Outcome {
    for (first, second, call, field) in product([SURE.len(), SURE.len(), 3, 2]) {
        let call = FILTER_CALLS[call];
        if [first, second].iter().all(|i| table::can_give(call, false, SURE[*i].0)) {
            refusals::pair(s, ready(1 + field as u8, call), &SURE, first, second)?;
        }
    }
    Ok(())
}
