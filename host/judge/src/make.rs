//! Random requests to which no refusal applies (a visit or an untrue kind may still be refused, as the table
//! says).

use crate::make_tables;
use crate::request::{Call, Request, Structure};
use inputs::{strengths, texture, Content, Rng, Texture};

/// A size of at most `area` macroblocks; long thin pictures come up often.
pub fn size(r: &mut Rng, area: usize) -> (usize, usize) {
    let side = area.min(256);
    let w = 1 + r.below(side);
    let w = if r.once_in(2) { 1 + r.below(w) } else { w };
    let h = 1 + r.below((area / w).clamp(1, 256));
    if r.once_in(2) {
        (w, h)
    } else {
        (h, w)
    }
}

/// A filtering call on a picture of any content, for random rows or a random macroblock. In one of two V's
/// chroma offset is drawn apart from U's.
pub fn picture(r: &mut Rng, of: Structure, call: Call, w: usize, h: usize) -> Request {
    let mut q = picture_of_one_offset(r, of, call, w, h);
    if r.once_in(2) {
        q.offsets[3] = if r.once_in(2) { r.pick(&[-12, 12, 0]) } else { r.within(-12, 12) };
    }
    q
}

/// The same with U's chroma offset for V too, as the original has it.
pub fn picture_of_one_offset(r: &mut Rng, of: Structure, call: Call, w: usize, h: usize) -> Request {
    let n = w * h;
    let mut q = Request::new(call, w, h);
    q.part = part(r, of, &[1, 2]);
    (q.x, q.y) = (r.below(w), r.below(h));
    q.first = r.below(h + 1);
    q.last = q.first + r.below(h - q.first + 1);
    let look = look(r);
    planes(r, of, &mut q, look);
    let content =
        r.pick(&[Content::Intra, Content::Mixed, Content::Still, Content::Wild, Content::Wild, Content::Wild]);
    q.strengths = strengths(r, n, content).into();
    q.qps = qps(r, n).into();
    q.t8s = match r.below(4) {
        0 => Vec::new(),
        1 => vec![1; n],
        _ => (0..n).map(|_| r.below(2) as u8).collect(),
    }
    .into();
    let [a, b, chroma] = match r.below(3) {
        0 => [0; 3],
        1 => [r.pick(&[-12, 12, 0]), r.pick(&[-12, 12, 0]), r.pick(&[-12, 12, 0])],
        _ => [r.within(-12, 12), r.within(-12, 12), r.within(-12, 12)],
    };
    q.offsets = [a, b, chroma, chroma];
    if call == Call::Visit {
        q.marks = (0..n).map(|_| !r.once_in(6) as u8).collect::<Vec<u8>>().into();
        let at = q.at();
        q.marks[at] = r.once_in(8) as u8;
    }
    q
}

/// 0 for a frame, one of these for a field.
fn part(r: &mut Rng, of: Structure, fields: &[u8]) -> u8 {
    match of {
        Structure::Frame => 0,
        Structure::Field => r.pick(fields),
    }
}

/// Planes that look so. Of a field's frame the bottom field is the top one turned around.
pub fn planes(r: &mut Rng, of: Structure, q: &mut Request, look: Texture) {
    let mut plane = |side: usize| {
        let line = side * q.w;
        let own = texture(r, line, side * q.h, look);
        let Structure::Field = of else { return own };
        let turned: Vec<u8> = own.iter().rev().copied().collect();
        own.chunks(line).zip(turned.chunks(line)).flat_map(|(top, bottom)| [top, bottom]).collect::<Vec<_>>().concat()
    };
    (q.luma, q.u, q.v) = (plane(16).into(), plane(8).into(), plane(8).into());
}

/// Flat, blocky, noisy and saturated planes.
fn look(r: &mut Rng) -> Texture {
    let base = r.pick(&[0, 2, 60, 128, 128, 190, 253, 255]);
    match r.below(5) {
        0 => Texture { step: 0, noise: 0, base },
        1 => Texture { step: r.within(1, 5), noise: 0, base },
        2 => Texture { step: r.within(1, 9), noise: r.within(0, 2), base },
        3 => Texture { step: r.within(5, 40), noise: r.within(0, 12), base },
        _ => Texture { step: 255, noise: r.within(0, 255), base },
    }
}

fn qps(r: &mut Rng, n: usize) -> Vec<u8> {
    let (low, high) = match r.below(4) {
        0 => (0, 51),
        1 => (28, 51),
        2 => {
            let low = r.within(0, 51);
            (low, r.within(low, 51))
        }
        _ => (51, 51),
    };
    (0..n).map(|_| r.within(low, high) as u8).collect()
}

/// A strength call on grids of mixed macroblocks, asked with what is true most of the time.
pub fn grids(r: &mut Rng, of: Structure, call: Call, w: usize, h: usize) -> Request {
    let mut q = blocks(r, of, call, w, h);
    q.t8s = match r.below(4) {
        0 => Vec::new(),
        1 => vec![0; w * h],
        2 => vec![1; w * h],
        _ => (0..w * h).map(|_| r.below(2) as u8).collect(),
    }
    .into();
    if r.once_in(3) {
        spread_counts(&mut q);
    }
    make_tables::lend(r, &mut q);
    place(r, &mut q);
    q
}

/// Under the 8x8 flag no count tells a block from its 8x8 block any more: all four get the largest.
pub fn spread_counts(q: &mut Request) {
    let line = 4 * q.w;
    for i in 0..4 * q.w * q.h {
        let corner = i / (2 * q.w) * 2 * line + i % (2 * q.w) * 2;
        if q.t8s.get(q.macroblock_of(corner)) == Some(&1) {
            let four = [corner, corner + 1, corner + line, corner + line + 1];
            let count = four.map(|block| q.nnz[block]).into_iter().max().expect("there are four");
            four.into_iter().for_each(|block| q.nnz[block] = count);
        }
    }
}

/// The grids of 4x4 blocks alone, for the last macroblock.
pub fn blocks(r: &mut Rng, of: Structure, call: Call, w: usize, h: usize) -> Request {
    let n = 16 * w * h;
    let mut q = Request::new(call, w, h);
    q.part = part(r, of, &[1, 2, 128, 255]);
    let list_1 = r.once_in(2);
    q.inter = vec![0; n].into();
    q.nnz = vec![0; n].into();
    q.ref0 = vec![0; n].into();
    q.mv0 = vec![0; 2 * n].into();
    q.ref1 = vec![0; if list_1 { n } else { 0 }].into();
    q.mv1 = vec![0; if list_1 { 2 * n } else { 0 }].into();
    // what was there before is not read: any bytes will do
    q.strengths = (0..2 * n).map(|_| r.bits() as u8).collect::<Vec<u8>>().into();
    let motions = Motions::new(r, of);
    for m in 0..w * h {
        (q.x, q.y) = (m % w, m / w);
        macroblock(r, &mut q, &motions);
    }
    q
}

/// Another macroblock of the same grids, or another row, and what is said of it.
pub fn place(r: &mut Rng, q: &mut Request) {
    (q.x, q.y) = (r.below(q.w), r.below(q.h));
    if q.call == Call::StrengthsRow {
        q.kinds = kinds(r, q).into();
        return;
    }
    q.flat = r.pick(&[0, 0, 1, 128]);
    q.uniform = r.pick(&[0, 0, 1, 2]);
    let truths = truths(q);
    q.kind = if truths.is_empty() || r.once_in(8) { r.below(4) as u8 } else { r.pick(&truths) };
}

/// The kinds with which the call is taken.
fn truths(q: &mut Request) -> Vec<u8> {
    let mut is_true = |kind: &u8| {
        q.kind = *kind;
        crate::table::answer(q) == 0
    };
    (0..4).filter(|kind| is_true(kind)).collect()
}

/// Kinds for a row of strengths: none in one of three, else true ones of the row, in one of four but for one
/// macroblock of it, and any of the other rows.
fn kinds(r: &mut Rng, q: &Request) -> Vec<u8> {
    if r.once_in(3) {
        return Vec::new();
    }
    let mut kinds: Vec<u8> = (0..q.w * q.h).map(|_| r.pick(&[0, 1, 2, 3, 4, 255])).collect();
    let mut single = Request { call: Call::Kind, ..q.clone() };
    let row = &mut kinds[q.w * q.y..][..q.w];
    for (x, own) in row.iter_mut().enumerate() {
        single.x = x;
        *own = r.pick(&truths(&mut single));
    }
    if r.once_in(4) {
        row[r.below(q.w)] = r.below(5) as u8;
    }
    kinds
}

/// The references and vectors of a picture: few, so that equal and nearly equal ones meet.
struct Motions {
    refs: Vec<i8>,
    across: Vec<i16>,
    down: Vec<i16>,
}

impl Motions {
    fn new(r: &mut Rng, of: Structure) -> Motions {
        let base = r.pick(&[0, 0, 7, -100, i16::MAX - 4, i16::MIN + 4]);
        let further = if r.once_in(3) { &[i16::MIN, i16::MAX, -1, 1, 32, -32][..] } else { &[] };
        let around = |steps: [i16; 7]| [&steps.map(|s| base + s)[..], further].concat();
        let across = [-4, -3, 0, 0, 0, 3, 4];
        let down = if of == Structure::Field { [-2, -1, 0, 0, 0, 1, 2] } else { across };
        let refs = r.pick(&[&[-1, 0][..], &[0, 1], &[-1, 0, 1], &[5, 7], &[-1, 0, 1, 63, 126, 127], &[-1]]);
        Motions { refs: refs.to_vec(), across: around(across), down: around(down) }
    }

    fn block(&self, r: &mut Rng) -> (i8, i16, i16) {
        (r.pick(&self.refs), r.pick(&self.across), r.pick(&self.down))
    }
}

/// Fills macroblock (x, y): intra, flat, uniform, in halves or quarters, or every block on its own.
fn macroblock(r: &mut Rng, q: &mut Request, motions: &Motions) {
    let shape = r.below(7);
    let counts = r.below(4);
    let parts: Vec<_> = (0..16).map(|_| (motions.block(r), motions.block(r))).collect();
    for i in 0..16 {
        let (bx, by) = (i % 4, i / 4);
        let part = match shape {
            0..=2 => 0,
            3 => bx / 2,
            4 => by / 2,
            5 => bx / 2 + 2 * (by / 2),
            _ => i,
        };
        let (list_0, list_1) = parts[part];
        let b = (4 * q.y + by) * 4 * q.w + 4 * q.x + bx;
        q.inter[b] = (shape != 0) as u8;
        q.nnz[b] = match counts {
            0 => 0,
            1 => r.pick(&[0, 0, 0, 1]),
            2 => r.bits() as u8,
            _ if shape == 1 => 0,
            _ => r.pick(&[0, 255]),
        };
        (q.ref0[b], q.mv0[2 * b], q.mv0[2 * b + 1]) = list_0;
        if !q.ref1.is_empty() {
            (q.ref1[b], q.mv1[2 * b], q.mv1[2 * b + 1]) = list_1;
        }
    }
}

#[cfg(test)]
mod tests {
    use super::*;
    use crate::request::FILTER_CALLS;

    /// Of a call about half have two chroma offsets, and each limit comes up beside each.
    #[test]
    fn chroma_offsets_are_one_or_two() {
        let mut r = Rng::new(1);
        for (of, call) in
            [Structure::Frame, Structure::Field].into_iter().flat_map(|of| FILTER_CALLS.map(|call| (of, call)))
        {
            let offsets: Vec<[i32; 4]> = (0..1000).map(|_| picture(&mut r, of, call, 1, 1).offsets).collect();
            let two = offsets.iter().filter(|[.., chroma_u, chroma_v]| chroma_u != chroma_v).count();
            assert!((400..600).contains(&two), "{two}");
            for limits in [[-12, -12], [-12, 12], [12, -12], [12, 12]] {
                assert!(offsets.iter().any(|offsets| offsets[2..] == limits), "{limits:?}");
            }
        }
    }
}
