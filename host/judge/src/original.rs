//! What the Rust original makes of a call that is not refused.
//!
//! It has no fields. Of one it is asked as far as a field is a frame of its own: the field's lines are taken
//! out as such a frame and put back; vertical motion is lent in quarter samples of the frame, of which a
//! field's is two (clause 8.7.2.1), and counted from the first block's, since only differences tell; and the
//! strength 4, which a field's upper edges do not have, becomes 3 there.
//!
//! Nor does it know coefficients of 8x8 blocks. Where an 8x8 flag that is read is set it is asked as long as
//! no count tells a block from its 8x8 block.
//!
//! A row of strengths it is asked about macroblock by macroblock: about all of them, or about none.
//!
//! Reference tables are lent as its lists `poc0` and `poc1`. Where both are empty identity lists stand in
//! their place, since without lists it takes -1 for a picture. With tables it can be asked about all that is
//! taken: where just one is empty it would compare numbers with pictures, but that is refused, unless it is
//! that of a list 1 that is not lent, at which it does not look; and -2^31, its NO_REF, is refused as an
//! entry.
//!
//! It has one chroma offset. Where U's and V's differ it is asked twice, once with each: luma must be the
//! same of both, U is taken from the first answer and V from the second.
//!
//! It has no slices. Where all macroblocks that a call filters are of one slice of mode 0 it is asked with
//! that slice's A and B. Elsewhere it is asked once for each chunk of a row whose macroblocks have the same A
//! and B, in raster order, with strength 0 in all other macroblocks and on every edge that a mode leaves.

use crate::request::{Buffer, Call, Request, Structure};
use crate::table;
use deblock::SliceRecord;
use oracle::{Blocks, Grids, Offsets, Planes, Stored};

/// Whether the original has just what is asked for: a frame, for a strength call no 8x8 flag that is set, for
/// a filtering call one chroma offset and one slice of mode 0.
pub fn decides(r: &Request) -> bool {
    let is_beyond = match r.call.is_strengths() {
        true => reads_flag(r),
        false => is_asked_twice(r) || is_asked_by_chunks(r),
    };
    r.structure() == Structure::Frame && !is_beyond
}

/// Whether a call with slices filters macroblocks of other slices than one of mode 0.
pub fn is_asked_by_chunks(r: &Request) -> bool {
    let mut filtered = table::macroblocks_read(r);
    let first = filtered.start;
    r.sliced && filtered.any(|m| r.numbers[m] != r.numbers[first] || r.record(m).mode != 0)
}

/// Whether a filtering call has two chroma offsets.
pub fn is_asked_twice(r: &Request) -> bool {
    let [.., chroma_u, chroma_v] = r.offsets;
    !r.call.is_strengths() && chroma_u != chroma_v
}

/// Whether an 8x8 flag that is read is set.
fn reads_flag(r: &Request) -> bool {
    table::flags_read(r).iter().any(|&m| r.t8s[m] == 1)
}

/// Puts the request into the state that the call leaves; false if the original cannot be asked.
pub fn work(r: &mut Request) -> bool {
    match (r.structure(), r.call.is_strengths()) {
        (_, true) if !knows_counts(r) => return false,
        (Structure::Frame, true) => strengths(r),
        (Structure::Frame, false) => planes(r),
        (Structure::Field, true) => return field_strengths(r),
        (Structure::Field, false) => field_planes(r),
    }
    true
}

/// Whether the original's strengths are those of the rules: where a flag is set, the counts of each 8x8 block
/// are all 0 or all not, and the flag is not the own one of a macroblock that is told by kind, since the
/// original takes none there.
fn knows_counts(r: &Request) -> bool {
    let is_8x8 = |m: usize| r.t8s.get(m) == Some(&1);
    let line = 4 * r.w;
    let corner = |block: usize| block / line / 2 * 2 * line + block % line / 2 * 2;
    let is_alike = |block: usize| (r.nnz[block] != 0) == (r.nnz[corner(block)] != 0);
    let alike = || table::counts_read(r).into_iter().all(|block| is_alike(block) || !is_8x8(r.macroblock_of(block)));
    let by_kind = |m: usize| r.kind_of(m).is_some() && is_8x8(m);
    !reads_flag(r) || !table::macroblocks_written(r).any(by_kind) && alike()
}

/// What a strength call of the original is lent.
pub fn lent(r: &Request) -> Grids<'_> {
    let Request { inter, nnz, ref0, mv0, ref1, mv1, pictures0, pictures1, .. } = r;
    Grids { inter, nnz, ref0, mv0, ref1, mv1, pictures0, pictures1 }
}

fn strengths(r: &mut Request) {
    let blocks = Blocks::new(r.w, lent(r));
    for m in table::macroblocks_written(r) {
        let (x, t8) = (m % r.w, r.t8s.get(m) == Some(&1));
        let own = match (r.kind_of(m), r.call) {
            (Some(kind), _) => blocks.by_kind(x, r.y, kind),
            (None, Call::Flags) => blocks.by_flags(x, r.y, r.flat != 0, r.uniform != 0, t8),
            _ => blocks.flagless(x, r.y, t8),
        };
        r.strengths[32 * m..][..32].copy_from_slice(&own);
    }
}

fn planes(r: &mut Request) {
    let [.., chroma_u, chroma_v] = r.offsets;
    let second = is_asked_twice(r).then(|| r.clone());
    planes_by_chroma(r, chroma_u);
    if let Some(mut second) = second {
        planes_by_chroma(&mut second, chroma_v);
        assert!(second.luma == r.luma, "luma is the same with every chroma offset");
        r.v = second.v;
    }
}

fn planes_by_chroma(r: &mut Request, chroma: i32) {
    if is_asked_by_chunks(r) {
        return by_chunks(r, chroma);
    }
    let [a, b, ..] = r.offsets;
    let own = table::macroblocks_read(r).next().filter(|_| r.sliced).map(|m| slice_offsets(r, m, chroma));
    planes_by(r, own.unwrap_or(Offsets { a, b, chroma }));
}

fn slice_offsets(r: &Request, m: usize, chroma: i32) -> Offsets {
    let SliceRecord { a, b, .. } = r.record(m);
    Offsets { a: a.into(), b: b.into(), chroma }
}

/// One call for each chunk of a row whose macroblocks have the same A and B.
fn by_chunks(r: &mut Request, chroma: i32) {
    let (w, at) = (r.w, r.at());
    let filtered: Vec<(usize, Offsets)> =
        table::macroblocks_read(r).map(|m| (m, slice_offsets(r, m, chroma))).collect();
    let mut stored = Stored::blank(w, r.h, &r.qps, &r.t8s);
    for chunk in filtered.chunk_by(|(_, own), (next, others)| next % w > 0 && own == others) {
        chunk.iter().for_each(|&(m, _)| stored.set(m, &left_by_mode(r, m)));
        let (row, offsets) = (chunk[0].0 / w, chunk[0].1);
        stored.filter_rows(Planes { luma: &mut r.luma, u: &mut r.u, v: &mut r.v }, row..row + 1, offsets);
        chunk.iter().for_each(|&(m, _)| stored.set(m, &[0; 32]));
    }
    if r.call == Call::Visit {
        r.marks[at] = 1;
    }
}

/// The strengths of a macroblock, 0 on the edges that its slice's mode leaves.
fn left_by_mode(r: &Request, m: usize) -> [u8; 32] {
    let mut own: [u8; 32] = std::array::from_fn(|i| r.strengths[32 * m + i]);
    let is_other = |other: usize| r.numbers[other] != r.numbers[m];
    match r.record(m).mode {
        0 => {}
        1 => own = [0; 32],
        _ => {
            if !m.is_multiple_of(r.w) && is_other(m - 1) {
                own[..4].fill(0);
            }
            if m >= r.w && is_other(m - r.w) {
                own[16..20].fill(0);
            }
        }
    }
    own
}

fn planes_by(r: &mut Request, offsets: Offsets) {
    let at = r.at();
    let planes = Planes { luma: &mut r.luma, u: &mut r.u, v: &mut r.v };
    if r.call == Call::Visit {
        // one macroblock: every other strength is 0
        let mut stored = Stored::blank(r.w, r.h, &r.qps, &r.t8s);
        stored.set(at, &r.strengths[32 * at..][..32]);
        stored.filter_rows(planes, r.y..r.y + 1, offsets);
        r.marks[at] = 1;
        return;
    }
    let stored = Stored::new(r.w, r.h, &r.strengths, &r.qps, &r.t8s);
    match r.call {
        Call::Whole => stored.filter_frame(planes, offsets),
        _ => stored.filter_rows(planes, r.first..r.last, offsets),
    }
}

/// False where motion that is twice as long is out of the original's range.
fn field_strengths(r: &mut Request) -> bool {
    let first = r.mv0[1];
    let Some((mv0, mv1)) = doubled(&r.mv0, first).zip(doubled(&r.mv1, first)) else { return false };
    let mut frame = Request { part: 0, mv0, mv1, ..r.clone() };
    strengths(&mut frame);
    r.strengths = frame.strengths;
    for m in table::macroblocks_written(r) {
        r.strengths[32 * m + 16..][..4].iter_mut().for_each(|s| *s = 3.min(*s));
    }
    true
}

/// The same vectors with twice the vertical motion, counted from `first`.
fn doubled(mv: &[i16], first: i16) -> Option<Buffer<i16>> {
    let down = |v: i16| v.checked_sub(first)?.checked_mul(2);
    let parts = mv.iter().enumerate().map(|(i, v)| if i % 2 == 1 { down(*v) } else { Some(*v) });
    Some(parts.collect::<Option<Vec<i16>>>()?.into())
}

fn field_planes(r: &mut Request) {
    let parity = usize::from(r.part) - 1;
    let mut frame = Request { part: 0, ..r.clone() };
    for (plane, line) in [(&mut frame.luma, 16 * r.w), (&mut frame.u, 8 * r.w), (&mut frame.v, 8 * r.w)] {
        *plane = plane.chunks(line).skip(parity).step_by(2).collect::<Vec<&[u8]>>().concat().into();
    }
    planes(&mut frame);
    let pairs = [(&mut r.luma, &frame.luma, 16), (&mut r.u, &frame.u, 8), (&mut r.v, &frame.v, 8)];
    for (plane, field, side) in pairs {
        let line = side * r.w;
        let own = plane.chunks_mut(line).skip(parity).step_by(2);
        own.zip(field.chunks(line)).for_each(|(to, from)| to.copy_from_slice(from));
    }
    r.marks = frame.marks;
}

#[cfg(test)]
mod tests {
    use super::*;
    use crate::request::FILTER_CALLS;
    use crate::small::{blocky, kinds_picture};

    /// U is that of U's chroma offset for both planes, V that of V's. At QP 24 chroma offset -12 filters
    /// nothing.
    #[test]
    fn two_chroma_offsets_are_asked_about_one_by_one() {
        for (part, call) in (0..3).flat_map(|part| FILTER_CALLS.map(|call| (part, call))) {
            let with = |chroma_u: i32, chroma_v: i32| {
                let mut q = blocky(part, call, 1, 1, 5);
                q.strengths.fill(3);
                q.qps.fill(24);
                q.offsets[2..].copy_from_slice(&[chroma_u, chroma_v]);
                assert_eq!(decides(&q), part == 0 && chroma_u == chroma_v);
                assert!(work(&mut q));
                q
            };
            let (low, high, apart) = (with(-12, -12), with(12, 12), with(-12, 12));
            assert!(apart.luma == low.luma && apart.luma == high.luma);
            assert!(apart.u == low.u && apart.u != high.u && apart.v == high.v && apart.v != low.v);
        }
    }

    /// 2 by 2 macroblocks of two slices, the second in the lower right corner alone; a visit is that of the
    /// corner.
    fn by_slices(call: Call, [first, second]: [(u8, i8, i8); 2]) -> Request {
        let mut q = blocky(0, call, 2, 2, 5);
        (q.x, q.y, q.sliced) = (1, 1, true);
        q.strengths.fill(3);
        q.slices = [first, second].map(|(mode, a, b)| SliceRecord { mode, a, b }).to_vec().into();
        q.numbers = vec![0, 0, 0, 1].into();
        q.marks.iter_mut().skip(3).for_each(|mark| *mark = 0);
        q
    }

    /// What the plain call makes of the same with these offsets, and strength 0 on these edges of the corner.
    fn plainly(q: &Request, [a, b]: [i32; 2], edges: &[usize]) -> Request {
        let mut plain = Request { sliced: false, offsets: [a, b, 0, 0], ..q.clone() };
        edges.iter().for_each(|edge| plain.strengths[96 + 4 * edge..][..4].fill(0));
        assert!(decides(&plain) && work(&mut plain));
        plain
    }

    #[test]
    fn one_slice_of_mode_0_is_decided() {
        for call in FILTER_CALLS {
            let one = Request { numbers: vec![1; 4].into(), ..by_slices(call, [(1, 9, 9), (0, 3, -2)]) };
            assert!(decides(&one) && !decides(&Request { part: 1, ..one.clone() }));
            let mut after = one.clone();
            assert!(work(&mut after));
            assert!(after.luma == plainly(&one, [3, -2], &[]).luma && after.luma != one.luma);
            for mode in [1, 2] {
                let one = Request { numbers: vec![1; 4].into(), ..by_slices(call, [(0, 0, 0), (mode, 0, 0)]) };
                assert!(!decides(&one));
            }
            let two = by_slices(call, [(0, 0, 0), (0, 0, 0)]);
            assert_eq!(decides(&two), call == Call::Visit, "a visit filters one slice alone");
        }
    }

    #[test]
    fn modes_are_asked_about_by_strengths() {
        for (call, mode, edges) in
            FILTER_CALLS.into_iter().flat_map(|call| [(call, 1, &[0, 1, 2, 3, 4, 5, 6, 7][..]), (call, 2, &[0, 4])])
        {
            let q = by_slices(call, [(0, 0, 0), (mode, 0, 0)]);
            let mut after = q.clone();
            assert!(work(&mut after));
            let plain = plainly(&q, [0, 0], edges);
            assert!(after.luma == plain.luma && after.u == plain.u && after.v == plain.v);
            assert!(after.marks == plain.marks);
            assert!(after.luma != plainly(&q, [0, 0], &[]).luma);
        }
    }

    /// The corner is asked about with its own offsets, its outer edges too: what is above it and to its left
    /// is as with the others'.
    #[test]
    fn offsets_are_asked_about_by_chunks() {
        let q = by_slices(Call::Whole, [(0, 0, 0), (0, -12, -12)]);
        let mut after = q.clone();
        assert!(work(&mut after));
        let corner = Request { offsets: [-12, -12, 0, 0], ..plainly(&q, [0, 0], &[0, 1, 2, 3, 4, 5, 6, 7]) };
        let mut corner =
            Request { call: Call::Visit, marks: vec![1, 1, 1, 0].into(), strengths: q.strengths, ..corner };
        assert!(work(&mut corner));
        assert!(after.luma == corner.luma && after.u == corner.u && after.v == corner.v);
    }

    /// Of (1, 0) in 2 by 1 of one motion, with these 8x8 flags and counts that tell blocks from their 8x8
    /// blocks in both: whether the original is asked, and whether it is once the counts are spread.
    fn asked(call: Call, t8s: [u8; 2]) -> [bool; 2] {
        let mut q = kinds_picture(0, 2, 1, &[4; 2]);
        (q.call, q.kind, q.x, q.t8s) = (call, 3, 1, t8s.to_vec().into());
        q.nnz[2] = 1;
        let mut spread = q.clone();
        crate::make::spread_counts(&mut spread);
        [work(&mut q), work(&mut spread)]
    }

    /// Of a lone macroblock whose block 0 has this reference in list 0 and the others have that one, with no
    /// list 1: whether 1 stands around block 0. The original decides, in a field it is asked.
    fn tells_apart(references: [i8; 2], vector: i16, tables: [&[i32]; 2]) -> bool {
        let around = [0, 1].map(|part| {
            let mut q = kinds_picture(part, 1, 1, &[2]);
            (q.call, q.ref1, q.mv1) = (Call::Flagless, Buffer::default(), Buffer::default());
            q.ref0.fill(references[1]);
            (q.ref0[0], q.mv0[0]) = (references[0], vector);
            (q.pictures0, q.pictures1) = (tables[0].to_vec().into(), tables[1].to_vec().into());
            assert_eq!((table::answer(&q), decides(&q)), (0, part == 0));
            assert!(work(&mut q));
            assert!(q.strengths.iter().enumerate().all(|(i, s)| *s == 0 || (i == 4 || i == 20) && *s == 1));
            q.strengths[4] == 1
        });
        assert_eq!(around[0], around[1]);
        around[0]
    }

    #[test]
    fn tables_are_its_lists() {
        let plain = [[0, 0], [0, 1], [127, 0], [-1, 0], [-1, -1]].map(|refs| tells_apart(refs, 0, [&[], &[]]));
        assert_eq!(plain, [false, true, true, true, false]);
        for second in [&[][..], &[3]] {
            let lent = |refs, table| tells_apart(refs, 0, [table, second]);
            assert_eq!([lent([0, 1], &[7, 7]), lent([0, 1], &[7, 9]), lent([0, 1], &[7])], [false, true, true]);
            assert_eq!([lent([-1, 2], &[7, 7]), lent([127, 2], &[7, 7]), lent([0, -1], &[7])], [false, false, true]);
        }
        let far = |reference, tables| tells_apart([reference; 2], 4, tables);
        assert_eq!([far(0, [&[], &[]]), far(0, [&[7], &[]]), far(1, [&[7], &[]])], [true, true, false]);
        assert_eq!([far(-1, [&[], &[]]), far(-1, [&[7], &[]])], [false; 2]);
    }

    #[test]
    fn counts_that_tell_a_block_from_its_8x8_block_are_not_asked_about() {
        for call in [Call::Flags, Call::Flagless] {
            assert_eq!([[0, 0], [0, 1], [1, 0]].map(|t8s| asked(call, t8s)), [[true; 2], [false, true], [false, true]]);
        }
        let kinds = [[0, 0], [0, 1], [1, 0]].map(|t8s| asked(Call::Kind, t8s));
        assert_eq!(kinds, [[true; 2], [false; 2], [false, true]]);
        // of a row no macroblock may stand in the way
        let row = [[0, 0], [0, 1], [1, 0]].map(|t8s| asked(Call::StrengthsRow, t8s));
        assert_eq!(row, [[true; 2], [false, true], [false, true]]);
    }

    /// A row of 3 by 2, of which nothing is known or by kinds, is what the single calls of it are.
    #[test]
    fn a_row_is_asked_about_macroblock_by_macroblock() {
        for (part, y, kinds) in [0, 1].into_iter().flat_map(|part| [(part, 0, true), (part, 1, true), (part, 1, false)])
        {
            let mut row = kinds_picture(part, 3, 2, &[7, 0, 4, 5, 2, 0]);
            (row.call, row.y) = (Call::StrengthsRow, y);
            row.kinds = if kinds { vec![3, 0, 2, 3, 1, 0].into() } else { Buffer::default() };
            assert_eq!(table::answer(&row), 0);
            let mut singles = row.clone();
            (0..3).for_each(|x| {
                singles.turn_to(x);
                assert!(work(&mut singles));
            });
            assert!(work(&mut row) && row.strengths == singles.strengths);
            assert!(row.strengths[96 * (1 - y)..][..96] == [200; 96]);
        }
    }
}
