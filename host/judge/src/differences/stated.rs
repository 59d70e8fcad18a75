//! The differences that are no refusals, from the original or from the standard, each with what can be run of
//! it.

use super::rows::{around_block_0, unlisted};
use super::{edge, inter, intra, original, picture, strengths};
use crate::request::{Call, Request, SINGLE_CALLS};
use crate::subject::{Archive, Subject};
use deblock::SliceRecord;
use oracle::{Offsets, Planes, Stored};

/// A row, and whether what it says of the archive and of the original is so. What it says of the standard, of
/// the original's accelerated build and of the decoder around it cannot be run here.
pub struct Stated {
    pub what: &'static str,
    pub input: &'static str,
    pub here: &'static str,
    pub elsewhere: &'static str,
    pub holds: fn(&Archive) -> bool,
}

pub const STATED: &[Stated] = &[
    Stated {
        what: "strength 4 on an inner edge",
        input: "a luma line 60 60 60 60 \\| 67 67 67 67 at index 30, strength 4, on any edge",
        here: "60 61 62 63 \\| 64 65 66 67, as the Rust",
        elsewhere: "the standard never yields strength 4 there",
        holds: strong_inside,
    },
    Stated {
        what: "odd filter offsets",
        input: "QP 15, offsets A and B 1",
        here: "index 16: alpha 4, beta 2, as the Rust",
        elsewhere: "the standard's offsets are even",
        holds: odd_offsets,
    },
    Stated {
        what: "offsets A, B of slices",
        input: "two macroblocks of QP 30, the second of a slice with FilterOffsetA 2",
        here: "with slices index 30 on the first one's edges and 32 on the second one's, the edge between them among \
               these, as the standard; a call without slices has one pair for the picture, as the Rust",
        elsewhere: "the Rust has one pair for the picture: 30, or 32, on every edge",
        holds: offsets_of_slices,
    },
    Stated {
        what: "filter modes of slices",
        input: "two macroblocks of two slices, the second with `disable_deblocking_filter_idc` 1 or 2",
        here: "with slices the edge between them is left, with 1 the second one's inner edges too, as the standard; a \
               call without slices filters them, as the Rust",
        elsewhere: "the Rust has no slices, and filters them; it leaves an edge on which strength 0 is stored. With \
                    slices demand 2 rests on the standard (ITU-T H.264 clauses 8.7 and 8.7.2.2) and on a model of it \
                    in `host/judge`, and recordings of a real decoder confirm it; with one slice of mode 0 the Rust \
                    decides",
        holds: modes_of_slices,
    },
    Stated {
        what: "coefficients under an 8x8 transform",
        input: "a macroblock with the 8x8 flag whose block 0 has a count and blocks 1, 4, 5 have none",
        here: "2 on the first half of both edges 2, as the standard, which asks whether the 8x8 block has \
               coefficients",
        elsewhere: "the Rust takes each 4x4 block's own count, so all strengths are 0; with a count in all four it \
                    gives the same. Where a count tells a block from its 8x8 block demand 2 rests on the standard \
                    (ITU-T H.264 clause 8.7.2.1) and on a model of it in `host/judge`, and recordings of a real \
                    decoder confirm it",
        holds: counts_under_8x8,
    },
    Stated {
        what: "coefficients of a neighbour's 8x8 block",
        input: "the strengths of (1, 0) in 2 by 1; the left macroblock has the 8x8 flag and a count in its block of \
                row 0, column 2 alone",
        here: "2 on the first two segments of the left edge, as the standard",
        elsewhere: "the Rust is not told a neighbour's flag: all strengths are 0",
        holds: counts_beside_8x8,
    },
    Stated {
        what: "a kind under an 8x8 transform",
        input: "kind Intra for a lone intra macroblock whose 8x8 flag is set",
        here: "0 on edges 1 and 3, as the standard, which has no transform edge there",
        elsewhere: "the Rust's `derive_mb_kind` takes no 8x8 flag, and leaves 3; no sample shows it, since luma skips \
                    these edges by the flag that filtering is lent, and chroma does not read them",
        holds: kinds_under_8x8,
    },
    Stated {
        what: "kind Inter for an intra macroblock",
        input: "a lone macroblock whose 16 inter bytes are 0",
        here: "refused with 12",
        elsewhere: "the Rust answers the strengths of an intra macroblock: 0 on the outer and 3 on the inner edges",
        holds: inter_for_intra,
    },
    Stated {
        what: "a luma edge with strengths 4 and others mixed",
        input: "segments 4, 3, 3, 3",
        here: "the first is filtered strongly, as the scalar Rust",
        elsewhere: "the Rust's accelerated build hands on -1 for it",
        holds: mixed_edge,
    },
    Stated {
        what: "`filter_frame_rows_pre` does not look at the 8x8 flag",
        input: "one macroblock with the 8x8 flag and strength 3 on vertical edge 1",
        here: "the edge is skipped, as by the Rust's `filter_frame` and `filter_frame_rows`",
        elsewhere: "the Rust's `filter_frame_rows_pre` filters it; without the flag both give the same",
        holds: pre_ignores_the_flag,
    },
    Stated {
        what: "one reference table a list for a picture",
        input: "two macroblocks of two slices, index 0 of list 0 in both, which is picture 7 in the first slice and \
                9 in the second",
        here: "by the table 7 both name one picture: 0 on the edge between them, as the Rust; a caller who stores 7 \
               and 9 and lends no tables gets what the standard does",
        elsewhere: "each slice has lists of its own in the standard: 1 on the edge between them",
        holds: one_table_a_list,
    },
    Stated {
        what: "`NO_REF`",
        input: "a lone inter macroblock with references -1, vector (4, 4) in block 0 and (0, 0) elsewhere",
        here: "-1 is no reference, with tables and without: all strengths are 0",
        elsewhere: "the Rust maps references through `poc0` and `poc1`. Runs against it lend our tables as these, and \
                    where both are empty identity lists, so that -1 becomes `NO_REF` (`i32::MIN`), and it answers \
                    the same; without lists it takes -1 as a picture, and 1 stands between block 0 and its neighbours",
        holds: no_ref,
    },
    Stated {
        what: "sizes",
        input: "257 by 1",
        here: "refused with 1: sides are 1 to 256, their product at most 36,864",
        elsewhere: "the Rust has no bounds, and filters it",
        holds: sizes,
    },
    Stated {
        what: "field pictures",
        input: "in a field, a macroblock under an intra one; a vector (0, 2) under (0, 0)",
        here: "3 and 1 on the edge between them, as the standard; a field is filtered as a picture of its own, on \
               every second line of its frame's planes",
        elsewhere: "the Rust has no field pictures; in a frame both have 4 and 0 there. Of fields demand 2 rests on \
                    the standard (ITU-T H.264 clause 8.7) and on a model of it in `host/judge`, and recordings of a \
                    real decoder confirm it",
        holds: fields,
    },
    Stated {
        what: "a chroma offset of V's own",
        input: "a step of 22 on an inner edge of U and V at QP 30, U's chroma offset 0 and V's 1",
        here: "QPC 29 for U, where the step stays, and 30 for V, where it is filtered, as the standard with \
               `chroma_qp_index_offset` 0 and `second_chroma_qp_index_offset` 1",
        elsewhere: "the Rust has one chroma offset: with 0 the step stays in U and V, with 1 it is filtered in both. \
                    Asked once with each, it gives our U first, then our V, and both times our luma. Where the two \
                    offsets differ demand 2 rests on the standard (ITU-T H.264 clauses 8.5.8 and 8.7.2.2) and on a \
                    model of it in `host/judge`, and recordings of a real decoder confirm it",
        holds: two_chroma_offsets,
    },
];

/// What the call leaves, if the archive takes it and the original leaves the same.
fn both(archive: &Archive, q: &Request) -> Option<Request> {
    let mut after = q.clone();
    let number = archive.call(&mut after);
    let seen = original(q);
    let same = match seen.own {
        Some(own) => own[..] == after.strengths[32 * q.at()..][..32],
        None => seen.after == after,
    };
    (number == 0 && seen.ended && same).then_some(after)
}

/// The 32 strengths of the request's macroblock, if archive and original agree on them.
fn own(archive: &Archive, q: &Request) -> Option<[u8; 32]> {
    both(archive, q)?.strengths[32 * q.at()..][..32].try_into().ok()
}

/// Those that the archive gives and those that the original gives, if the archive takes the call.
fn each(archive: &Archive, q: &Request) -> Option<[[u8; 32]; 2]> {
    let mut after = q.clone();
    let number = archive.call(&mut after);
    let here = after.strengths[32 * q.at()..][..32].try_into().ok()?;
    Some([here, original(q).own?]).filter(|_| number == 0)
}

/// A lone macroblock at QP 30 with these strengths on luma edge `e` alone, and in each plane `p` on one side
/// of the edge and `q` on the other.
fn step(e: usize, strength: u8, (p, q): (u8, u8)) -> Request {
    let plane = |side: usize, at: usize| -> Vec<u8> {
        let across = |i: usize| if e < 4 { i % side } else { i / side };
        (0..side * side).map(|i| if across(i) < at { p } else { q }).collect()
    };
    let mut r = picture(1, 1);
    r.strengths = edge(e, strength).to_vec().into();
    r.luma = plane(16, 4 * (e % 4)).into();
    r.u = plane(8, 2 * (e % 4)).into();
    r.v = r.u.clone();
    r
}

fn strong_inside(archive: &Archive) -> bool {
    [1, 2, 3, 5, 6, 7].into_iter().all(|e| {
        let Some(after) = both(archive, &step(e, 4, (60, 67))) else { return false };
        let (from, stride) = if e < 4 { (4 * e - 4, 1) } else { (16 * (4 * (e - 4) - 4), 16) };
        let line: Vec<u8> = (0..8).map(|i| after.luma[from + stride * i]).collect();
        line == [60, 61, 62, 63, 64, 65, 66, 67]
    })
}

/// Alpha 4 and beta 2: steps of 3 across the edge and of 1 beside it are filtered, steps of 4 and of 2 are
/// not; index 15 filters nothing.
fn odd_offsets(archive: &Archive) -> bool {
    let filters = |across: u8, beside: u8, offset: i32| {
        let mut q = step(2, 4, (60, 60 + across));
        (0..16).for_each(|row| q.luma[16 * row + 6] = 60 + beside);
        (q.qps[0], q.offsets) = (15, [offset, offset, 0, 0]);
        both(archive, &q).map(|after| after.luma != q.luma)
    };
    let seen = [filters(3, 0, 1), filters(4, 0, 1), filters(3, 1, 1), filters(3, 2, 1), filters(3, 0, 0)];
    seen == [Some(true), Some(false), Some(true), Some(false), Some(false)]
}

/// Two macroblocks of two slices with these modes and offsets A: stripes of four columns, one 25 above the
/// next.
fn two_slices(modes: [u8; 2], a: [i8; 2]) -> Request {
    let mut q = picture(2, 1);
    for plane in [&mut q.luma, &mut q.u, &mut q.v] {
        plane.iter_mut().enumerate().for_each(|(i, s)| *s = 60 + 25 * (i / 4 % 2) as u8);
    }
    (q.strengths, q.sliced) = (vec![1; 64].into(), true);
    q.slices = [0, 1].map(|i| SliceRecord { mode: modes[i], a: a[i], b: 0 }).to_vec().into();
    q.numbers = vec![0, 1].into();
    q
}

/// The vertical luma edges, of 1 to 7, that are filtered.
fn filtered(before: &Request, after: &Request) -> Vec<usize> {
    (1..8).filter(|e| after.luma[4 * e] != before.luma[4 * e]).collect()
}

/// .. by the archive with these slices.
fn filtered_by_slices(archive: &Archive, q: &Request) -> Option<Vec<usize>> {
    let mut after = q.clone();
    (archive.call(&mut after) == 0).then(|| filtered(q, &after))
}

/// .. by both without them, with this offset A.
fn filtered_plainly(archive: &Archive, q: &Request, a: i32) -> Option<Vec<usize>> {
    let plain = Request { sliced: false, offsets: [a, 0, 0, 0], ..q.clone() };
    both(archive, &plain).map(|after| filtered(&plain, &after))
}

/// Alpha is 25 at index 30 and 32 at index 32: the step is filtered with offset A 2 and not with 0.
fn offsets_of_slices(archive: &Archive) -> bool {
    let q = two_slices([0; 2], [0, 2]);
    let plainly = [0, 2].map(|a| filtered_plainly(archive, &q, a));
    plainly == [Some(vec![]), Some((1..8).collect())] && filtered_by_slices(archive, &q) == Some((4..8).collect())
}

fn modes_of_slices(archive: &Archive) -> bool {
    let left = |mode: u8| {
        let q = two_slices([0, mode], [2; 2]);
        let plainly = filtered_plainly(archive, &q, 2) == Some((1..8).collect());
        filtered_by_slices(archive, &q).filter(|_| plainly)
    };
    let unstored = {
        let mut q = two_slices([0; 2], [2; 2]);
        q.strengths[32..36].fill(0);
        filtered_plainly(archive, &q, 2)
    };
    let one_slice = {
        let q = Request { numbers: vec![1; 2].into(), ..two_slices([0; 2], [0, 2]) };
        let mut after = q.clone();
        let plain = both(archive, &Request { sliced: false, offsets: [2, 0, 0, 0], ..q.clone() });
        archive.call(&mut after) == 0
            && plain.is_some_and(|plain| [plain.luma, plain.u, plain.v] == [after.luma, after.u, after.v])
    };
    left(0) == Some((1..8).collect())
        && left(1) == Some(vec![1, 2, 3])
        && left(2) == Some(vec![1, 2, 3, 5, 6, 7])
        && left(2) == unstored
        && one_slice
}

/// 2 on these segments, 0 elsewhere.
fn twos(segments: &[usize]) -> [u8; 32] {
    std::array::from_fn(|i| if segments.contains(&i) { 2 } else { 0 })
}

/// By kind the archive alone is asked: the original is told of no flag there.
fn counts_under_8x8(archive: &Archive) -> bool {
    let counted = |call: Call, blocks: &[usize]| {
        let mut q = inter(call, 1, 1);
        q.t8s = vec![1].into();
        blocks.iter().for_each(|&i| q.nnz[i] = 1);
        each(archive, &q)
    };
    let halves = twos(&[8, 9, 24, 25]);
    let told = [Call::Flags, Call::Flagless].into_iter().all(|call| {
        counted(call, &[0]) == Some([halves, [0; 32]]) && counted(call, &[0, 1, 4, 5]) == Some([halves; 2])
    });
    told && counted(Call::Kind, &[0]).is_some_and(|[here, _]| here == halves)
}

fn counts_beside_8x8(archive: &Archive) -> bool {
    SINGLE_CALLS.into_iter().all(|call| {
        let beside = |t8: u8| {
            let mut q = inter(call, 2, 1);
            (q.t8s, q.nnz[2]) = (vec![t8, 0].into(), 1);
            each(archive, &q)
        };
        beside(1) == Some([twos(&[0, 1]), [0; 32]]) && beside(0) == Some([[0; 32]; 2])
    })
}

fn kinds_under_8x8(archive: &Archive) -> bool {
    let calls = SINGLE_CALLS.map(|call| {
        let mut q = intra(call, 1, 1);
        q.t8s = vec![1].into();
        each(archive, &q)
    });
    let edges_2 = std::array::from_fn(|i| if i / 4 % 4 == 2 { 3 } else { 0 });
    let filtered = |strengths: [u8; 32], t8: u8| {
        let mut q = picture(1, 1);
        (q.strengths, q.t8s) = (strengths.to_vec().into(), vec![t8].into());
        both(archive, &q).map(|after| (after.luma.to_vec(), after.u.to_vec(), after.v.to_vec()))
    };
    let kind = strengths(0, 3);
    calls == [Some([edges_2, kind]), Some([edges_2; 2]), Some([edges_2; 2])]
        && filtered(kind, 1).is_some()
        && filtered(kind, 1) == filtered(edges_2, 1)
        && filtered(kind, 0) != filtered(edges_2, 0)
}

fn inter_for_intra(archive: &Archive) -> bool {
    let mut q = intra(Call::Kind, 1, 1);
    q.kind = 3;
    let mut after = q.clone();
    archive.call(&mut after) == 12 && after == q && original(&q).own == Some(strengths(0, 3))
}

/// Each segment is as on an edge of its strength alone.
fn mixed_edge(archive: &Archive) -> bool {
    let luma = |own: [u8; 4]| {
        let mut q = picture(1, 1);
        q.strengths[8..12].copy_from_slice(&own);
        both(archive, &q).map(|after| after.luma.to_vec())
    };
    let (Some(mixed), Some(fours), Some(threes)) = (luma([4, 3, 3, 3]), luma([4; 4]), luma([3; 4])) else {
        return false;
    };
    mixed[..64] == fours[..64] && fours[..64] != threes[..64] && mixed[64..] == threes[64..]
}

fn pre_ignores_the_flag(archive: &Archive) -> bool {
    let ways = |t8: u8| {
        let mut q = picture(1, 1);
        (q.strengths, q.t8s) = (edge(1, 3).to_vec().into(), vec![t8].into());
        let mut pre = q.clone();
        let stored = Stored::new(1, 1, &q.strengths, &q.qps, &q.t8s);
        let planes = Planes { luma: &mut pre.luma, u: &mut pre.u, v: &mut pre.v };
        stored.filter_rows_pre(planes, 0..1, Offsets { a: 0, b: 0, chroma: 0 });
        let plain = both(archive, &q)?;
        (q.call, q.last) = (Call::Rows, 1);
        let rows = both(archive, &q)?;
        Some((plain.luma != q.luma, pre.luma != q.luma, rows.luma == plain.luma, pre.luma == plain.luma))
    };
    ways(1) == Some((false, true, true, false)) && ways(0) == Some((true, true, true, true))
}

fn no_ref(archive: &Archive) -> bool {
    let mut q = inter(Call::Flagless, 1, 1);
    q.ref0.fill(-1);
    q.mv0[..2].fill(4);
    let lent = |table: &[i32]| own(archive, &Request { pictures0: table.to_vec().into(), ..q.clone() });
    [lent(&[]), lent(&[7])] == [Some([0; 32]); 2] && unlisted(&q) == around_block_0(1)
}

fn one_table_a_list(archive: &Archive) -> bool {
    let beside = |references: [i8; 2], table: &[i32]| {
        let mut q = inter(Call::Flagless, 2, 1);
        q.ref0.iter_mut().enumerate().for_each(|(block, own)| *own = references[block % 8 / 4]);
        q.pictures0 = table.to_vec().into();
        own(archive, &q)
    };
    [beside([0; 2], &[7]), beside([7, 9], &[])] == [Some([0; 32]), Some(edge(0, 1))]
}

fn sizes(archive: &Archive) -> bool {
    let q = picture(257, 1);
    let mut after = q.clone();
    let seen = original(&q);
    archive.call(&mut after) == 1 && after == q && seen.ended && !seen.luma_stays()
}

/// On the edge between two macroblocks, one above the other, and by the lines that a field's call changes.
fn fields(archive: &Archive) -> bool {
    let between = |part: u8, change: fn(&mut Request)| {
        let mut q = inter(Call::Flagless, 1, 2);
        change(&mut q);
        let frame = own(archive, &q)?[16];
        q.part = part;
        (archive.call(&mut q) == 0).then(|| [frame, q.strengths[48]])
    };
    let changes = |part: u8| {
        let q = Request { part, luma: picture(1, 2).luma, u: picture(1, 2).u, v: picture(1, 2).v, ..picture(1, 1) };
        let mut after = q.clone();
        let number = archive.call(&mut after);
        let line = |y: usize| 16 * y..16 * y + 16;
        let parity = |parity: usize| (parity..32).step_by(2).any(|y| after.luma[line(y)] != q.luma[line(y)]);
        (number, [parity(0), parity(1)])
    };
    [1, 2].into_iter().all(|part| {
        between(part, |q| q.inter[..16].fill(0)) == Some([4, 3])
            && between(part, |q| (16..32).for_each(|block| q.mv0[2 * block + 1] = 2)) == Some([0, 1])
            && changes(part) == (0, [part == 1, part == 2])
    })
}

/// Alpha is 22 at index 29 and 25 at index 30: chroma offset 0 leaves the step, 1 filters it.
fn two_chroma_offsets(archive: &Archive) -> bool {
    let with = |chroma: [i32; 2]| {
        let mut q = step(2, 1, (60, 82));
        q.offsets[2..].copy_from_slice(&chroma);
        q
    };
    let filters = |after: &Request| [after.u != with([0; 2]).u, after.v != with([0; 2]).v];
    [[0, 1], [1, 0]].into_iter().all(|chroma| {
        let mut here = with(chroma);
        let number = archive.call(&mut here);
        let [first, second] = chroma.map(|offset| original(&with([offset; 2])).after);
        let same = here.luma == first.luma && here.luma == second.luma && here.u == first.u && here.v == second.v;
        let one = [&first, &second].map(filters) == chroma.map(|offset| [offset == 1; 2]);
        number == 0 && same && one && filters(&here) == chroma.map(|offset| offset == 1)
    })
}
