//! The smallest inputs of refusals 6 to 14, a value that is read, and of 19 to 22, and what the original does
//! with them.

use super::rows::Rust::{CannotBeLent, Does, DoesInRelease};
use super::rows::{
    around_block_0, below, beside, flagless, flags, frame, kind, neighbours, no_references, one_slice, row,
    strengths_row, turned, two, two_indices, unlisted, visit, with, Row, ALL_0, INNER_3, NO_FIELDS, NO_SLICES,
    NO_VISITS,
};
use super::{edge, inter, intra, original, Seen};
use crate::request::Call;
use deblock::SliceRecord;

pub const VALUES: &[Row] = &[
    row(
        6,
        "offsets A and B 13",
        frame,
        &[|q| q.offsets = [13, 13, 0, 0]],
        Does(&[("index 43 on luma, 42 on chroma, as with QP 31 and 12", |seen| {
            seen.as_with(|q| (q.qps[0], q.offsets) = (31, [12, 12, 0, 0]))
        })]),
    ),
    row(
        6,
        "offsets A and B 40",
        frame,
        &[|q| q.offsets = [40, 40, 0, 0]],
        Does(&[("index 51, where the sum is clamped, as with QP 51 and 12", |seen| {
            seen.as_with(|q| (q.qps[0], q.offsets) = (51, [12, 12, 0, 0]))
        })]),
    ),
    row(
        6,
        "offsets A and B 2^31 - 1, QP 0",
        || with(frame(), |q| q.qps[0] = 0),
        &[|q| q.offsets = [i32::MAX, i32::MAX, 0, 0]],
        Does(&[("index 51, as with QP 51 and 12", |seen| {
            seen.as_with(|q| (q.qps[0], q.offsets) = (51, [12, 12, 0, 0]))
        })]),
    ),
    row(
        6,
        "offset A or B 2^31 - 1",
        frame,
        &[|q| q.offsets[0] = i32::MAX, |q| q.offsets[1] = i32::MAX],
        DoesInRelease(&[("does nothing: the sum wraps, index 0", Seen::nothing)]),
    ),
    row(
        6,
        "offset A or B -2^31",
        frame,
        &[|q| q.offsets[0] = i32::MIN, |q| q.offsets[1] = i32::MIN],
        Does(&[("does nothing: index 0", Seen::nothing)]),
    ),
    row(
        6,
        "both chroma offsets 13, QP 29",
        || with(frame(), |q| q.qps[0] = 29),
        &[|q| q.offsets[2..].fill(13)],
        Does(&[
            ("U and V as with QP 30 and 12", |seen| {
                seen.chroma_as(|q| {
                    q.qps[0] = 30;
                    q.offsets[2..].fill(12);
                }) && !seen.chroma_as(|q| q.offsets[2..].fill(12))
            }),
            ("luma as with 0", |seen| seen.ended && seen.luma_as(|q| q.offsets[2..].fill(0)) && !seen.luma_stays()),
        ]),
    ),
    row(
        6,
        "both chroma offsets 2^31 - 1",
        frame,
        &[|q| q.offsets[2..].fill(i32::MAX)],
        DoesInRelease(&[
            ("luma as with 0", |seen| seen.luma_as(|q| q.offsets[2..].fill(0)) && !seen.luma_stays()),
            ("U and V stay: the sum wraps, QPC 0", |seen| seen.chroma_stays()),
        ]),
    ),
    row(
        6,
        "both chroma offsets -2^31",
        frame,
        &[|q| q.offsets[2..].fill(i32::MIN)],
        Does(&[
            ("luma as with 0", |seen| seen.luma_as(|q| q.offsets[2..].fill(0)) && !seen.luma_stays()),
            ("U and V stay: QPC 0", |seen| seen.ended && seen.chroma_stays()),
        ]),
    ),
    row(
        6,
        "U's chroma offset alone, or V's, 13, -13, 2^31 - 1 or -2^31",
        frame,
        &[
            |q| q.offsets[2] = 13,
            |q| q.offsets[3] = 13,
            |q| q.offsets[2] = -13,
            |q| q.offsets[3] = -13,
            |q| q.offsets[2] = i32::MAX,
            |q| q.offsets[3] = i32::MAX,
            |q| q.offsets[2] = i32::MIN,
            |q| q.offsets[3] = i32::MIN,
        ],
        CannotBeLent("it has one chroma offset for U and V"),
    ),
    row(
        6,
        "offset A or B 13 in a slice's record, or in one that no slice number names",
        one_slice,
        &[
            |q| q.slices[0].a = 13,
            |q| q.slices[0].b = 13,
            |q| q.slices.resize(2, SliceRecord { mode: 0, a: 13, b: 0 }),
            |q| q.slices.resize(2, SliceRecord { mode: 0, a: 0, b: 13 }),
        ],
        NO_SLICES,
    ),
    row(7, "an inter byte 2", flagless, &[|q| q.inter[0] = 2], CannotBeLent("its type is bool, without such a value")),
    row(7, "an 8x8 flag 2", frame, &[|q| q.t8s.resize(1, 2)], CannotBeLent("its type is bool, without such a value")),
    row(
        7,
        "an 8x8 flag 2, of the macroblock whose strengths are asked for or of the one to its left or above it",
        beside,
        &[
            |q| q.t8s = vec![0, 2].into(),
            |q| q.t8s = vec![2, 0].into(),
            |q| *q = with(below(), |q| q.t8s = vec![0, 2].into()),
            |q| *q = with(below(), |q| q.t8s = vec![2, 0].into()),
        ],
        CannotBeLent("it is lent none, and told of the macroblock's own alone, as a bool"),
    ),
    row(7, "a mark 2", visit, &[|q| q.marks[0] = 2], NO_VISITS),
    row(
        8,
        "QP 52",
        frame,
        &[|q| q.qps[0] = 52],
        Does(&[("as with 51", |seen| seen.as_with(|q| q.qps[0] = 51) && !seen.as_with(|q| q.qps[0] = 50))]),
    ),
    row(
        8,
        "QP 52, offsets A and B -1",
        || with(frame(), |q| q.offsets = [-1, -1, 0, 0]),
        &[|q| q.qps[0] = 52],
        Does(&[
            ("luma not as with QP 51: index 51, not 50", |seen| {
                seen.luma_as(|q| (q.qps[0], q.offsets) = (51, [0; 4])) && !seen.luma_as(|q| q.qps[0] = 51)
            }),
            ("U and V as with QP 51", |seen| !seen.chroma_stays() && seen.chroma_as(|q| q.qps[0] = 51)),
        ]),
    ),
    row(
        8,
        "QPs 31 and 52 of 2 by 1, the strengths on the edge between them",
        || with(two(), |q| q.strengths = [[0; 32], edge(0, 3)].concat().into()),
        &[|q| q.qps = vec![31, 52].into()],
        Does(&[
            ("luma not as with QP 51: index 42, not 41", |seen| {
                seen.luma_as(|q| q.qps = vec![42, 42].into()) && !seen.luma_as(|q| q.qps[1] = 51)
            }),
            ("U and V as with QP 51", |seen| !seen.chroma_stays() && seen.chroma_as(|q| q.qps[1] = 51)),
        ]),
    ),
    row(
        9,
        "strengths 5, or 255, on a vertical or on a horizontal edge",
        frame,
        &[
            |q| q.strengths = edge(2, 5).to_vec().into(),
            |q| q.strengths = edge(2, 255).to_vec().into(),
            |q| *q = turned(5),
            |q| *q = turned(255),
        ],
        Does(&[("as with 4", |seen| {
            seen.as_with(|q| q.strengths.iter_mut().for_each(|s| *s = 4.min(*s)))
                && !seen.as_with(|q| q.strengths.iter_mut().for_each(|s| *s = 3.min(*s)))
        })]),
    ),
    row(
        10,
        "reference -2 in block 0 of one of two lists, -1 elsewhere",
        no_references,
        &[|q| q.ref0[0] = -2, |q| q.ref1[0] = -2],
        Does(&[
            ("as with -1: all 0", |seen| seen.own == Some([0; 32]) && seen.as_with(|q| *q = no_references())),
            (
                "without the lists `poc0` and `poc1` a picture of its own: 1 between block 0 and its neighbours",
                |seen| unlisted(&seen.before) == around_block_0(1),
            ),
        ]),
    ),
    row(
        11,
        "inter bytes 1 in block 0 and 0 elsewhere",
        flagless,
        &[|q| q.inter[1..].fill(0)],
        DoesInRelease(&[ALL_0, ("as with 16 inter blocks: block 0 decides", |seen| seen.as_with(|q| q.inter.fill(1)))]),
    ),
    row(
        11,
        "inter bytes 0 in block 0 and 1 elsewhere",
        flagless,
        &[|q| q.inter[0] = 0],
        DoesInRelease(&[
            INNER_3,
            ("as with 16 intra blocks: block 0 decides", |seen| seen.as_with(|q| q.inter.fill(0))),
        ]),
    ),
    row(
        11,
        "of the four blocks to the left, or above, the first intra, the others inter",
        beside,
        &[|q| q.inter[3] = 0, |q| *q = with(below(), |q| q.inter[12] = 0)],
        Does(&[("as with four intra ones: 4 on that edge", |seen| {
            seen.as_with(|q| neighbours(q, 0)) && !seen.as_with(|q| neighbours(q, 1))
        })]),
    ),
    row(
        11,
        "of the four blocks to the left, or above, the last intra, the others inter",
        beside,
        &[|q| q.inter[27] = 0, |q| *q = with(below(), |q| q.inter[15] = 0)],
        Does(&[("as with four inter ones: 0 on that edge", |seen| {
            seen.as_with(|q| neighbours(q, 1)) && !seen.as_with(|q| neighbours(q, 0))
        })]),
    ),
    row(
        11,
        "the same with kind Skip, or InterUniform",
        || with(beside(), |q| (q.call, q.kind) = (Call::Kind, 1)),
        &[
            |q| q.inter[27] = 0,
            |q| (q.kind, q.inter[27]) = (2, 0),
            |q| *q = with(below(), |q| (q.call, q.kind, q.inter[15]) = (Call::Kind, 1, 0)),
            |q| *q = with(below(), |q| (q.call, q.kind, q.inter[15]) = (Call::Kind, 2, 0)),
        ],
        Does(&[("4 on the last segment of that edge, 0 elsewhere", |seen| {
            let last = if seen.before.x > 0 { 3 } else { 19 };
            seen.own == Some(std::array::from_fn(|i| if i == last { 4 } else { 0 }))
        })]),
    ),
    row(12, "kind Intra for an inter macroblock", || kind(3), &[|q| q.kind = 0], Does(&[INNER_3])),
    row(
        12,
        "kind Skip for a count 1 in block 0",
        || with(kind(3), |q| q.nnz[0] = 1),
        &[|q| q.kind = 1],
        Does(&[
            ALL_0,
            ("a true kind has 2 between block 0 and its neighbours", |seen| {
                let other = original(&with(seen.before.clone(), |q| q.kind = 3));
                other.own == Some(around_block_0(2))
            }),
        ]),
    ),
    row(
        12,
        "kind Skip for the vector (4, 4) in block 0, at (1, 0) in 2 by 1",
        || with(inter(Call::Kind, 2, 1), |q| q.mv0[8..10].fill(4)),
        &[|q| q.kind = 1],
        Does(&[("1 on all of vertical edge 0, 0 elsewhere: block 0 stands for all", |seen| {
            seen.own == Some(edge(0, 1))
        })]),
    ),
    row(
        12,
        "kind InterUniform for the vector (4, 4) in block 0",
        || with(kind(3), |q| q.mv0[..2].fill(4)),
        &[|q| q.kind = 2],
        Does(&[
            ALL_0,
            ("a true kind has 1 between block 0 and its neighbours", |seen| {
                let other = original(&with(seen.before.clone(), |q| q.kind = 3));
                other.own == Some(around_block_0(1))
            }),
        ]),
    ),
    row(
        12,
        "kind Skip, or InterUniform, for an intra macroblock",
        || intra(Call::Kind, 1, 1),
        &[|q| q.kind = 1, |q| q.kind = 2],
        Does(&[ALL_0]),
    ),
    row(12, "kind Inter for an intra macroblock", || intra(Call::Kind, 1, 1), &[|q| q.kind = 3], Does(&[INNER_3])),
    row(
        12,
        "kind 4, of a macroblock or among those of a row",
        || kind(3),
        &[|q| q.kind = 4, |q| *q = with(strengths_row(), |q| q.kinds[1] = 4)],
        CannotBeLent("`MbKind` has four values"),
    ),
    row(
        12,
        "flag flat for a count 1 in block 0",
        || with(flags(), |q| q.nnz[0] = 1),
        &[|q| q.flat = 1],
        Does(&[ALL_0]),
    ),
    row(12, "flag flat for an intra macroblock", || intra(Call::Flags, 1, 1), &[|q| q.flat = 1], Does(&[ALL_0])),
    row(
        12,
        "flag uniform for the vector (4, 4) in block 0",
        || with(flags(), |q| q.mv0[..2].fill(4)),
        &[|q| q.uniform = 1],
        Does(&[ALL_0]),
    ),
    row(
        12,
        "flag uniform for an intra macroblock",
        || intra(Call::Flags, 1, 1),
        &[|q| q.uniform = 1],
        Does(&[INNER_3, ("as without the flag", |seen| seen.as_with(|q| q.uniform = 0))]),
    ),
    row(13, "a visit of a marked macroblock", visit, &[|q| q.marks[0] = 1], NO_VISITS),
    row(
        14,
        "a visit of (1, 0) in 2 by 1 before (0, 0)",
        || with(two(), |q| (q.call, q.x, q.marks) = (Call::Visit, 1, vec![1, 0].into())),
        &[|q| q.marks[0] = 0],
        NO_VISITS,
    ),
    row(19, "part 3, which is neither the frame nor one of its fields", frame, &[|q| q.part = 3], NO_FIELDS),
    row(
        20,
        "slice number 1 by one record; slice number 0 by none",
        one_slice,
        &[|q| q.numbers[0] = 1, |q| q.slices = Vec::new().into()],
        NO_SLICES,
    ),
    row(
        21,
        "mode 3 in a slice's record, or in one that no slice number names",
        one_slice,
        &[|q| q.slices[0].mode = 3, |q| q.slices.resize(2, SliceRecord { mode: 3, a: 0, b: 0 })],
        NO_SLICES,
    ),
    row(
        22,
        "index 0 in block 0 and 1 elsewhere; in the table -1, 65,536 or 2^31 - 1, then 7",
        two_indices,
        &[|q| q.pictures0[0] = -1, |q| q.pictures0[0] = 65_536, |q| q.pictures0[0] = i32::MAX],
        Does(&[("a picture as any other, as 65,535: 1 between block 0 and its neighbours", |seen| {
            seen.as_with(|q| q.pictures0[0] = 65_535) && seen.own == Some(around_block_0(1))
        })]),
    ),
    row(
        22,
        "index 0, the vector (4, 4) in block 0; in the table -2^31",
        || with(flagless(), |q| (q.pictures0, q.mv0[0], q.mv0[1]) = (vec![7].into(), 4, 4)),
        &[|q| q.pictures0[0] = i32::MIN],
        Does(&[
            ALL_0,
            ("its `NO_REF`, as with -1 for the index", |seen| {
                seen.as_with(|q| {
                    q.ref0.fill(-1);
                    q.pictures0[0] = 7;
                }) && !seen.as_with(|q| q.pictures0[0] = 7)
            }),
        ]),
    ),
    row(
        22,
        "index 0; in the table 7, then 65,536, or 65,536 in that of list 1, which is not lent",
        || with(flagless(), |q| q.pictures0 = vec![7].into()),
        &[|q| q.pictures0 = vec![7, 65_536].into(), |q| q.pictures1 = vec![65_536].into()],
        Does(&[("does not look at it", |seen| {
            seen.as_with(|q| (q.pictures0, q.pictures1) = (vec![7].into(), Vec::new().into()))
        })]),
    ),
];
