//! The smallest inputs of refusals 1 to 5, a size, a place or a length, and what the original does with them.

use super::rows::Rust::{CannotBeLent, Does, DoesInRelease};
use super::rows::{
    around_block_0, beside, crossed_indices, flagless, frame, kind, one_slice, row, rows, strengths_row, two,
    two_indices, two_lists, unused_tables, visit, whole_chroma, whole_lists, with, Row, ALL_0, EACH_ALONE, INNER_3,
    NOTHING, NO_FIELDS, NO_ROWS, NO_SLICES, NO_VISITS, PANICS,
};
use super::{edge, inter, intra, original, picture, strengths};
use crate::request::{Call, Request};

pub const LENGTHS: &[Row] = &[
    row(
        1,
        "width or height 0, nothing lent",
        frame,
        &[|q| *q = picture(0, 1), |q| *q = picture(1, 0)],
        Does(&[NOTHING]),
    ),
    row(
        1,
        "width 0, strengths of (0, 0), nothing lent",
        flagless,
        &[|q| *q = Request::new(Call::Flagless, 0, 1)],
        Does(&[INNER_3, ("a missing block counts as intra", |seen| seen.as_with(|q| *q = intra(q.call, 1, 1)))]),
    ),
    row(1, "257 by 1", frame, &[|q| *q = picture(257, 1)], Does(&[EACH_ALONE])),
    row(1, "1 by 257", frame, &[|q| *q = picture(1, 257)], Does(&[EACH_ALONE])),
    row(1, "256 by 145, 37,120 macroblocks", frame, &[|q| *q = picture(256, 145)], Does(&[EACH_ALONE])),
    row(1, "width 2^64 - 1, the rest as for one macroblock", frame, &[|q| q.w = usize::MAX], Does(&[PANICS])),
    row(
        2,
        "strengths of (1, 0) in 1 by 1",
        flagless,
        &[|q| q.x = 1],
        DoesInRelease(&[(
            "1 on horizontal edge 3 and on the last segment of vertical edge 0, else 0: it takes the next blocks of \
             the grid, and the last four are missing",
            |seen| seen.own == Some(std::array::from_fn(|i| u8::from(i == 3 || i / 4 == 7))),
        )]),
    ),
    row(
        2,
        "strengths of (1, 0) in 1 by 1, intra",
        || intra(Call::Flagless, 1, 1),
        &[|q| q.x = 1],
        Does(&[("those of (1, 0) in 2 by 1, intra", |seen| seen.as_with(|q| *q = intra(q.call, 2, 1)))]),
    ),
    row(
        2,
        "strengths of (0, 1) in 1 by 1",
        flagless,
        &[|q| q.y = 1],
        Does(&[
            ("those of an intra (0, 1) in 1 by 2", |seen| seen.as_with(|q| *q = intra(q.call, 1, 2))),
            ("a missing block counts as intra", |seen| !seen.as_with(|q| *q = inter(q.call, 1, 2))),
        ]),
    ),
    row(2, "strengths of row 1 in 2 by 1", strengths_row, &[|q| q.y = 1], NO_ROWS),
    row(2, "rows 1 to 0 of 1", rows, &[|q| (q.first, q.last) = (1, 0)], Does(&[NOTHING])),
    row(2, "rows 2 to 2 of 1", rows, &[|q| (q.first, q.last) = (2, 2)], Does(&[NOTHING])),
    row(
        2,
        "rows 0 to 2 of 1",
        rows,
        &[|q| q.last = 2],
        Does(&[
            ("filters row 0", |seen| seen.luma_as(|q| q.last = 1) && seen.chroma_as(|q| q.last = 1)),
            ("then panics", |seen| seen.panics() && !seen.luma_stays()),
        ]),
    ),
    row(2, "a visit of (1, 0) in 1 by 1", visit, &[|q| q.x = 1], NO_VISITS),
    row(
        3,
        "luma of 255 samples",
        frame,
        &[|q| q.luma.resize(255, 0)],
        Does(&[("as with 256: edge 2 does not read the last one", |seen| seen.as_with(|q| q.luma.resize(256, 60)))]),
    ),
    row(
        3,
        "luma of 255 samples, the strengths on vertical edge 3",
        || with(frame(), |q| q.strengths = edge(3, 3).to_vec().into()),
        &[|q| q.luma.resize(255, 0)],
        Does(&[
            ("filters lines 0 to 14 of the edge", |seen| {
                let whole = original(&with(seen.before.clone(), |q| q.luma.resize(256, 60))).after;
                let (is, was) = (&seen.after.luma, &seen.before.luma);
                is[..240] == whole.luma[..240] && is[240..] == was[240..] && !seen.luma_stays()
            }),
            ("then panics", |seen| seen.panics() && seen.chroma_stays()),
        ]),
    ),
    row(
        3,
        "luma of 257 samples",
        frame,
        &[|q| q.luma.resize(257, 77)],
        Does(&[("as with 256, the last one stays", |seen| seen.as_with(|q| q.luma.resize(256, 0)))]),
    ),
    row(
        3,
        "U or V of 63 samples",
        frame,
        &[|q| q.u.resize(63, 0), |q| q.v.resize(63, 0)],
        Does(&[("as with 64: no edge of a lone macroblock reads the last one", |seen| seen.as_with(whole_chroma))]),
    ),
    row(
        3,
        "U or V of 65 samples",
        frame,
        &[|q| q.u.resize(65, 77), |q| q.v.resize(65, 77)],
        Does(&[("as with 64, the last one stays", |seen| seen.as_with(whole_chroma))]),
    ),
    row(
        3,
        "U of no samples",
        frame,
        &[|q| q.u.resize(0, 0)],
        Does(&[
            ("filters luma", |seen| seen.luma_as(whole_chroma) && !seen.luma_stays()),
            ("then panics", |seen| seen.panics() && seen.chroma_stays()),
        ]),
    ),
    row(
        3,
        "luma of 256 samples, U and V of 64, for a field of one macroblock",
        frame,
        &[|q| q.part = 1, |q| q.part = 2],
        NO_FIELDS,
    ),
    row(
        4,
        "31 or 33 strengths",
        frame,
        &[|q| q.strengths.resize(31, 0), |q| q.strengths.resize(33, 0)],
        CannotBeLent("it is lent whole macroblocks of 32"),
    ),
    row(
        4,
        "no strengths",
        frame,
        &[|q| q.strengths.resize(0, 0)],
        Does(&[(
            "derives them from its 4x4 grids; with these empty too, as with 0 on the outer and 3 on the inner edges",
            |seen| seen.as_with(|q| q.strengths = strengths(0, 3).to_vec().into()),
        )]),
    ),
    row(4, "32 strengths for 2 by 1", two, &[|q| q.strengths.resize(32, 0)], Does(&[PANICS])),
    row(
        4,
        "64 strengths for 1 by 1",
        frame,
        &[|q| q.strengths.resize(64, 4)],
        Does(&[("as with the first 32", |seen| seen.as_with(|q| q.strengths.resize(32, 0)))]),
    ),
    row(4, "no QP", frame, &[|q| q.qps.resize(0, 0)], Does(&[PANICS])),
    row(
        4,
        "QPs 30, 51 for 1 by 1",
        frame,
        &[|q| q.qps.resize(2, 51)],
        Does(&[("as with the first", |seen| seen.as_with(|q| q.qps.resize(1, 0)))]),
    ),
    row(4, "one 8x8 flag for 2 by 1", two, &[|q| q.t8s.resize(1, 0)], Does(&[PANICS])),
    row(
        4,
        "8x8 flags 0, 1 for 1 by 1, the strengths on vertical edge 1",
        || with(frame(), |q| q.strengths = edge(1, 3).to_vec().into()),
        &[|q| q.t8s = vec![0, 1].into()],
        Does(&[("as with the first", |seen| seen.as_with(|q| q.t8s.resize(1, 0)))]),
    ),
    row(4, "no marks, or two, for 1 by 1", visit, &[|q| q.marks.resize(0, 0), |q| q.marks.resize(2, 0)], NO_VISITS),
    row(
        4,
        "no slice number, or two, for 1 by 1",
        one_slice,
        &[|q| q.numbers.resize(0, 0), |q| q.numbers.resize(2, 0)],
        NO_SLICES,
    ),
    row(
        4,
        "31 or 33 bytes lent for the strengths of one macroblock",
        flagless,
        &[|q| q.strengths.resize(31, 0), |q| q.strengths.resize(33, 0)],
        CannotBeLent("it is lent none, and answers 32 by value"),
    ),
    row(
        4,
        "one 8x8 flag, or three, for the strengths of (1, 0) in 2 by 1",
        beside,
        &[|q| q.t8s.resize(1, 0), |q| q.t8s.resize(3, 0)],
        CannotBeLent("it is lent none, and told of the macroblock's own alone, as a bool"),
    ),
    row(
        4,
        "one kind, or three, for the strengths of row 0 in 2 by 1",
        strengths_row,
        &[|q| q.kinds.resize(1, 3), |q| q.kinds.resize(3, 3)],
        NO_ROWS,
    ),
    row(
        5,
        "15 inter bytes",
        flagless,
        &[|q| q.inter.resize(15, 0)],
        DoesInRelease(&[("as with 16 inter ones: block 0 decides", |seen| seen.as_with(|q| q.inter.resize(16, 1)))]),
    ),
    row(
        5,
        "no inter bytes",
        flagless,
        &[|q| q.inter.resize(0, 0)],
        Does(&[INNER_3, ("a missing block counts as intra", |seen| seen.as_with(|q| q.inter.resize(16, 0)))]),
    ),
    row(
        5,
        "15 counts",
        flagless,
        &[|q| q.nnz.resize(15, 0)],
        Does(&[("as with 0 for the last one", |seen| {
            seen.as_with(|q| q.nnz.resize(16, 0)) && !seen.as_with(|q| q.nnz.resize(16, 1))
        })]),
    ),
    row(5, "15 counts, kind InterUniform", || kind(2), &[|q| q.nnz.resize(15, 0)], Does(&[PANICS])),
    row(
        5,
        "15 references in one of two lists",
        two_lists,
        &[|q| q.ref0.resize(15, 0), |q| q.ref1.resize(15, 0)],
        Does(&[("as with -1 for the last one", |seen| {
            seen.as_with(|q| whole_lists(q, -1, 4)) && !seen.as_with(|q| whole_lists(q, 0, 4))
        })]),
    ),
    row(
        5,
        "31 or 33 motion components in one of two lists",
        two_lists,
        &[|q| q.mv0.resize(31, 0), |q| q.mv0.resize(33, 0), |q| q.mv1.resize(31, 0), |q| q.mv1.resize(33, 0)],
        CannotBeLent("it is lent whole vectors"),
    ),
    row(
        5,
        "15 vectors, each (4, 4), in one of two lists",
        two_lists,
        &[|q| q.mv0.resize(30, 0), |q| q.mv1.resize(30, 0)],
        Does(&[("as with (0, 0) for the last one", |seen| {
            seen.as_with(|q| whole_lists(q, 0, 0)) && !seen.as_with(|q| whole_lists(q, 0, 4))
        })]),
    ),
    row(
        5,
        "17 inter bytes, counts, or references or vectors in one of two lists",
        two_lists,
        &[
            |q| q.inter.resize(17, 0),
            |q| q.nnz.resize(17, 1),
            |q| q.ref0.resize(17, 1),
            |q| q.mv0.resize(34, 9),
            |q| q.ref1.resize(17, 1),
            |q| q.mv1.resize(34, 9),
        ],
        Does(&[("as with the first 16", |seen| {
            seen.as_with(|q| {
                q.inter.resize(16, 0);
                q.nnz.resize(16, 0);
                whole_lists(q, 0, 0);
            })
        })]),
    ),
    row(
        5,
        "list 1 without references, its vectors (4, 4) in block 0 and (0, 0) elsewhere",
        flagless,
        &[|q| {
            q.mv1 = vec![0; 32].into();
            q.mv1[..2].fill(4);
        }],
        Does(&[ALL_0, ("as without list 1", |seen| seen.as_with(|q| q.mv1.resize(0, 0)))]),
    ),
    row(
        5,
        "list 1 without vectors, its references 0 in block 0 and -1 elsewhere",
        flagless,
        &[|q| {
            q.ref1 = vec![-1; 16].into();
            q.ref1[0] = 0;
        }],
        Does(&[("as with vectors (0, 0): 1 between block 0 and its neighbours", |seen| {
            seen.as_with(|q| q.mv1.resize(32, 0)) && seen.own == Some(around_block_0(1))
        })]),
    ),
    row(
        5,
        "index 0 in block 0 and 1 elsewhere, no list 1; list 0's table empty, list 1's 7, 7",
        || with(two_indices(), |q| q.pictures1 = vec![7; 2].into()),
        &[|q| q.pictures0.resize(0, 0)],
        Does(&[("as with both empty: 1 between block 0 and its neighbours", |seen| {
            seen.as_with(|q| q.pictures1.resize(0, 0)) && seen.own == Some(around_block_0(1))
        })]),
    ),
    row(
        5,
        "of two lists indices 0 and 1 in block 0, 1 and 0 elsewhere; one table empty, the other 1, 0",
        crossed_indices,
        &[|q| q.pictures0.resize(0, 0), |q| q.pictures1.resize(0, 0)],
        Does(&[(
            "compares the numbers of one list with the pictures of the other, as with the table 0, 1 for the empty \
             one: 1 between block 0 and its neighbours",
            |seen| {
                let whole = |q: &mut Request| {
                    let empty = q.tables().into_iter().filter(|table| table.is_empty());
                    empty.for_each(|table| *table = vec![0, 1].into());
                };
                seen.as_with(whole) && seen.own == Some(around_block_0(1))
            },
        )]),
    ),
    row(
        5,
        "references -1 in both lists, vectors (0, 0) in block 0; one table empty, the other 7",
        unused_tables,
        &[|q| q.pictures0.resize(0, 0), |q| q.pictures1.resize(0, 0)],
        Does(&[("takes -1 as a picture in the list of the empty one: 1 between block 0 and its neighbours", |seen| {
            seen.own == Some(around_block_0(1))
        })]),
    ),
];
