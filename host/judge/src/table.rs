//! The table of refusals, docs/RULES.md, "Answers", written down on its own: no line of it comes from the
//! archive.
//!
//! A check may use what the checks above it have excluded, as in the rules. It looks at what the call
//! takes and, from no. 7 on, at what the call reads.

use crate::request::{Call, List, Request};
use std::ops::Range;

type Check = fn(&Request) -> bool;

/// No., "given exactly when", in the order in which they are asked.
const TABLE: [(u32, Check); 18] = [
    (1, size_out_of_range),
    (2, place_outside),
    (19, no_such_part),
    (3, plane_of_wrong_length),
    (4, macroblock_grid_of_wrong_length),
    (5, block_grid_of_wrong_length),
    (6, offset_out_of_range),
    (7, bool_read_is_not_0_or_1),
    (8, qp_read_above_51),
    (9, strength_read_above_4),
    (20, slice_number_read_outside_table),
    (21, unknown_slice_mode),
    (10, reference_read_below_minus_1),
    (22, picture_number_out_of_range),
    (11, blocks_disagree_on_inter),
    (12, kind_or_flag_untrue),
    (13, marked_already),
    (14, neighbour_unmarked),
];

/// What a row of strengths is asked before its macroblocks are.
const ROW: [(u32, Check); 3] = [(1, size_out_of_range), (2, place_outside), (4, kinds_of_wrong_length)];

/// The number of the first check that applies; 0 if none does. A row of strengths answers what the first of
/// its macroblocks that is refused does, from the left on.
pub fn answer(r: &Request) -> u32 {
    match r.call {
        Call::StrengthsRow => match row_answer(r) {
            0 => singles_answer(r),
            number => number,
        },
        _ => first(&TABLE, r),
    }
}

fn first(checks: &[(u32, Check)], r: &Request) -> u32 {
    checks.iter().find(|(_, applies)| applies(r)).map_or(0, |(number, _)| *number)
}

/// What a row of strengths answers of itself.
pub fn row_answer(r: &Request) -> u32 {
    first(&ROW, r)
}

fn singles_answer(r: &Request) -> u32 {
    let mut single = r.clone();
    let mut answers = (0..r.w).map(|x| {
        single.turn_to(x);
        answer(&single)
    });
    answers.find(|number| *number != 0).unwrap_or(0)
}

/// All numbers that a call may answer, 0 first.
pub fn numbers() -> impl Iterator<Item = u32> {
    std::iter::once(0).chain(TABLE.iter().map(|(number, _)| *number))
}

/// Whether the call can give the number: the whole picture has no place to be outside of, and marks are a
/// visit's.
pub fn can_give(call: Call, sliced: bool, number: u32) -> bool {
    match number {
        2 => call != Call::Whole,
        19 | 3 | 6 | 8 | 9 => !call.is_strengths(),
        20 | 21 => sliced,
        5 | 10 | 22 | 11 => call.is_strengths(),
        12 => call.is_strengths() && call != Call::Flagless,
        13 | 14 => call == Call::Visit,
        _ => true,
    }
}

fn size_out_of_range(r: &Request) -> bool {
    !is_size(r.w, r.h)
}

/// Whether a picture may be so large.
pub fn is_size(w: usize, h: usize) -> bool {
    let side = 1..=256;
    side.contains(&w) && side.contains(&h) && w * h <= 36_864
}

fn place_outside(r: &Request) -> bool {
    match r.call {
        Call::Whole => false,
        Call::Rows => !(r.first <= r.last && r.last <= r.h),
        Call::StrengthsRow => r.y >= r.h,
        _ => r.x >= r.w || r.y >= r.h,
    }
}

/// Strength calls are told whether the picture is a field, not which.
fn no_such_part(r: &Request) -> bool {
    !r.call.is_strengths() && r.part > 2
}

/// Planes are a frame's: for a field they have twice the lengths.
fn plane_of_wrong_length(r: &Request) -> bool {
    let n = r.w * r.h * r.structure().share();
    !r.call.is_strengths() && (r.luma.len() != 256 * n || r.u.len() != 64 * n || r.v.len() != 64 * n)
}

fn macroblock_grid_of_wrong_length(r: &Request) -> bool {
    let n = r.w * r.h;
    r.strengths.len() != 32 * n
        || r.t8s.len() != n && !r.t8s.is_empty()
        || !r.call.is_strengths() && r.qps.len() != n
        || r.call == Call::Visit && r.marks.len() != n
        || r.sliced && r.numbers.len() != n
}

fn kinds_of_wrong_length(r: &Request) -> bool {
    r.kinds.len() != r.w * r.h && !r.kinds.is_empty()
}

fn block_grid_of_wrong_length(r: &Request) -> bool {
    let n = 16 * r.w * r.h;
    let no_list_1 = r.ref1.is_empty() && r.mv1.is_empty();
    r.call.is_strengths()
        && (r.inter.len() != n
            || r.nnz.len() != n
            || r.ref0.len() != n
            || r.mv0.len() != 2 * n
            || !no_list_1 && (r.ref1.len() != n || r.mv1.len() != 2 * n)
            || r.pictures0.is_empty() && !r.pictures1.is_empty()
            || !r.pictures0.is_empty() && r.pictures1.is_empty() && !no_list_1)
}

/// With slices the offsets A and B are those of every record, read or not.
fn offset_out_of_range(r: &Request) -> bool {
    let far = |offset: i32| !(-12..=12).contains(&offset);
    let [a, b, chroma @ ..] = r.offsets;
    let far_pair = match r.sliced {
        true => r.slices.iter().any(|record| far(record.a.into()) || far(record.b.into())),
        false => far(a) || far(b),
    };
    !r.call.is_strengths() && (far_pair || chroma.into_iter().any(far))
}

fn bool_read_is_not_0_or_1(r: &Request) -> bool {
    blocks_read(r).concat().iter().any(|&i| r.inter[i] > 1)
        || flags_read(r).iter().any(|&m| r.t8s[m] > 1)
        || marks_read(r).iter().any(|&m| r.marks[m] > 1)
}

fn qp_read_above_51(r: &Request) -> bool {
    qps_read(r).iter().any(|&m| r.qps[m] > 51)
}

fn strength_read_above_4(r: &Request) -> bool {
    macroblocks_read(r).any(|m| r.strengths[32 * m..][..32].iter().any(|&s| s > 4))
}

/// Slice numbers are read where QPs are.
fn slice_number_read_outside_table(r: &Request) -> bool {
    r.sliced && qps_read(r).iter().any(|&m| usize::from(r.numbers[m]) >= r.slices.len())
}

/// Of every record, read or not.
fn unknown_slice_mode(r: &Request) -> bool {
    r.sliced && r.slices.iter().any(|record| record.mode > 2)
}

fn reference_read_below_minus_1(r: &Request) -> bool {
    let list_1 = !r.ref1.is_empty();
    blocks_read(r).concat().iter().any(|&i| r.ref0[i] < -1 || list_1 && r.ref1[i] < -1)
}

/// Of every entry, read or not.
fn picture_number_out_of_range(r: &Request) -> bool {
    r.call.is_strengths() && r.lists().iter().any(|list| list.pictures.iter().any(|p| !(0..=65_535).contains(p)))
}

fn blocks_disagree_on_inter(r: &Request) -> bool {
    // each group within itself: an intra macroblock beside an inter one is ordinary
    blocks_read(r).iter().any(|group| group.iter().any(|&i| r.inter[i] != r.inter[group[0]]))
}

fn kind_or_flag_untrue(r: &Request) -> bool {
    let true_kind = |kind| match kind {
        0 => !is_inter(r),
        1 => is_flat(r),
        2 => is_uniform(r),
        3 => is_inter(r),
        _ => false,
    };
    match r.call {
        Call::Kind => !true_kind(r.kind),
        Call::Flags => r.flat != 0 && !is_flat(r) || r.uniform != 0 && !is_uniform(r),
        _ => false,
    }
}

fn marked_already(r: &Request) -> bool {
    r.call == Call::Visit && r.marks[r.at()] == 1
}

fn neighbour_unmarked(r: &Request) -> bool {
    r.call == Call::Visit && marks_read(r).iter().any(|&m| m != r.at() && r.marks[m] == 0)
}

/// The macroblocks whose strengths a filtering call reads.
pub fn macroblocks_read(r: &Request) -> Range<usize> {
    match r.call {
        Call::Whole => 0..r.w * r.h,
        Call::Rows => r.w * r.first..r.w * r.last,
        Call::Visit => r.at()..r.at() + 1,
        _ => 0..0,
    }
}

/// The macroblocks whose strengths a strength call writes, and of a row the kinds that it reads.
pub fn macroblocks_written(r: &Request) -> Range<usize> {
    match r.call {
        Call::StrengthsRow => r.w * r.y..r.w * (r.y + 1),
        _ => r.at()..r.at() + 1,
    }
}

/// The macroblocks whose 8x8 flags are read, of a grid that is not empty: a filtering call reads those of the
/// macroblocks that it filters, a strength call its own and those to the left and above.
pub fn flags_read(r: &Request) -> Vec<usize> {
    match r.call {
        _ if r.t8s.is_empty() => Vec::new(),
        Call::Whole | Call::Rows | Call::Visit => macroblocks_read(r).collect(),
        Call::StrengthsRow => (r.w * r.y.saturating_sub(1)..r.w * (r.y + 1)).collect(),
        _ => neighbours(r, false),
    }
}

/// The macroblocks whose QPs and slice numbers are read: its own, and of a part of the picture those to the
/// left and above.
pub fn qps_read(r: &Request) -> Vec<usize> {
    match r.call {
        Call::Rows if 0 < r.first && r.first < r.last => (r.w * (r.first - 1)..r.w * r.last).collect(),
        Call::Visit => neighbours(r, false),
        _ => macroblocks_read(r).collect(),
    }
}

/// The macroblocks whose marks are read: its own, left, upper, upper right, as far as they exist.
pub fn marks_read(r: &Request) -> Vec<usize> {
    if r.call == Call::Visit {
        neighbours(r, true)
    } else {
        Vec::new()
    }
}

fn neighbours(r: &Request, upper_right: bool) -> Vec<usize> {
    let mut all = vec![r.at()];
    if r.x > 0 {
        all.push(r.at() - 1);
    }
    if r.y > 0 {
        all.push(r.at() - r.w);
    }
    if upper_right && r.y > 0 && r.x + 1 < r.w {
        all.push(r.at() - r.w + 1);
    }
    all
}

/// The 4x4 blocks whose inter bytes, references and vectors a strength call reads: its 16, four to the left
/// when x > 0, four above when y > 0. Of a row its macroblocks' own, and all above.
pub fn blocks_read(r: &Request) -> [Vec<usize>; 3] {
    if !r.call.is_strengths() {
        return Default::default();
    }
    let block = |bx: usize, by: usize| by * 4 * r.w + bx;
    let written = macroblocks_written(r);
    let (bx, by, across) = (4 * (written.start % r.w), 4 * r.y, 4 * written.len());
    let own = (0..4 * across).map(|i| block(bx + i % across, by + i / across)).collect();
    let left = if bx > 0 { (0..4).map(|i| block(bx - 1, by + i)).collect() } else { Vec::new() };
    let above = if by > 0 { (0..across).map(|i| block(bx + i, by - 1)).collect() } else { Vec::new() };
    [own, left, above]
}

/// The blocks whose counts a strength call reads: the same, and where a neighbour has the 8x8 flag the four
/// behind its four as well.
pub fn counts_read(r: &Request) -> Vec<usize> {
    let [own, left, above] = blocks_read(r);
    let is_8x8 = |block: &&usize| r.t8s.get(r.macroblock_of(**block)) == Some(&1);
    let behind_left = left.iter().filter(is_8x8).map(|block| block - 1);
    let behind_above = above.iter().filter(is_8x8).map(|block| block - 4 * r.w);
    let behind = behind_left.chain(behind_above).collect();
    [own, left, above, behind].concat()
}

/// The entries of each table that references which are read name, those past its end among them.
pub fn entries_read(r: &Request) -> [Vec<usize>; 2] {
    let blocks = blocks_read(r).concat();
    r.lists().map(|list| {
        let refs = blocks.iter().filter_map(|&block| list.refs.get(block));
        refs.filter_map(|&reference| usize::try_from(reference).ok()).collect()
    })
}

fn is_inter(r: &Request) -> bool {
    r.inter[blocks_read(r)[0][0]] == 1
}

/// The picture that a reference names, if any: by its number, or as an index of a table that is not empty.
fn named(pictures: &[i32], reference: i8) -> Option<i32> {
    let index = usize::try_from(reference).ok()?;
    if pictures.is_empty() {
        Some(reference.into())
    } else {
        pictures.get(index).copied()
    }
}

/// All 16 inter, with equal pictures and vectors in both lists, unused vectors included.
fn is_uniform(r: &Request) -> bool {
    let own = &blocks_read(r)[0];
    let motion = |&i: &usize| {
        r.lists().map(|List { refs, mvs, pictures }| match refs {
            [] => (None, 0, 0),
            _ => (named(pictures, refs[i]), mvs[2 * i], mvs[2 * i + 1]),
        })
    };
    is_inter(r) && own.iter().all(|i| motion(i) == motion(&own[0]))
}

/// Uniform, and all 16 counts 0.
fn is_flat(r: &Request) -> bool {
    is_uniform(r) && blocks_read(r)[0].iter().all(|&i| r.nnz[i] == 0)
}

#[cfg(test)]
mod tests;
