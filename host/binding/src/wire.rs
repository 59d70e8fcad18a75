//! The sixteen calls as the archive has them: numbers in, numbers out (docs/RULES.md, "Answers"). For a
//! caller who must pass on a part, a kind or a flag as the byte that it is; [`Picture`] and
//! [`y4m`](crate::y4m) have the same calls with types.
//!
//! `part` is 0 for a frame, 1 for the top field and 2 for the bottom field; any other byte is refused.
//! `field` is 0 for a frame, and any other byte means a field. The member `part` of a `Picture` is not read
//! here.
//!
//! What a caller in another language must keep stands in include/deblock.h. Here Rust's borrows keep all of
//! it: a slice is valid for its length, aligned, and not null even where it is empty; what is borrowed
//! mutably is borrowed by nobody else, and does not overlap.

use crate::{Grids, Kind, Picture, Place, Size, SliceRecord};

/// What a call finds in a YUV4MPEG2 stream, laid out as `struct deblock_y4m` of include/deblock.h.
#[repr(C)]
#[derive(Clone, Copy, PartialEq, Eq, Debug)]
pub struct Y4m {
    /// The answer.
    pub answer: u32,
    /// The picture's width in macroblocks, 0 unless the answer is 0.
    pub w: u32,
    /// Likewise its height.
    pub h: u32,
}

/// Whether a macroblock is final, laid out as `struct deblock_finality` of include/deblock.h.
#[repr(C)]
#[derive(Clone, Copy, PartialEq, Eq, Debug)]
pub struct Finality {
    /// The answer.
    pub answer: u32,
    /// 1 where the answer is 0 and the macroblock is final, else 0.
    pub yes: u8,
}

/// What a visit can have made final, laid out as `struct deblock_finals` of include/deblock.h.
#[repr(C)]
#[derive(Clone, Copy, PartialEq, Eq, Debug)]
pub struct Finals {
    /// The answer.
    pub answer: u32,
    /// 1 where the answer is 0 and the macroblock is final, else 0.
    pub own: u8,
    /// Likewise its left neighbour; 0 where there is none.
    pub left: u8,
    /// Likewise its upper neighbour.
    pub upper: u8,
}

mod c {
    extern "C" {
        pub fn deblock_strengths_kind(
            w: usize, h: usize, field: u8, x: usize, y: usize, kind: u8,
            t8s: *const u8, t8s_len: usize,
            inter: *const u8, inter_len: usize, nnz: *const u8, nnz_len: usize,
            ref0: *const i8, ref0_len: usize, mv0: *const i16, mv0_len: usize,
            ref1: *const i8, ref1_len: usize, mv1: *const i16, mv1_len: usize,
            pictures0: *const i32, pictures0_len: usize, pictures1: *const i32, pictures1_len: usize,
            strengths: *mut u8, strengths_len: usize,
        ) -> u32;
        pub fn deblock_strengths_flags(
            w: usize, h: usize, field: u8, x: usize, y: usize, flat: u8, uniform: u8,
            t8s: *const u8, t8s_len: usize,
            inter: *const u8, inter_len: usize, nnz: *const u8, nnz_len: usize,
            ref0: *const i8, ref0_len: usize, mv0: *const i16, mv0_len: usize,
            ref1: *const i8, ref1_len: usize, mv1: *const i16, mv1_len: usize,
            pictures0: *const i32, pictures0_len: usize, pictures1: *const i32, pictures1_len: usize,
            strengths: *mut u8, strengths_len: usize,
        ) -> u32;
        pub fn deblock_strengths(
            w: usize, h: usize, field: u8, x: usize, y: usize,
            t8s: *const u8, t8s_len: usize,
            inter: *const u8, inter_len: usize, nnz: *const u8, nnz_len: usize,
            ref0: *const i8, ref0_len: usize, mv0: *const i16, mv0_len: usize,
            ref1: *const i8, ref1_len: usize, mv1: *const i16, mv1_len: usize,
            pictures0: *const i32, pictures0_len: usize, pictures1: *const i32, pictures1_len: usize,
            strengths: *mut u8, strengths_len: usize,
        ) -> u32;
        pub fn deblock_strengths_row(
            w: usize, h: usize, field: u8, y: usize,
            kinds: *const u8, kinds_len: usize, t8s: *const u8, t8s_len: usize,
            inter: *const u8, inter_len: usize, nnz: *const u8, nnz_len: usize,
            ref0: *const i8, ref0_len: usize, mv0: *const i16, mv0_len: usize,
            ref1: *const i8, ref1_len: usize, mv1: *const i16, mv1_len: usize,
            pictures0: *const i32, pictures0_len: usize, pictures1: *const i32, pictures1_len: usize,
            strengths: *mut u8, strengths_len: usize,
        ) -> u32;
        pub fn deblock_whole(
            w: usize, h: usize, part: u8,
            a: i32, b: i32, chroma_u: i32, chroma_v: i32,
            luma: *mut u8, luma_len: usize, u: *mut u8, u_len: usize, v: *mut u8, v_len: usize,
            strengths: *const u8, strengths_len: usize, qps: *const u8, qps_len: usize,
            t8s: *const u8, t8s_len: usize,
        ) -> u32;
        pub fn deblock_rows(
            w: usize, h: usize, part: u8, first: usize, last: usize,
            a: i32, b: i32, chroma_u: i32, chroma_v: i32,
            luma: *mut u8, luma_len: usize, u: *mut u8, u_len: usize, v: *mut u8, v_len: usize,
            strengths: *const u8, strengths_len: usize, qps: *const u8, qps_len: usize,
            t8s: *const u8, t8s_len: usize,
        ) -> u32;
        pub fn deblock_visit(
            w: usize, h: usize, part: u8, x: usize, y: usize,
            a: i32, b: i32, chroma_u: i32, chroma_v: i32,
            luma: *mut u8, luma_len: usize, u: *mut u8, u_len: usize, v: *mut u8, v_len: usize,
            strengths: *const u8, strengths_len: usize, qps: *const u8, qps_len: usize,
            t8s: *const u8, t8s_len: usize, marks: *mut u8, marks_len: usize,
        ) -> u32;
        pub fn deblock_whole_slices(
            w: usize, h: usize, part: u8,
            chroma_u: i32, chroma_v: i32,
            slices: *const super::SliceRecord, slices_len: usize, numbers: *const u16, numbers_len: usize,
            luma: *mut u8, luma_len: usize, u: *mut u8, u_len: usize, v: *mut u8, v_len: usize,
            strengths: *const u8, strengths_len: usize, qps: *const u8, qps_len: usize,
            t8s: *const u8, t8s_len: usize,
        ) -> u32;
        pub fn deblock_rows_slices(
            w: usize, h: usize, part: u8, first: usize, last: usize,
            chroma_u: i32, chroma_v: i32,
            slices: *const super::SliceRecord, slices_len: usize, numbers: *const u16, numbers_len: usize,
            luma: *mut u8, luma_len: usize, u: *mut u8, u_len: usize, v: *mut u8, v_len: usize,
            strengths: *const u8, strengths_len: usize, qps: *const u8, qps_len: usize,
            t8s: *const u8, t8s_len: usize,
        ) -> u32;
        pub fn deblock_visit_slices(
            w: usize, h: usize, part: u8, x: usize, y: usize,
            chroma_u: i32, chroma_v: i32,
            slices: *const super::SliceRecord, slices_len: usize, numbers: *const u16, numbers_len: usize,
            luma: *mut u8, luma_len: usize, u: *mut u8, u_len: usize, v: *mut u8, v_len: usize,
            strengths: *const u8, strengths_len: usize, qps: *const u8, qps_len: usize,
            t8s: *const u8, t8s_len: usize, marks: *mut u8, marks_len: usize,
        ) -> u32;
        pub fn deblock_is_final(
            w: usize, h: usize, x: usize, y: usize, marks: *const u8, marks_len: usize,
        ) -> super::Finality;
        pub fn deblock_made_final(
            w: usize, h: usize, x: usize, y: usize, marks: *const u8, marks_len: usize,
        ) -> super::Finals;
        pub fn deblock_y4m_look(stream: *const u8, stream_len: usize) -> super::Y4m;
        pub fn deblock_y4m_read(
            stream: *const u8, stream_len: usize,
            luma: *mut u8, luma_len: usize, u: *mut u8, u_len: usize, v: *mut u8, v_len: usize,
        ) -> super::Y4m;
        pub fn deblock_y4m_length(w: usize, h: usize) -> usize;
        pub fn deblock_y4m_write(
            w: usize, h: usize,
            luma: *const u8, luma_len: usize, u: *const u8, u_len: usize, v: *const u8, v_len: usize,
            stream: *mut u8, stream_len: usize,
        ) -> u32;
    }
}

/// Strengths of a macroblock by kind: 0 intra, 1 skip, 2 inter uniform, 3 inter; any other byte is refused.
pub fn strengths_kind(p: &mut Picture, field: u8, g: Grids, at: Place, kind: u8) -> u32 {
    // SAFETY: every pointer and length is a slice's, and what is written is borrowed by nobody else.
    unsafe {
        c::deblock_strengths_kind(
            p.size.w, p.size.h, field, at.x, at.y, kind,
            p.t8s.as_ptr(), p.t8s.len(),
            g.inter.as_ptr(), g.inter.len(), g.nnz.as_ptr(), g.nnz.len(),
            g.ref0.as_ptr(), g.ref0.len(), g.mv0.as_ptr(), g.mv0.len(),
            g.ref1.as_ptr(), g.ref1.len(), g.mv1.as_ptr(), g.mv1.len(),
            g.pictures0.as_ptr(), g.pictures0.len(), g.pictures1.as_ptr(), g.pictures1.len(),
            p.strengths.as_mut_ptr(), p.strengths.len(),
        )
    }
}

/// Strengths of a macroblock with the flags flat and uniform, each set unless 0.
pub fn strengths_flags(p: &mut Picture, field: u8, g: Grids, at: Place, [flat, uniform]: [u8; 2]) -> u32 {
    // SAFETY: as above.
    unsafe {
        c::deblock_strengths_flags(
            p.size.w, p.size.h, field, at.x, at.y, flat, uniform,
            p.t8s.as_ptr(), p.t8s.len(),
            g.inter.as_ptr(), g.inter.len(), g.nnz.as_ptr(), g.nnz.len(),
            g.ref0.as_ptr(), g.ref0.len(), g.mv0.as_ptr(), g.mv0.len(),
            g.ref1.as_ptr(), g.ref1.len(), g.mv1.as_ptr(), g.mv1.len(),
            g.pictures0.as_ptr(), g.pictures0.len(), g.pictures1.as_ptr(), g.pictures1.len(),
            p.strengths.as_mut_ptr(), p.strengths.len(),
        )
    }
}

/// Strengths of a macroblock of which nothing is known.
pub fn strengths(p: &mut Picture, field: u8, g: Grids, at: Place) -> u32 {
    // SAFETY: as above.
    unsafe {
        c::deblock_strengths(
            p.size.w, p.size.h, field, at.x, at.y,
            p.t8s.as_ptr(), p.t8s.len(),
            g.inter.as_ptr(), g.inter.len(), g.nnz.as_ptr(), g.nnz.len(),
            g.ref0.as_ptr(), g.ref0.len(), g.mv0.as_ptr(), g.mv0.len(),
            g.ref1.as_ptr(), g.ref1.len(), g.mv1.as_ptr(), g.mv1.len(),
            g.pictures0.as_ptr(), g.pictures0.len(), g.pictures1.as_ptr(), g.pictures1.len(),
            p.strengths.as_mut_ptr(), p.strengths.len(),
        )
    }
}

/// Strengths of all macroblocks of row `y`: by the kinds of the picture's macroblocks, numbers as
/// [`strengths_kind`] takes them, or where `kinds` is empty with nothing known.
pub fn strengths_row(p: &mut Picture, field: u8, g: Grids, y: usize, kinds: &[u8]) -> u32 {
    // SAFETY: as above.
    unsafe {
        c::deblock_strengths_row(
            p.size.w, p.size.h, field, y,
            kinds.as_ptr(), kinds.len(), p.t8s.as_ptr(), p.t8s.len(),
            g.inter.as_ptr(), g.inter.len(), g.nnz.as_ptr(), g.nnz.len(),
            g.ref0.as_ptr(), g.ref0.len(), g.mv0.as_ptr(), g.mv0.len(),
            g.ref1.as_ptr(), g.ref1.len(), g.mv1.as_ptr(), g.mv1.len(),
            g.pictures0.as_ptr(), g.pictures0.len(), g.pictures1.as_ptr(), g.pictures1.len(),
            p.strengths.as_mut_ptr(), p.strengths.len(),
        )
    }
}

/// Filters the whole picture.
pub fn whole(p: &mut Picture, part: u8) -> u32 {
    // SAFETY: as above; the three planes are borrowed apart from each other.
    unsafe {
        c::deblock_whole(
            p.size.w, p.size.h, part,
            p.offsets.a, p.offsets.b, p.offsets.chroma_u, p.offsets.chroma_v,
            p.luma.as_mut_ptr(), p.luma.len(), p.u.as_mut_ptr(), p.u.len(), p.v.as_mut_ptr(), p.v.len(),
            p.strengths.as_ptr(), p.strengths.len(), p.qps.as_ptr(), p.qps.len(), p.t8s.as_ptr(), p.t8s.len(),
        )
    }
}

/// Filters the macroblock rows from `first` on and before `last`.
pub fn rows(p: &mut Picture, part: u8, first: usize, last: usize) -> u32 {
    // SAFETY: as above.
    unsafe {
        c::deblock_rows(
            p.size.w, p.size.h, part, first, last,
            p.offsets.a, p.offsets.b, p.offsets.chroma_u, p.offsets.chroma_v,
            p.luma.as_mut_ptr(), p.luma.len(), p.u.as_mut_ptr(), p.u.len(), p.v.as_mut_ptr(), p.v.len(),
            p.strengths.as_ptr(), p.strengths.len(), p.qps.as_ptr(), p.qps.len(), p.t8s.as_ptr(), p.t8s.len(),
        )
    }
}

/// Filters a macroblock, if it is ready, and marks it.
pub fn visit(p: &mut Picture, part: u8, at: Place) -> u32 {
    // SAFETY: as above; the marks are borrowed apart from the planes.
    unsafe {
        c::deblock_visit(
            p.size.w, p.size.h, part, at.x, at.y,
            p.offsets.a, p.offsets.b, p.offsets.chroma_u, p.offsets.chroma_v,
            p.luma.as_mut_ptr(), p.luma.len(), p.u.as_mut_ptr(), p.u.len(), p.v.as_mut_ptr(), p.v.len(),
            p.strengths.as_ptr(), p.strengths.len(), p.qps.as_ptr(), p.qps.len(), p.t8s.as_ptr(), p.t8s.len(),
            p.marks.as_mut_ptr(), p.marks.len(),
        )
    }
}

/// Filters the whole picture with slices.
pub fn whole_slices(p: &mut Picture, part: u8) -> u32 {
    // SAFETY: as above; a record has C's layout.
    unsafe {
        c::deblock_whole_slices(
            p.size.w, p.size.h, part,
            p.offsets.chroma_u, p.offsets.chroma_v,
            p.slices.as_ptr(), p.slices.len(), p.slice_numbers.as_ptr(), p.slice_numbers.len(),
            p.luma.as_mut_ptr(), p.luma.len(), p.u.as_mut_ptr(), p.u.len(), p.v.as_mut_ptr(), p.v.len(),
            p.strengths.as_ptr(), p.strengths.len(), p.qps.as_ptr(), p.qps.len(), p.t8s.as_ptr(), p.t8s.len(),
        )
    }
}

/// Filters the macroblock rows from `first` on and before `last` with slices.
pub fn rows_slices(p: &mut Picture, part: u8, first: usize, last: usize) -> u32 {
    // SAFETY: as above; a record has C's layout.
    unsafe {
        c::deblock_rows_slices(
            p.size.w, p.size.h, part, first, last,
            p.offsets.chroma_u, p.offsets.chroma_v,
            p.slices.as_ptr(), p.slices.len(), p.slice_numbers.as_ptr(), p.slice_numbers.len(),
            p.luma.as_mut_ptr(), p.luma.len(), p.u.as_mut_ptr(), p.u.len(), p.v.as_mut_ptr(), p.v.len(),
            p.strengths.as_ptr(), p.strengths.len(), p.qps.as_ptr(), p.qps.len(), p.t8s.as_ptr(), p.t8s.len(),
        )
    }
}

/// Filters a macroblock by its slice, if it is ready, and marks it.
pub fn visit_slices(p: &mut Picture, part: u8, at: Place) -> u32 {
    // SAFETY: as above; a record has C's layout.
    unsafe {
        c::deblock_visit_slices(
            p.size.w, p.size.h, part, at.x, at.y,
            p.offsets.chroma_u, p.offsets.chroma_v,
            p.slices.as_ptr(), p.slices.len(), p.slice_numbers.as_ptr(), p.slice_numbers.len(),
            p.luma.as_mut_ptr(), p.luma.len(), p.u.as_mut_ptr(), p.u.len(), p.v.as_mut_ptr(), p.v.len(),
            p.strengths.as_ptr(), p.strengths.len(), p.qps.as_ptr(), p.qps.len(), p.t8s.as_ptr(), p.t8s.len(),
            p.marks.as_mut_ptr(), p.marks.len(),
        )
    }
}

/// Whether a macroblock is final.
pub fn is_final(size: Size, at: Place, marks: &[u8]) -> Finality {
    // SAFETY: the pointer and the length are a slice's, and nothing is written.
    unsafe { c::deblock_is_final(size.w, size.h, at.x, at.y, marks.as_ptr(), marks.len()) }
}

/// Which of a macroblock and its left and upper neighbours are final.
pub fn made_final(size: Size, at: Place, marks: &[u8]) -> Finals {
    // SAFETY: as above.
    unsafe { c::deblock_made_final(size.w, size.h, at.x, at.y, marks.as_ptr(), marks.len()) }
}

/// How large the first picture of a stream is.
pub fn y4m_look(stream: &[u8]) -> Y4m {
    // SAFETY: the pointer and the length are a slice's, and nothing is written.
    unsafe { c::deblock_y4m_look(stream.as_ptr(), stream.len()) }
}

/// Places the planes of a stream's first picture.
pub fn y4m_read(stream: &[u8], luma: &mut [u8], u: &mut [u8], v: &mut [u8]) -> Y4m {
    // SAFETY: every pointer and length is a slice's, and the planes are borrowed apart from each other.
    unsafe {
        c::deblock_y4m_read(
            stream.as_ptr(), stream.len(),
            luma.as_mut_ptr(), luma.len(), u.as_mut_ptr(), u.len(), v.as_mut_ptr(), v.len(),
        )
    }
}

/// How many bytes a written stream has; 0 where the size is refused.
pub fn y4m_length(size: Size) -> usize {
    // SAFETY: no memory is lent.
    unsafe { c::deblock_y4m_length(size.w, size.h) }
}

/// Writes a stream of one picture.
pub fn y4m_write(size: Size, luma: &[u8], u: &[u8], v: &[u8], stream: &mut [u8]) -> u32 {
    // SAFETY: every pointer and length is a slice's, and the stream is borrowed by nobody else.
    unsafe {
        c::deblock_y4m_write(
            size.w, size.h,
            luma.as_ptr(), luma.len(), u.as_ptr(), u.len(), v.as_ptr(), v.len(),
            stream.as_mut_ptr(), stream.len(),
        )
    }
}

/// Kinds as the bytes that they are.
pub(crate) fn kind_bytes(kinds: &[Kind]) -> &[u8] {
    // SAFETY: a kind is one byte, its number.
    unsafe { std::slice::from_raw_parts(kinds.as_ptr().cast(), kinds.len()) }
}

#[cfg(test)]
mod tests {
    use super::*;
    use std::mem::offset_of;

    #[test]
    fn structs_are_laid_out_as_in_the_header() {
        assert_eq!([size_of::<Y4m>(), size_of::<Finality>(), size_of::<Finals>()], [12, 8, 8]);
        assert_eq!([size_of::<SliceRecord>(), size_of::<[SliceRecord; 2]>(), align_of::<SliceRecord>()], [3, 6, 1]);
        let members = [offset_of!(SliceRecord, mode), offset_of!(SliceRecord, a), offset_of!(SliceRecord, b)];
        assert_eq!(members, [0, 1, 2]);
        assert_eq!([offset_of!(Finality, answer), offset_of!(Finality, yes)], [0, 4]);
        assert_eq!([offset_of!(Finals, own), offset_of!(Finals, left), offset_of!(Finals, upper)], [4, 5, 6]);
    }

    #[test]
    fn kinds_are_their_numbers() {
        assert_eq!(kind_bytes(&[Kind::Inter, Kind::Intra, Kind::Skip, Kind::InterUniform]), [3, 0, 1, 2]);
        assert!(kind_bytes(&[]).is_empty());
    }

    /// A part above 2 is refused with 19: before the planes' lengths, and after a place outside.
    #[test]
    fn no_other_part() {
        let p = &mut Picture { size: Size { w: 1, h: 1 }, ..Picture::default() };
        let (inside, outside) = (Place { x: 0, y: 0 }, Place { x: 1, y: 0 });
        for part in 0..=255 {
            let answer = if part > 2 { 19 } else { 3 };
            assert_eq!([whole(p, part), rows(p, part, 0, 0), visit(p, part, inside)], [answer; 3]);
            assert_eq!([rows(p, part, 0, 2), visit(p, part, outside)], [2; 2]);
            let by_slices = [whole_slices(p, part), rows_slices(p, part, 0, 0), visit_slices(p, part, inside)];
            assert_eq!(by_slices, [answer; 3]);
            assert_eq!([rows_slices(p, part, 0, 2), visit_slices(p, part, outside)], [2; 2]);
        }
    }
}
