//! What a call is told and lent beside the picture.

/// Width and height of a picture, which is a frame or one field, in macroblocks: each 1 to 256, their product
/// at most 36,864.
#[derive(Clone, Copy, PartialEq, Eq, Debug, Default)]
pub struct Size {
    /// Macroblocks in a row.
    pub w: usize,
    /// Rows of macroblocks.
    pub h: usize,
}

impl Size {
    /// How many macroblocks the picture has; at most the largest number there is.
    pub fn macroblocks(self) -> usize {
        self.w.saturating_mul(self.h)
    }

    /// Where a macroblock of the picture stands in raster order: its entry in QPs, flags and marks.
    pub fn index(self, at: Place) -> usize {
        at.y * self.w + at.x
    }

    /// All macroblocks in raster order, which is the order of their indices.
    pub fn places(self) -> impl Iterator<Item = Place> {
        (0..self.h).flat_map(move |y| (0..self.w).map(move |x| Place { x, y }))
    }
}

/// Which lines of the planes are the picture's; a line is a row of samples.
#[derive(Clone, Copy, PartialEq, Eq, Debug, Default)]
pub enum Part {
    /// All lines.
    #[default]
    Frame = 0,
    /// The even lines, counted from 0: parity 0.
    TopField = 1,
    /// The odd lines: parity 1.
    BottomField = 2,
}

/// A macroblock's column and row, from 0.
#[derive(Clone, Copy, PartialEq, Eq, PartialOrd, Ord, Hash, Debug)]
pub struct Place {
    /// The column.
    pub x: usize,
    /// The row.
    pub y: usize,
}

/// The four offsets of a picture, each -12 to 12.
#[derive(Clone, Copy, PartialEq, Eq, Debug, Default)]
pub struct Offsets {
    /// FilterOffsetA: twice `slice_alpha_c0_offset_div2`. Calls with slices do not take it.
    pub a: i32,
    /// FilterOffsetB: twice `slice_beta_offset_div2`. Calls with slices do not take it.
    pub b: i32,
    /// U's chroma offset: `chroma_qp_index_offset`.
    pub chroma_u: i32,
    /// V's chroma offset: `second_chroma_qp_index_offset`; in a stream that does not send it, U's.
    pub chroma_v: i32,
}

/// The settings of a slice, laid out as `struct deblock_slice` of include/deblock.h: three bytes. Any values
/// may be lent; a call with slices refuses a table that holds others than these.
#[repr(C)]
#[derive(Clone, Copy, PartialEq, Eq, Debug, Default)]
pub struct SliceRecord {
    /// `disable_deblocking_filter_idc`. 0: all edges of the slice's macroblocks are filtered. 1: none is. 2:
    /// all but left edges where the left macroblock has another slice number, and top edges where the upper
    /// one has.
    pub mode: u8,
    /// FilterOffsetA of the slice, -12 to 12.
    pub a: i8,
    /// FilterOffsetB of the slice, -12 to 12.
    pub b: i8,
}

/// What the caller knows of a macroblock. A kind that is not true of the grids is refused.
#[repr(u8)]
#[derive(Clone, Copy, PartialEq, Eq, Debug)]
pub enum Kind {
    /// All 16 blocks are intra.
    Intra = 0,
    /// All 16 blocks are inter with the same motion and no coefficients.
    Skip = 1,
    /// All 16 blocks are inter with the same motion.
    InterUniform = 2,
    /// All 16 blocks are inter.
    Inter = 3,
}

/// What the caller knows of a macroblock, by flags. A set `flat` or `uniform` that is not true of the grids
/// is refused; either may be left unset where it is true.
#[derive(Clone, Copy, PartialEq, Eq, Debug, Default)]
pub struct Flags {
    /// Uniform, and all 16 counts are 0.
    pub flat: bool,
    /// All 16 blocks are inter with the same motion.
    pub uniform: bool,
}

/// The 4x4 grids of a picture, in rows of 4 * W blocks, and for each list a table from index to picture. The
/// two grids of list 1 may both be left empty: no block uses list 1. So may both tables: references are then
/// compared as the numbers that are stored. Where list 1 is lent, both tables are empty or neither is.
#[derive(Clone, Copy, Debug, Default)]
pub struct Grids<'a> {
    /// 1 if inter, else 0; 16 a macroblock.
    pub inter: &'a [u8],
    /// Counts of luma coefficients; 16 a macroblock. Where the macroblock's 8x8 flag is set, a count in any
    /// of the four blocks of an 8x8 block stands for all four.
    pub nnz: &'a [u8],
    /// References in list 0, -1 for none, as in intra blocks; 16 a macroblock. Without tables each is the
    /// number of the picture, with tables an index. Where the picture is a field its references are fields,
    /// each with a number of its own.
    pub ref0: &'a [i8],
    /// Motion in list 0 in quarter samples, in a field those of the field, x then y of each block; 32 a
    /// macroblock.
    pub mv0: &'a [i16],
    /// References in list 1.
    pub ref1: &'a [i8],
    /// Motion in list 1.
    pub mv1: &'a [i16],
    /// For each index of list 0 the number of its picture, 0 to 65,535; a reference past the table is as -1.
    /// One table serves the whole picture: where slices have lists of their own, store numbers in the grids.
    pub pictures0: &'a [i32],
    /// For each index of list 1.
    pub pictures1: &'a [i32],
}

#[cfg(test)]
mod tests {
    use super::*;

    #[test]
    fn places_are_in_the_order_of_indices() {
        let size = Size { w: 3, h: 2 };
        let indices: Vec<usize> = size.places().map(|at| size.index(at)).collect();
        assert_eq!(indices, (0..size.macroblocks()).collect::<Vec<usize>>());
    }
}
