//! The Rust original of the filter, scalar, behind functions on plain slices: unchanged for filtering, and
//! for strengths a copy with one module declared after its text.
//!
//! The first part is the thinnest shim in which its two files compile; nothing in it can change a result. The
//! second part puts the layouts of docs/RULES.md into the original's types and back. The original has no
//! refusals: where the rules refuse it computes something or panics, and `judge differences` shows which.

extern crate alloc;

/// Profiling scopes: the original names them; the guard does nothing.
pub mod prof {
    pub enum Stage {
        Deblock,
        DebPack,
        DebDerive,
        IntraPred,
        Reconstruct,
    }
    pub struct Guard;
    impl Drop for Guard {
        #[inline(always)]
        fn drop(&mut self) {} // `drop(_dg)` is written in deblock.rs
    }
    #[inline(always)]
    pub fn scope(_: Stage) -> Guard {
        Guard
    }
}

/// Counters, touched under a feature that is off.
pub mod atomic {
    pub use core::sync::atomic::AtomicU64;
}

/// Named by predict.rs in functions that the deblocking filter never calls.
pub mod transform {
    pub struct DequantQp;
    impl DequantQp {
        pub fn apply(&self, _: &[i32; 16]) -> [i32; 16] {
            unimplemented!()
        }
    }
    pub fn inverse_core(_: &[i32; 16]) -> [i32; 16] {
        unimplemented!()
    }
}

/// Named by predict.rs in functions that the deblocking filter never calls.
pub mod cavlc {
    pub fn un_scan_4x4_ac_into(_: &[i32], _: &mut [i32; 16]) {
        unimplemented!()
    }
    pub fn un_scan_4x4_dcac(_: &[i32; 16]) -> [i32; 16] {
        unimplemented!()
    }
}

include!(concat!(env!("OUT_DIR"), "/original.rs"));

mod filter;
mod strengths;

pub use filter::{Offsets, Planes, Stored};
pub use strengths::{Blocks, Grids};

#[cfg(test)]
mod tests {
    use super::*;

    /// P4, P5 and P8 of docs/RULES.md through a whole picture of the original: the shim has changed nothing.
    #[test]
    fn lines_of_the_proved_table() {
        let filtered = |left: u8, right: u8, strength: u8| {
            let half = |n: usize| -> Vec<u8> { (0..n * n).map(|i| if i % n < n / 2 { left } else { right }).collect() };
            let (mut luma, mut u, mut v) = (half(16), half(8), half(8));
            let mut strengths = [0; 32];
            strengths[8..12].fill(strength); // vertical edge 2: between the halves
            let stored = Stored::new(1, 1, &strengths, &[30], &[]);
            stored.filter_frame(Planes { luma: &mut luma, u: &mut u, v: &mut v }, Offsets { a: 0, b: 0, chroma: 1 });
            (luma[4..12].to_vec(), u[2..6].to_vec(), v[58..62].to_vec())
        };
        assert_eq!(filtered(60, 70, 4).0, [60, 60, 60, 63, 68, 70, 70, 70]);
        assert_eq!(filtered(60, 67, 4).0, [60, 61, 62, 63, 64, 65, 66, 67]);
        assert_eq!(filtered(60, 70, 2).0, [60, 60, 61, 63, 67, 69, 70, 70]);
        // QP 31 with the offset maps to 30
        assert_eq!(filtered(60, 70, 1).1, [60, 62, 68, 70]);
        assert_eq!(filtered(60, 70, 4).2, [60, 63, 68, 70]);
    }

    #[test]
    fn strengths_three_ways() {
        let (inter, nnz, ref0, mut mv0) = ([1; 32], [0; 32], [5; 32], [0; 64]);
        mv0[..].chunks_mut(16).for_each(|row| row[..8].fill(4)); // the left macroblock is 4 away in x and y
        let grids = Grids { inter: &inter, nnz: &nnz, ref0: &ref0, mv0: &mv0, ..Grids::default() };
        let blocks = Blocks::new(2, grids);
        let mut want = [0; 32];
        want[..4].fill(1);
        assert_eq!(blocks.by_kind(1, 0, 1), want);
        assert_eq!(blocks.by_flags(1, 0, true, true, false), want);
        assert_eq!(blocks.flagless(1, 0, true), want);
        assert_eq!(blocks.flagless(0, 0, false), [0; 32]);
    }

    /// Index 0 in the left half of a macroblock and 1 in the right one; in list 1, where it is lent, the
    /// other way round.
    #[test]
    fn references_by_lists() {
        let ref0: [i8; 16] = core::array::from_fn(|block| (block % 4 / 2) as i8);
        let ref1 = ref0.map(|index| 1 - index);
        let one = Grids { inter: &[1; 16], nnz: &[0; 16], ref0: &ref0, mv0: &[0; 32], ..Grids::default() };
        let two = Grids { ref1: &ref1, mv1: &[0; 32], ..one };
        let middle = |grids: Grids, pictures0, pictures1| {
            Blocks::new(1, Grids { pictures0, pictures1, ..grids }).flagless(0, 0, false)[8]
        };
        assert_eq!([middle(one, &[], &[]), middle(one, &[4, 9], &[]), middle(one, &[4, 4], &[])], [1, 1, 0]);
        assert_eq!([middle(two, &[], &[]), middle(two, &[4, 9], &[9, 4]), middle(two, &[4, 9], &[4, 9])], [0, 1, 0]);
        assert_eq!([middle(one, &[4], &[4]), middle(two, &[4], &[4])], [1, 0], "1 is past the table");
        assert_eq!([middle(two, &[], &[1, 0]), middle(two, &[1, 0], &[])], [1; 2], "stored beside pictures");
    }
}
