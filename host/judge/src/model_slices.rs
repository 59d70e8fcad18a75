//! The model's slices: what of clauses 8.7 and 8.7.2.2 depends on the slice that holds a macroblock.

use crate::mistakes::Mistake;
use crate::model::{Edge, Model};
use crate::request::{Call, Request};
use deblock::SliceRecord;

/// The number of a macroblock's slice. A mistake may let numbers of any length through to here.
pub fn slice(r: &Request, m: usize) -> u16 {
    r.numbers.get(m).copied().unwrap_or(0)
}

/// Whether an outer edge lies between macroblocks of two slices, which their numbers tell.
pub fn is_border_of_slice(r: &Request, e: Edge) -> bool {
    e.beside(r).is_some_and(|p| slice(r, p) != slice(r, e.own(r)))
}

impl Model {
    /// FilterOffsetA and FilterOffsetB of an edge: those of the slice that holds q0, without slices those of
    /// the picture.
    pub fn filter_offsets(&self, r: &Request, e: Edge) -> [i32; 2] {
        let [a, b, ..] = r.offsets;
        if !r.sliced {
            return [a, b];
        }
        let SliceRecord { a, b, .. } = self.record(r, self.offset_macroblock(r, e));
        match self.mistake {
            Some(Mistake::SliceOffsetsIgnored) => [0, 0],
            Some(Mistake::SliceOffsetsExchanged) => [b.into(), a.into()],
            Some(Mistake::SliceOffsetsInLuma) if e.chroma.is_some() => [0, 0],
            _ => [a.into(), b.into()],
        }
    }

    /// The macroblock whose slice gives the offsets.
    fn offset_macroblock(&self, r: &Request, e: Edge) -> usize {
        let of_p = match self.mistake {
            Some(Mistake::OffsetsOfP) => true,
            Some(Mistake::OffsetsOfPLeft) => !e.horizontal,
            Some(Mistake::OffsetsOfPAbove) => e.horizontal,
            _ => false,
        };
        e.beside(r).filter(|_| of_p).unwrap_or(e.own(r))
    }

    /// The record of a macroblock's slice. A mistake may let numbers outside the table through to here.
    pub fn record(&self, r: &Request, m: usize) -> SliceRecord {
        let place = match self.mistake {
            Some(Mistake::RecordByMacroblock) => m % r.slices.len().max(1),
            Some(Mistake::RecordByNext) => slice(r, m + 1).into(),
            Some(Mistake::FirstRecordForAll) => 0,
            Some(Mistake::EightBitsOfNumber) => usize::from(slice(r, m)) % 256,
            Some(Mistake::RowsNumbersFromStart) if r.call == Call::Rows => {
                slice(r, m - r.first.min(m / r.w) * r.w).into()
            }
            _ => slice(r, m).into(),
        };
        r.slices.get(place).copied().unwrap_or_default()
    }

    /// Whether the slices leave an edge out: filterLeftMbEdgeFlag, filterTopMbEdgeFlag and
    /// filterInternalEdgesFlag, as far as they depend on disable_deblocking_filter_idc.
    pub fn is_left_out_by_slice(&self, r: &Request, e: Edge) -> bool {
        if !r.sliced {
            return false;
        }
        let right = match self.record(r, e.own(r)).mode {
            0 => false,
            1 => true,
            _ => is_border_of_slice(r, e),
        };
        self.wrongly_by_slice(r, e, right).unwrap_or(right)
    }
}
