//! The model's numbers: the table's, or wrong ones.

use crate::mistakes::Mistake;
use crate::model::Model;
use crate::request::{Call, Request};
use crate::table;

/// What the table answers to the request after a change.
pub fn with(r: &Request, change: impl Fn(&mut Request)) -> u32 {
    let mut other = r.clone();
    change(&mut other);
    table::answer(&other)
}

/// What the table first refuses where of a neighbour with the 8x8 flag a block behind the nearest four takes
/// the place of the nearest.
fn with_behind(r: &Request, take: impl Fn(&mut Request, usize, usize)) -> Option<u32> {
    let four = table::blocks_read(r).concat();
    let behind = table::counts_read(r).into_iter().filter(|block| !four.contains(block));
    let nearest = |block: usize| if four.contains(&(block + 1)) { block + 1 } else { block + 4 * r.w };
    behind.map(|block| with(r, |q| take(q, nearest(block), block))).find(|number| *number != 0)
}

impl Model {
    pub fn number(&self, r: &Request) -> u32 {
        if r.call == Call::StrengthsRow {
            return self.row_number(r);
        }
        let number = table::answer(r);
        let wrong = match r.call {
            Call::Visit => self.wrong_visit(r, number),
            Call::Rows => self.wrong_rows(r, number),
            _ => self.wrong_strengths(r, number),
        };
        let wrong = wrong.or_else(|| self.wrong_part(r, number)).or_else(|| self.wrong_offset(r, number));
        let wrong = wrong.or_else(|| self.wrong_slices(r, number));
        wrong.or_else(|| self.wrong_anywhere(r, number)).unwrap_or(number)
    }

    fn wrong_visit(&self, r: &Request, number: u32) -> Option<u32> {
        match self.mistake? {
            Mistake::NoUpperRight if number == 14 && r.y > 0 && r.x + 1 < r.w => {
                Some(with(r, |q| q.marks[(r.y - 1) * r.w + r.x + 1] = 1))
            }
            Mistake::MarkBeforeStrength if number == 9 && r.marks[r.at()] == 1 => Some(13),
            Mistake::AllQpsRead if [0, 9, 13, 14].contains(&number) && r.qps.iter().any(|&q| q > 51) => Some(8),
            Mistake::MarksShared => {
                let last = self.last.borrow();
                let other = last.as_ref().filter(|v| v.part != r.part && v.luma == r.luma.as_ptr())?;
                Some(with(r, |q| q.marks.iter_mut().zip(&other.marks).for_each(|(own, mark)| *own |= mark)))
            }
            _ => None,
        }
    }

    fn wrong_rows(&self, r: &Request, number: u32) -> Option<u32> {
        let empty = r.first == r.last;
        match self.mistake? {
            Mistake::EmptyRangeRefused if number == 0 && empty => Some(2),
            Mistake::EmptyRangeUnasked if number == 19 && empty => Some(0),
            Mistake::RowAboveUnread if number == 8 && r.first > 0 => {
                Some(with(r, |q| q.qps[(r.first - 1) * r.w..r.first * r.w].fill(0)))
            }
            _ => None,
        }
    }

    fn wrong_strengths(&self, r: &Request, number: u32) -> Option<u32> {
        let done = number == 0 && r.call.is_strengths();
        match self.mistake? {
            Mistake::EmptyListOneRefused if done && r.ref1.is_empty() => Some(5),
            Mistake::FlatNeedsUniform if done && r.call == Call::Flags && r.flat != 0 && r.uniform == 0 => Some(12),
            Mistake::StrengthsAskPart if done && r.part > 2 => Some(19),
            _ if r.call.is_strengths() => self.wrong_flags(r, number).or_else(|| self.wrong_tables(r, number)),
            _ => None,
        }
    }

    /// Of 8x8 flags, in strength calls.
    fn wrong_flags(&self, r: &Request, number: u32) -> Option<u32> {
        let after_7 = [0, 10, 22, 11, 12].contains(&number);
        match self.mistake? {
            Mistake::FlagLengthUnasked if number == 4 => Some(with(r, |q| q.t8s = Vec::new().into())),
            Mistake::NoFlagsRefused if number == 0 && r.t8s.is_empty() => Some(4),
            Mistake::OwnFlagAsked if number == 7 => {
                Some(with(r, |q| q.t8s.iter_mut().take(r.at()).for_each(|flag| *flag = 1.min(*flag))))
            }
            Mistake::AllFlagsAsked if after_7 && r.t8s.iter().any(|flag| *flag > 1) => Some(7),
            Mistake::UpperRightFlagAsked if after_7 && r.y > 0 && r.x + 1 < r.w => {
                r.t8s.get(r.at() - r.w + 1).filter(|flag| **flag > 1).map(|_| 7)
            }
            Mistake::EightInterAsked if number == 0 => with_behind(r, |q, near, far| q.inter[near] = r.inter[far]),
            Mistake::EightReferencesAsked if number == 0 => with_behind(r, |q, near, far| q.ref0[near] = r.ref0[far]),
            _ => None,
        }
    }

    /// Of frame and field, in filtering calls.
    fn wrong_part(&self, r: &Request, number: u32) -> Option<u32> {
        let as_part = |part: u8| with(r, |q| q.part = part);
        match self.mistake.filter(|_| !r.call.is_strengths())? {
            Mistake::PartAfterPlanes if number == 19 && as_part(0) == 3 && as_part(1) == 3 => Some(3),
            Mistake::PartBeforePlace if number == 2 && r.part > 2 => Some(19),
            Mistake::SingleLengths if number == 0 && r.part > 0 => Some(as_part(0)),
            Mistake::DoubledFrameTaken if number == 3 && r.part == 0 => Some(as_part(1)),
            _ => None,
        }
    }

    /// Of the two chroma offsets, in filtering calls.
    fn wrong_offset(&self, r: &Request, number: u32) -> Option<u32> {
        let [.., chroma_u, chroma_v] = r.offsets;
        let without_v = || with(r, |q| q.offsets[3] = 0);
        match self.mistake.filter(|_| !r.call.is_strengths())? {
            Mistake::OffsetOfUUnasked if number == 6 => Some(with(r, |q| q.offsets[2] = 0)),
            Mistake::OffsetOfVUnasked if number == 6 => Some(without_v()),
            Mistake::OffsetOfVBeforeLengths if number == 4 && !(-12..=12).contains(&chroma_v) => Some(6),
            Mistake::OffsetOfVAfterFlags if number == 6 && without_v() == 7 => Some(7),
            Mistake::TwoOffsetsRefused if number == 0 && chroma_u != chroma_v => Some(6),
            Mistake::OffsetDifferenceAsked if number == 0 && chroma_u.abs_diff(chroma_v) > 12 => Some(6),
            _ => None,
        }
    }

    fn wrong_anywhere(&self, r: &Request, number: u32) -> Option<u32> {
        match self.mistake? {
            Mistake::RefusesAlways if number == 0 => Some(1),
            Mistake::OddOffsetRefused if number == 0 && r.offsets.iter().any(|o| o % 2 != 0) => Some(6),
            Mistake::QpBeforeFlag if number == 7 && !r.call.is_strengths() => {
                let without_flags = with(r, |q| {
                    q.t8s = Vec::new().into();
                    q.marks.iter_mut().for_each(|m| *m = (*m).min(1));
                });
                (without_flags == 8).then_some(8)
            }
            _ => None,
        }
    }
}
