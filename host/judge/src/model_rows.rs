//! The model's rows of strengths: what the single calls of a row's macroblocks answer and write, from the
//! left on, or something wrong.

use crate::mistakes::Mistake;
use crate::model::Model;
use crate::request::{Call, Request};
use crate::table;
use std::ops::Range;

impl Model {
    /// What the row is refused with: of itself, else as the first of its macroblocks that is refused.
    pub fn row_number(&self, r: &Request) -> u32 {
        match self.own_number(r) {
            0 => self.first_number(r),
            number => number,
        }
    }

    /// Of size, place and how many kinds there are.
    fn own_number(&self, r: &Request) -> u32 {
        let number = table::row_answer(r);
        match self.mistake {
            Some(Mistake::KindsLengthUnasked) if number == 4 => 0,
            Some(Mistake::RowOfKindsTaken) if number == 4 && r.kinds.len() == r.w => 0,
            Some(Mistake::NoKindsRefused) if number == 0 && r.kinds.is_empty() => 4,
            Some(Mistake::KindsLengthBeforePlace) if number == 2 && ![0, r.w * r.h].contains(&r.kinds.len()) => 4,
            _ => number,
        }
    }

    fn first_number(&self, r: &Request) -> u32 {
        let numbers = self.numbers_of_singles(r);
        let mut refusals = numbers.iter().copied().filter(|number| *number != 0);
        let number = match self.mistake {
            Some(Mistake::RowLastRefusal) => refusals.next_back(),
            Some(Mistake::RowFirstAsked) => numbers.first().copied(),
            Some(Mistake::RowOrderOfChecks) => table::numbers().skip(1).find(|n| numbers.contains(n)),
            Some(Mistake::AllKindsAsked) => refusals.next().or_else(|| r.kinds.iter().any(|k| *k > 3).then_some(12)),
            _ => refusals.next(),
        };
        number.unwrap_or(0)
    }

    fn numbers_of_singles(&self, r: &Request) -> Vec<u32> {
        let mut single = r.clone();
        let number = |x: usize| {
            self.turn_to(&mut single, x);
            self.number(&single)
        };
        self.columns(r).map(number).collect()
    }

    fn columns(&self, r: &Request) -> Range<usize> {
        0..if self.has(Mistake::RowLastLeft) { r.w - 1 } else { r.w }
    }

    /// The row as the call of one macroblock, with what is known of it.
    fn turn_to(&self, r: &mut Request, x: usize) {
        r.turn_to(x);
        let kind = match self.mistake {
            Some(Mistake::KindsFromStart) => r.kinds.get(x).copied(),
            Some(Mistake::FirstKindForAll) => r.kinds.get(r.y * r.w).copied(),
            Some(Mistake::RowOfKindsTaken) if r.kinds.len() == r.w => Some(r.kinds[x]),
            Some(Mistake::NoKindsAreIntra) if r.kinds.is_empty() => Some(0),
            Some(Mistake::KindFourTaken) if r.kind > 3 => None,
            Some(Mistake::KindsIgnored) => None,
            _ => return,
        };
        (r.call, r.kind) = kind.map_or((Call::Flagless, 0), |kind| (Call::Kind, kind));
    }

    pub fn strengths_row(&self, r: &mut Request) {
        self.write(r, self.columns(r));
    }

    /// What a row that is refused writes: nothing.
    pub fn refused_row(&self, r: &mut Request) {
        if self.has(Mistake::RowWritesBeforeRefusal) && self.own_number(r) == 0 {
            let taken = self.numbers_of_singles(r).into_iter().take_while(|number| *number == 0).count();
            self.write(r, 0..taken);
        }
    }

    fn write(&self, r: &mut Request, columns: Range<usize>) {
        let (call, x, kind) = (r.call, r.x, r.kind);
        for column in columns {
            self.turn_to(r, column);
            self.strengths(r);
            self.write_wrongly(r);
        }
        (r.call, r.x, r.kind) = (call, x, kind);
    }

    /// A mistake in the strengths of one macroblock of a row, or in where they are written.
    fn write_wrongly(&self, r: &mut Request) {
        let at = r.at();
        let own = 32 * at..32 * at + 32;
        match self.mistake {
            Some(Mistake::RowLeftEdgesNone) => r.strengths[own][..4].fill(0),
            Some(Mistake::RowUpperEdgesNone) => r.strengths[own][16..20].fill(0),
            Some(Mistake::RowWrittenAbove) if r.y > 0 => r.strengths.copy_within(own, 32 * (at - r.w)),
            Some(Mistake::RowNextWritten) if r.x + 1 == r.w && r.y + 1 < r.h => {
                r.strengths.copy_within(own, 32 * (at + 1));
            }
            _ => {}
        }
    }
}
