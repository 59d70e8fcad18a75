//! The model's wrong numbers of slices: of 4, 6, 20, 21 and 14.

use crate::mistakes::Mistake;
use crate::model::Model;
use crate::model_numbers::with;
use crate::request::{Call, Request};
use crate::table;
use deblock::SliceRecord;

/// What the table of refusals answers with a record of mode 0 and offsets 0 in the place of all that are so,
/// of a place and what stands there.
fn without(r: &Request, is_so: impl Fn(usize, SliceRecord) -> bool) -> u32 {
    with(r, |q| {
        let records = q.slices.iter_mut().enumerate();
        records
            .filter(|(place, record)| is_so(*place, **record))
            .for_each(|(_, record)| *record = SliceRecord::default());
    })
}

/// .. with every offset of a record 0.
fn without_offsets(r: &Request) -> u32 {
    with(r, |q| q.slices.iter_mut().for_each(|record| *record = SliceRecord { mode: record.mode, a: 0, b: 0 }))
}

/// .. with 0 in the place of all slice numbers of these macroblocks.
fn without_numbers(r: &Request, macroblocks: impl IntoIterator<Item = usize>) -> u32 {
    let macroblocks: Vec<usize> = macroblocks.into_iter().collect();
    with(r, |q| macroblocks.iter().for_each(|&m| q.numbers[m] = 0))
}

/// .. with as many slice numbers as there must be.
fn with_length(r: &Request) -> u32 {
    with(r, |q| q.numbers.resize(q.w * q.h, 0))
}

fn is_outside(r: &Request, number: u16) -> bool {
    usize::from(number) >= r.slices.len()
}

/// The places of the table that a slice number which is read names.
fn named(r: &Request) -> Vec<usize> {
    table::qps_read(r).into_iter().map(|m| r.numbers[m].into()).collect()
}

impl Model {
    pub fn wrong_slices(&self, r: &Request, number: u32) -> Option<u32> {
        match number {
            _ if !r.sliced => None,
            0 => self.wrongly_asked(r).or_else(|| self.wrong_table(r)),
            4 => self.wrong_length(r),
            6 => self.wrong_record_offset(r),
            7..=9 => self.wrong_before(r, number),
            20 => self.wrong_slice_number(r),
            21 => self.wrongly_asked(r).or_else(|| self.wrong_mode(r)),
            13 => self.wrongly_asked(r),
            14 => self.wrongly_asked(r).or_else(|| self.wrongly_ready(r)),
            _ => None,
        }
    }

    /// Of numbers that are not read.
    fn wrongly_asked(&self, r: &Request) -> Option<u32> {
        let outside = |m: usize| r.numbers.get(m).is_some_and(|&number| is_outside(r, number));
        let any_outside = || (0..r.numbers.len()).any(outside);
        let asked = match self.mistake? {
            Mistake::AllNumbersAsked => any_outside(),
            Mistake::EmptyRangeNumbersAsked => r.call == Call::Rows && r.first == r.last && any_outside(),
            Mistake::UpperRightNumberAsked => {
                r.call == Call::Visit && r.y > 0 && r.x + 1 < r.w && outside(r.at() - r.w + 1)
            }
            Mistake::NumberAbove255Refused => table::qps_read(r).into_iter().any(|m| r.numbers[m] > 255),
            _ => false,
        };
        asked.then_some(20)
    }

    /// Of tables that are taken.
    fn wrong_table(&self, r: &Request) -> Option<u32> {
        (self.has(Mistake::TableLengthAsked) && r.slices.len() > r.w * r.h).then_some(4)
    }

    fn wrong_length(&self, r: &Request) -> Option<u32> {
        let (n, length) = (r.w * r.h, r.numbers.len());
        let taken = match self.mistake? {
            Mistake::NumbersLengthUnasked => true,
            Mistake::NumbersOneShortTaken => length + 1 == n,
            Mistake::NumbersOneLongTaken => length == n + 1,
            Mistake::NoNumbersTaken => length == 0,
            Mistake::RecordOffsetBeforeLengths if with_length(r) == 6 && without_offsets(r) == 4 => return Some(6),
            _ => false,
        };
        taken.then(|| with_length(r))
    }

    fn wrong_record_offset(&self, r: &Request) -> Option<u32> {
        let is_empty = r.call == Call::Rows && r.first == r.last;
        let last = r.slices.len().saturating_sub(1);
        match self.mistake? {
            Mistake::RecordOffsetAUnasked => Some(with(r, |q| q.slices.iter_mut().for_each(|record| record.a = 0))),
            Mistake::RecordOffsetBUnasked => Some(with(r, |q| q.slices.iter_mut().for_each(|record| record.b = 0))),
            Mistake::UnusedOffsetUnasked => {
                let named = named(r);
                Some(without(r, |place, _| !named.contains(&place)))
            }
            Mistake::LastRecordUnasked => Some(without(r, |place, _| place == last)),
            Mistake::FirstRecordsAsked => Some(without(r, |place, _| place >= 256)),
            Mistake::RecordOffsetAfterFlags => Some(without_offsets(r)).filter(|number| *number == 7),
            Mistake::EmptyRangeRecordUnasked if is_empty => Some(without_offsets(r)),
            _ => None,
        }
    }

    /// Of numbers and modes that are asked before 7, 8 or 9, and of what is not read in mode 1.
    fn wrong_before(&self, r: &Request, number: u32) -> Option<u32> {
        let unread = || {
            let is_off = |m: usize| !is_outside(r, r.numbers[m]) && r.record(m).mode == 1;
            with(r, |q| (0..q.w * q.h).filter(|&m| is_off(m)).for_each(|m| blank(q, m)))
        };
        match self.mistake? {
            Mistake::NumberBeforeStrength if number == 9 => {
                Some(with(r, |q| q.strengths.fill(0))).filter(|number| *number == 20)
            }
            Mistake::ModeBeforeFlags => r.slices.iter().any(|record| record.mode > 2).then_some(21),
            Mistake::ModeOneUnread => Some(unread()),
            _ => None,
        }
    }

    fn wrong_slice_number(&self, r: &Request) -> Option<u32> {
        let is_visit = r.call == Call::Visit;
        let all = || 0..r.w * r.h;
        match self.mistake? {
            Mistake::NumberUnasked => Some(with(r, |q| {
                q.slices.resize(q.slices.len().max(1), SliceRecord::default());
                q.numbers.fill(0);
            })),
            Mistake::NoTableIsOneSlice if r.slices.is_empty() => Some(with(r, |q| {
                (q.slices, q.numbers) = (vec![SliceRecord::default()].into(), vec![0; q.w * q.h].into())
            })),
            Mistake::NumberAtLengthTaken if !r.slices.is_empty() => {
                Some(without_numbers(r, all().filter(|&m| usize::from(r.numbers[m]) == r.slices.len())))
            }
            Mistake::LeftNumberUnasked if is_visit && r.x > 0 => Some(without_numbers(r, [r.at() - 1])),
            Mistake::UpperNumberUnasked if is_visit && r.y > 0 => Some(without_numbers(r, [r.at() - r.w])),
            Mistake::RowAboveNumberUnasked if r.call == Call::Rows && r.first > 0 => {
                Some(without_numbers(r, r.w * (r.first - 1)..r.w * r.first))
            }
            Mistake::NumbersOfModeOneUnasked if is_visit && !is_outside(r, r.numbers[r.at()]) => {
                let is_off = r.record(r.at()).mode == 1;
                is_off.then(|| without_numbers(r, all().filter(|&m| m != r.at())))
            }
            Mistake::NumberAfterMark if is_visit && r.marks[r.at()] == 1 => Some(13),
            Mistake::ModeBeforeNumber => r.slices.iter().any(|record| record.mode > 2).then_some(21),
            _ => None,
        }
    }

    fn wrong_mode(&self, r: &Request) -> Option<u32> {
        let last = r.slices.len() - 1;
        match self.mistake? {
            Mistake::ModeUnasked => Some(without(r, |_, record| record.mode > 2)),
            Mistake::ModeThreeTaken => Some(without(r, |_, record| record.mode == 3)),
            Mistake::UnusedModeUnasked => {
                let named = named(r);
                Some(without(r, |place, _| !named.contains(&place)))
            }
            Mistake::LastRecordUnasked => Some(without(r, |place, _| place == last)),
            Mistake::FirstRecordsAsked => Some(without(r, |place, _| place >= 256)),
            Mistake::ModeAfterMark if r.call == Call::Visit && r.marks[r.at()] == 1 => Some(13),
            Mistake::EmptyRangeModeUnasked if r.call == Call::Rows && r.first == r.last => Some(0),
            _ => None,
        }
    }

    fn wrongly_ready(&self, r: &Request) -> Option<u32> {
        (self.has(Mistake::ModeOneReady) && r.record(r.at()).mode == 1).then_some(0)
    }
}

/// Good values in all that is read of a macroblock by itself.
fn blank(q: &mut Request, m: usize) {
    q.strengths[32 * m..32 * m + 32].fill(0);
    q.qps[m] = 0;
    if let Some(flag) = q.t8s.get_mut(m) {
        *flag = 0;
    }
}
