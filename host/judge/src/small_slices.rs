//! Of slices: everything, where everything is few.

use crate::refusals::{self, Sure};
use crate::request::{Call, Request, FILTER_CALLS};
use crate::session::{Outcome, Session};
use crate::small::{blocky, product, Thin, SIZES};
use crate::table;
use deblock::SliceRecord;

pub fn run(s: &mut Session, thin: &mut Thin, part: u8) -> Outcome {
    every_numbering(s, thin, part)?;
    every_pair_of_offsets(s, thin, part)?;
    every_value_of_a_record(s, part)?;
    every_place_of_a_number(s, part)?;
    every_length(s, part)?;
    every_pair_of_numbers(s, part)?;
    every_bad_record(s, part)?;
    every_empty_range(s, part)?;
    every_pair_of_refusals(s, part)
}

fn record(mode: u8, a: i8, b: i8) -> SliceRecord {
    SliceRecord { mode, a, b }
}

/// A filtering call with slices, in which strengths 1 to 4 stand on every edge; a visit is ready at every
/// place. The slices are lent afterwards.
fn ready(part: u8, call: Call, w: usize, h: usize) -> Request {
    let mut q = blocky(part, call, w, h, 9);
    q.strengths.iter_mut().enumerate().for_each(|(i, s)| *s = (1 + (i / 32 + i) % 4) as u8);
    q.sliced = true;
    q
}

/// Lends the slices, and for a visit takes the mark of its macroblock.
fn lend(q: &mut Request, slices: &[SliceRecord], numbers: &[u16]) {
    (q.slices, q.numbers) = (slices.to_vec().into(), numbers.to_vec().into());
    if q.call == Call::Visit {
        let at = q.at();
        q.marks[at] = 0;
    }
}

/// Every call on the four smallest sizes: every numbering by up to three slices, of every mode, with the same
/// offsets, so that records are equal, and with others. Rows are those after the first one, a visit is that
/// of every macroblock.
fn every_numbering(s: &mut Session, thin: &mut Thin, part: u8) -> Outcome {
    for (w, h) in SIZES {
        let n = w * h;
        for (code, modes, apart, call) in product([3usize.pow(n as u32), 27, 2, n + 2]) {
            if !thin.takes() {
                continue;
            }
            let numbers: Vec<u16> = (0..n).map(|m| (code / 3usize.pow(m as u32) % 3) as u16).collect();
            let offsets = [[(0, 0); 3], [(0, 0), (6, -4), (-5, 8)]][apart];
            let table: [SliceRecord; 3] =
                std::array::from_fn(|i| record((modes / 3usize.pow(i as u32) % 3) as u8, offsets[i].0, offsets[i].1));
            let mut q = ready(part, FILTER_CALLS[call.min(2)], w, h);
            q.first = h - 1;
            (q.x, q.y) = (call.saturating_sub(2) % w, call.saturating_sub(2) / w);
            lend(&mut q, &table, &numbers);
            s.check("small", &q)?;
        }
    }
    Ok(())
}

/// One slice of mode 0 with every pair of offsets, which is the plain call; the record stands first or last.
fn every_pair_of_offsets(s: &mut Session, thin: &mut Thin, part: u8) -> Outcome {
    for (qp, a, b, call) in product([4, 25, 25, 3]) {
        if !thin.takes() {
            continue;
        }
        let mut q = ready(part, FILTER_CALLS[call], 2, 1);
        q.qps.fill([20, 28, 36, 45][qp]);
        let (own, other) = (record(0, a as i8 - 12, b as i8 - 12), record(1, b as i8 - 12, a as i8 - 12));
        let (table, number) = if (a + b) % 2 == 0 { (vec![own], 0) } else { (vec![other, own], 1) };
        lend(&mut q, &table, &[number; 2]);
        s.check("small", &q)?;
    }
    Ok(())
}

/// Every byte for a mode and for an offset, of a record that is used and of one that is not.
fn every_value_of_a_record(s: &mut Session, part: u8) -> Outcome {
    for (byte, member, used, call) in product([256, 3, 2, 3]) {
        let byte = byte as u8;
        let own = [record(byte, 0, 0), record(0, byte as i8, 0), record(0, 0, byte as i8)][member];
        let mut q = ready(part, FILTER_CALLS[call], 1, 1);
        lend(&mut q, &[record(0, 1, 1), own], &[used as u16]);
        s.check("small", &q)?;
    }
    Ok(())
}

/// Of 3 by 3 macroblocks each has a slice number outside the table in turn, and none has; in every call, of
/// every range of rows and at every place.
fn every_place_of_a_number(s: &mut Session, part: u8) -> Outcome {
    let ranges = (0..5).flat_map(|first| (0..5).map(move |last| (Call::Rows, first, last)));
    let places = (0..9).map(|m| (Call::Visit, m % 3, m / 3));
    for (call, first, second) in ranges.chain(places).chain([(Call::Whole, 0, 0)]) {
        for (bad, number) in (0..10).flat_map(|bad| [2, 3, u16::MAX].map(|number| (bad, number))) {
            let mut q = ready(part, call, 3, 3);
            if call == Call::Rows {
                (q.first, q.last) = (first, second);
            } else {
                (q.x, q.y) = (first, second);
            }
            let numbers: Vec<u16> = (0..9).map(|m| if m == bad { number } else { (m % 2) as u16 }).collect();
            lend(&mut q, &[record(2, 0, 0), record(1, 3, 3)], &numbers);
            s.check("small", &q)?;
        }
    }
    Ok(())
}

/// Around the numbers that a byte holds and those that 16 bits do, and around the largest picture.
const LENGTHS: [usize; 14] = [0, 1, 2, 255, 256, 257, 300, 36_863, 36_864, 40_000, 65_535, 65_536, 65_537, 70_000];

/// Tables of these lengths, with numbers at their ends and at those of 16 bits: of the macroblock, of its
/// left, upper and right neighbour. The records differ from place to place.
fn every_length(s: &mut Session, part: u8) -> Outcome {
    let table: Vec<SliceRecord> =
        (0..70_000).map(|i| record((i % 3) as u8, (i % 25) as i8 - 12, (i / 25 % 25) as i8 - 12)).collect();
    for (length, value, place, call) in product([LENGTHS.len(), 5, 4, 3]) {
        let length = LENGTHS[length];
        let number = [0, length.saturating_sub(1), length, length + 1, 65_535][value].min(65_535) as u16;
        let mut q = ready(part, FILTER_CALLS[call], 3, 2);
        (q.x, q.y, q.first) = (1, 1, 1);
        let bad = [4, 3, 1, 5][place];
        let numbers: Vec<u16> = (0..6).map(|m| if m == bad { number } else { 0 }).collect();
        lend(&mut q, &table[..length], &numbers);
        s.check("small", &q)?;
    }
    Ok(())
}

/// Two macroblocks of every pair of these numbers, some alike in their low bits, side by side and one above
/// the other, by a table of equal records of mode 2 that is just long enough.
fn every_pair_of_numbers(s: &mut Session, part: u8) -> Outcome {
    const NUMBERS: [u16; 9] = [0, 1, 255, 256, 257, 512, 32_768, 33_024, 65_535];
    for (p, own, wide, call) in product([NUMBERS.len(), NUMBERS.len(), 2, 3]) {
        let numbers = [NUMBERS[p], NUMBERS[own]];
        let mut q = ready(part, FILTER_CALLS[call], 1 + wide, 2 - wide);
        (q.x, q.y) = (wide, 1 - wide);
        lend(&mut q, &vec![record(2, 0, 0); 1 + usize::from(numbers[0].max(numbers[1]))], &numbers);
        s.check("small", &q)?;
    }
    Ok(())
}

/// One bad record, anywhere in tables of some lengths: the macroblock's own or not, in every call and in an
/// empty range of rows.
fn every_bad_record(s: &mut Session, part: u8) -> Outcome {
    const BAD: [(u8, i8, i8); 7] =
        [(3, 0, 0), (255, 0, 0), (0, 13, 0), (0, 0, -13), (0, -128, 0), (0, 0, 127), (4, 13, 0)];
    for (length, place, bad, call) in product([4, 5, BAD.len(), 8]) {
        let length = [1, 2, 300, 40_000][length];
        let (mode, a, b) = BAD[bad];
        let mut q = ready(part, [Call::Whole, Call::Rows, Call::Rows, Call::Visit][call / 2], 2, 1);
        q.first = usize::from(call / 2 == 1);
        let mut table = vec![record(2, -2, 2); length];
        let place = [0, 1, 255, 256, length - 1][place].min(length - 1);
        table[place] = record(mode, a, b);
        let number = if call % 2 == 0 { place } else { (place + 1) % length } as u16;
        lend(&mut q, &table, &[number; 2]);
        s.check("small", &q)?;
    }
    Ok(())
}

/// Empty ranges of rows by tables of no record, of good ones and of bad ones, with numbers inside and
/// outside, and as many as there must be, one fewer, one more and none.
fn every_empty_range(s: &mut Session, part: u8) -> Outcome {
    let tables =
        [vec![], vec![record(0, 0, 0)], vec![record(3, 0, 0)], vec![record(1, 0, 13)], vec![record(9, -13, 0)]];
    for (table, number, count, row) in product([tables.len(), 3, 4, 3]) {
        let mut q = ready(part, Call::Rows, 1, 2);
        (q.first, q.last) = (row, row);
        lend(&mut q, &tables[table], &vec![[0, 1, 65_535][number]; [2, 1, 3, 0][count]]);
        s.check("small", &q)?;
    }
    Ok(())
}

/// What each refusal of a call with slices on 2 by 2 macroblocks is sure to come of, in the order in which
/// they are asked. The first record is used, the third is not.
const SURE: [Sure; 24] = [
    (1, |q| q.h = 257),
    (2, |q| (q.x, q.last) = (2, 3)),
    (19, |q| q.part = 3),
    (3, |q| q.v.resize(127, 0)),
    (4, |q| q.qps.resize(5, 0)),
    (4, |q| q.numbers.resize(3, 0)),
    (4, |q| q.numbers.resize(0, 0)),
    (6, |q| q.offsets[2] = 13),
    (6, |q| q.offsets[3] = -13),
    (6, |q| q.slices[0].a = 13),
    (6, |q| q.slices[0].b = -13),
    (6, |q| q.slices[2].a = -13),
    (6, |q| q.slices[2].b = 13),
    (7, |q| q.t8s[3] = 2),
    (8, |q| q.qps[3] = 52),
    (9, |q| q.strengths[127] = 5),
    (20, |q| q.numbers[3] = 3),
    (20, |q| q.numbers[2] = 3),
    (20, |q| q.numbers[1] = 65_535),
    (21, |q| q.slices[0].mode = 3),
    (21, |q| q.slices[2].mode = 255),
    (21, |q| q.slices[1].mode = 4),
    (13, |q| q.marks[3] = 1),
    (14, |q| q.marks[2] = 0),
];

/// Each alone and each with each. A grid that was cut has no entry to spoil any more.
fn every_pair_of_refusals(s: &mut Session, part: u8) -> Outcome {
    for (first, second, call, _) in product([SURE.len(), SURE.len(), 3, 1]) {
        let call = FILTER_CALLS[call];
        let numbers = [first, second].map(|i| SURE[i].0);
        let is_cut = [5, 6].contains(&first.min(second)) && numbers.contains(&20);
        if !is_cut && numbers.iter().all(|number| table::can_give(call, true, *number)) {
            let mut q = ready(part, call, 2, 2);
            (q.x, q.y, q.t8s) = (1, 1, vec![0; 4].into());
            lend(&mut q, &[record(0, 0, 0), record(1, 2, 2), record(2, -2, 4)], &[1, 0, 0, 0]);
            refusals::pair(s, q, &SURE, first, second)?;
        }
    }
    Ok(())
}

#[cfg(test)]
mod tests {
    use super::*;
    use crate::mistakes::Mistake;
    use crate::model::Model;

    type Set = fn(&mut Session, u8) -> Outcome;

    /// Whether a part of the set tells.
    fn tells(set: Set, mistake: Option<Mistake>) -> bool {
        let model = Model::with(mistake);
        (0..2).any(|part| set(&mut Session::new(&model, false), part).is_err())
    }

    /// The first mistake of these that the set does not tell.
    fn untold(set: Set, mistakes: &[Mistake]) -> Option<Mistake> {
        assert!(!tells(set, None));
        mistakes.iter().copied().find(|mistake| !tells(set, Some(*mistake)))
    }

    #[test]
    fn edges_that_a_mode_leaves_are_told() {
        use Mistake::*;
        let wrong = [
            ModesIgnored,
            ModeOneNextLeft,
            ModeOneNextTop,
            ModeOneInner,
            ModeOneOuter,
            ModeOneChroma,
            ModeTwoByRecord,
            ModeTwoInner,
            ModeTwoLeftOnly,
            ModeTwoTopOnly,
            ModeTwoAlways,
            ModeTwoOfP,
            ModeTwoHigherNumber,
            OffsetsOfPLeft,
            OffsetsOfPAbove,
            RecordByMacroblock,
        ];
        assert_eq!(untold(|s, part| every_numbering(s, &mut Thin::one_of(1), part), &wrong), None);
    }

    #[test]
    fn wrong_numbers_are_told() {
        use Mistake::*;
        let places = [LeftNumberUnasked, UpperNumberUnasked, UpperRightNumberAsked, RowAboveNumberUnasked];
        assert_eq!(untold(every_place_of_a_number, &places), None);
        assert_eq!(untold(every_pair_of_numbers, &[ModeTwoLowBits, ModeTwoByRecord, ModeTwoHigherNumber]), None);
        let lengths = [NumberAtLengthTaken, EightBitsOfNumber, NumberAbove255Refused, NoTableIsOneSlice];
        assert_eq!(untold(every_length, &lengths), None);
        let records = [UnusedOffsetUnasked, UnusedModeUnasked, FirstRecordsAsked, LastRecordUnasked];
        assert_eq!(untold(every_bad_record, &records), None);
        let empty = [EmptyRangeNumbersAsked, EmptyRangeModeUnasked, EmptyRangeRecordUnasked, NoNumbersTaken];
        assert_eq!(untold(every_empty_range, &empty), None);
        let order = [NumberBeforeStrength, NumberAfterMark, ModeBeforeNumber, ModeBeforeFlags, ModeAfterMark];
        assert_eq!(untold(every_pair_of_refusals, &order), None);
    }
}
