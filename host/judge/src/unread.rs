//! What a call does not read: other bytes there change neither its answer nor what it makes of the rest, and
//! come out as they went in. Of a field that is above all the lines of the other one, of a strength call the
//! blocks and flags beside those that it reads, kinds of other rows, and picture numbers that no reference
//! which is read names; of slices the numbers that are not read, and records of slices of which no macroblock
//! is filtered.

use crate::make;
use crate::make_slices;
use crate::request::{Buffer, Call, Lent, Request, Structure, FILTER_CALLS, STRENGTH_CALLS};
use crate::session::{Outcome, Session};
use crate::table;
use deblock::SliceRecord;
use inputs::Rng;

/// One picture of each call, with other bytes wherever it does not read.
pub fn check(s: &mut Session, r: &mut Rng, of: Structure) -> Outcome {
    let (w, h) = make::size(r, 12);
    let pictures = FILTER_CALLS.map(|call| make::picture(r, of, call, w, h));
    let grids =
        STRENGTH_CALLS.map(|call| if r.once_in(2) { make::grids(r, of, call, w, h) } else { still(r, of, call) });
    pictures.iter().chain(&grids).try_for_each(|q| spoiled(s, r, q))
}

/// The same of each call with slices.
pub fn check_with_slices(s: &mut Session, r: &mut Rng, of: Structure) -> Outcome {
    let (w, h) = make::size(r, 12);
    let pictures = FILTER_CALLS.map(|call| make_slices::picture(r, of, call, w, h));
    pictures.iter().try_for_each(|q| spoiled(s, r, q))
}

fn spoiled(s: &mut Session, r: &mut Rng, q: &Request) -> Outcome {
    let mut other = q.clone();
    spoil(r, &mut other);
    s.alike("unread", q, &other)
}

/// A strength call on a picture that stands still: few counts, and half of the 8x8 flags set, or none lent.
/// Most of its strengths are 0, so that a byte too many shows, wherever it is read; the macroblock in the
/// middle has neighbours all around it.
fn still(r: &mut Rng, of: Structure, call: Call) -> Request {
    let w = 3 + r.below(2);
    let mut q = make::blocks(r, of, call, w, 3);
    q.inter.fill(1);
    q.nnz.iter_mut().for_each(|count| *count = u8::from(r.once_in(12)));
    q.ref0.fill(0);
    q.mv0.fill(0);
    (q.ref1, q.mv1) = Default::default();
    let flags = if r.once_in(4) { 0 } else { q.w * q.h };
    q.t8s = (0..flags).map(|_| r.below(2) as u8).collect::<Vec<u8>>().into();
    make::place(r, &mut q);
    q
}

/// Other bytes in all that a call of the right lengths does not read, and other numbers in tables wherever no
/// reference that is read names them. The strengths that a strength call writes are not read either, and
/// stay: what it makes of them would not show.
fn spoil(r: &mut Rng, q: &mut Request) {
    let (blocks, counts) = (table::blocks_read(q).concat(), table::counts_read(q));
    let is_block = |i: usize| blocks.contains(&i);
    let used = table::entries_read(q);
    q.tables().into_iter().zip(used).for_each(|(table, used)| other_numbers(r, table, &used));
    fill(r, &mut q.inter, is_block);
    fill(r, &mut q.nnz, |i| counts.contains(&i));
    fill(r, &mut q.ref0, is_block);
    fill(r, &mut q.ref1, is_block);
    fill(r, &mut q.mv0, |i| is_block(i / 2));
    fill(r, &mut q.mv1, |i| is_block(i / 2));

    let own = if q.call.is_strengths() { table::macroblocks_written(q) } else { table::macroblocks_read(q) };
    fill(r, &mut q.strengths, |i| own.contains(&(i / 32)));
    fill(r, &mut q.kinds, |i| own.contains(&i));
    let (flags, qps, marks) = (table::flags_read(q), table::qps_read(q), table::marks_read(q));
    fill(r, &mut q.t8s, |i| flags.contains(&i));
    fill(r, &mut q.qps, |i| qps.contains(&i));
    other_records(r, q);
    fill(r, &mut q.numbers, |i| qps.contains(&i));
    fill(r, &mut q.marks, |i| marks.contains(&i));

    // samples are read of the macroblocks whose QPs are, of a field in its own lines
    let (w, part, share) = (q.w, usize::from(q.part), q.structure().share());
    let is_own = |line: usize| part == 0 || line % 2 == part - 1;
    for (plane, side) in [(&mut q.luma, 16), (&mut q.u, 8), (&mut q.v, 8)] {
        let (line, column) = (|i: usize| i / (side * w), |i: usize| i % (side * w));
        fill(r, plane, |i| is_own(line(i)) && qps.contains(&(line(i) / share / side * w + column(i) / side)));
    }
}

/// Other numbers wherever a table is not used. They are read, since each must be one, and do not tell.
fn other_numbers(r: &mut Rng, table: &mut Buffer<i32>, used: &[usize]) {
    for i in (0..table.len()).filter(|i| !used.contains(i)) {
        table[i] = (r.bits() as u16).into();
    }
}

/// Other records, good ones, wherever no macroblock that is filtered has its slice. They are read, since each
/// must be a good one, and do not tell; those of neighbours are among them.
fn other_records(r: &mut Rng, q: &mut Request) {
    let used: Vec<usize> = table::macroblocks_read(q).filter_map(|m| q.numbers.get(m)).map(|&n| n.into()).collect();
    for i in (0..q.slices.len()).filter(|i| !used.contains(i)) {
        q.slices[i] = SliceRecord { mode: r.below(3) as u8, a: r.within(-12, 12) as i8, b: r.within(-12, 12) as i8 };
    }
}

/// Other values in all places that are not read.
fn fill<T: Lent>(r: &mut Rng, b: &mut Buffer<T>, is_read: impl Fn(usize) -> bool) {
    for i in (0..b.len()).filter(|i| !is_read(*i)) {
        b[i] = T::of(r.bits());
    }
}

#[cfg(test)]
mod tests {
    use super::*;
    use crate::mistakes::Mistake;
    use crate::model::Model;

    type Check = fn(&mut Session, &mut Rng, Structure) -> Outcome;

    /// Whether some of these checks tell.
    fn tells(check: Check, mistake: Option<Mistake>) -> bool {
        let model = Model::with(mistake);
        let (mut s, mut r) = (Session::new(&model, false), Rng::new(1));
        (0..40).any(|i| check(&mut s, &mut r, [Structure::Frame, Structure::Field][i % 2]).is_err())
    }

    #[test]
    fn a_slice_too_many_is_told() {
        assert!(!tells(check_with_slices, None));
        let too_many = [
            Mistake::AllNumbersAsked,
            Mistake::UpperRightNumberAsked,
            Mistake::EmptyRangeNumbersAsked,
            Mistake::OffsetsOfP,
            Mistake::ModeOneNextLeft,
            Mistake::ModeTwoOfP,
            Mistake::RecordByNext,
        ];
        assert_eq!(too_many.into_iter().find(|mistake| !tells(check_with_slices, Some(*mistake))), None);
    }

    #[test]
    fn a_byte_too_many_is_told() {
        assert!(!tells(check, None));
        let too_many = [
            Mistake::TwelveFlagged,
            Mistake::EightUnflagged,
            Mistake::UpperRightFlagAsked,
            Mistake::AllFlagsAsked,
            Mistake::EightInterAsked,
            Mistake::EightReferencesAsked,
            Mistake::AllQpsRead,
            Mistake::PastIsLast,
            Mistake::NoneIsFirst,
            Mistake::AllKindsAsked,
            Mistake::KindsFromStart,
        ];
        assert_eq!(too_many.into_iter().find(|mistake| !tells(check, Some(*mistake))), None);
    }
}
