//! Of rows of strengths: everything, where everything is few.

use crate::refusals::{self, Sure};
use crate::request::{Buffer, Call, Request};
use crate::session::{Outcome, Session};
use crate::small::{kinds_picture, product, Thin};

pub fn run(s: &mut Session, thin: &mut Thin, part: u8) -> Outcome {
    every_three_kinds(s, thin, part)?;
    every_number_of_kinds(s, part)?;
    every_pair_of_refusals(s, part)
}

/// The last row of a picture of such macroblocks, by these kinds.
fn row(part: u8, (w, h): (usize, usize), macroblocks: &[usize], kinds: Vec<u8>) -> Request {
    let mut q = kinds_picture(part, w, h, macroblocks);
    (q.call, q.y, q.kinds) = (Call::StrengthsRow, h - 1, kinds.into());
    q
}

/// Every row of three macroblocks, each intra, flat or in halves, by every three kinds, wrong ones among
/// them: alone in its picture, and under a row of others, whose kinds are true of these.
fn every_three_kinds(s: &mut Session, thin: &mut Thin, part: u8) -> Outcome {
    for (above, content, kinds, _) in product([2, 27, 125, 1]) {
        if !thin.takes() {
            continue;
        }
        let digit = |number: usize, base: usize, m: usize| number / base.pow(m as u32) % base;
        let upper = (0..3 * above).map(|m| (digit(content, 3, m) + 1) % 3);
        let own = (0..3).map(|m| digit(content, 3, m));
        let macroblocks: Vec<usize> = upper.clone().chain(own).map(|i| [0, 2, 5][i]).collect();
        let kinds = upper.map(|i| [0, 1, 3][i]).chain((0..3).map(|m| digit(kinds, 5, m) as u8)).collect();
        s.check("small", &row(part, (3, 1 + above), &macroblocks, kinds))?;
    }
    Ok(())
}

/// Of every row of up to 3 by 3, and of the one after the last, with none to two too many kinds.
fn every_number_of_kinds(s: &mut Session, part: u8) -> Outcome {
    for (size, number, y, _) in product([9, 12, 4, 1]) {
        let (w, h) = (1 + size % 3, 1 + size / 3);
        let mut q = row(part, (w, h), &vec![2; w * h], vec![3; number]);
        q.y = y;
        s.check("small", &q)?;
    }
    Ok(())
}

/// What each refusal of the lower row of 3 by 2 macroblocks is sure to come of, in the order in which they
/// are asked: of the row, of its first macroblock, of the second, of the third.
const SURE: [Sure; 24] = [
    (1, |q| q.h = 257),
    (2, |q| q.y = 2),
    (4, |q| q.kinds.resize(7, 3)),
    (4, |q| q.strengths.resize(191, 0)),
    (4, |q| q.t8s.resize(5, 0)),
    (5, |q| q.nnz.resize(95, 0)),
    (5, |q| q.pictures0 = Buffer::default()),
    (7, |q| q.inter[48] = 2),
    (7, |q| q.t8s[0] = 2),
    (10, |q| q.ref0[48] = -2),
    (22, |q| q.pictures1.fill(-1)),
    (11, |q| q.inter[36] = 0),
    (11, |q| q.inter[49] = 0),
    (12, |q| q.kinds[3] = 4),
    (7, |q| q.inter[52] = 2),
    (7, |q| q.t8s[4] = 2),
    (10, |q| q.ref1[52] = -2),
    (11, |q| q.inter[53] = 0),
    (12, |q| q.kinds[4] = 0),
    (7, |q| q.inter[95] = 2),
    (7, |q| q.t8s[2] = 2),
    (10, |q| q.ref0[95] = -2),
    (11, |q| q.inter[94] = 0),
    (12, |q| q.kinds[5] = 255),
];

/// Each alone and each with each, with kinds and without.
fn every_pair_of_refusals(s: &mut Session, part: u8) -> Outcome {
    for (first, second, none, _) in product([SURE.len(), SURE.len(), 2, 1]) {
        let kinds = if none == 1 { Vec::new() } else { vec![3; 6] };
        if kinds.is_empty() && [first, second].iter().any(|i| SURE[*i].0 == 12) {
            continue;
        }
        let mut q = row(part, (3, 2), &[2; 6], kinds);
        q.t8s = vec![0; 6].into();
        q.tables().into_iter().for_each(|table| *table = vec![7; 2].into());
        refusals::pair(s, q, &SURE, first, second)?;
    }
    Ok(())
}

#[cfg(test)]
mod tests {
    use super::*;
    use crate::mistakes::Mistake;
    use crate::model::Model;

    type Set = fn(&mut Session, u8) -> Outcome;

    /// The first of the mistakes of which the set does not tell; without one it tells nothing.
    fn untold(set: Set, mistakes: &[Mistake]) -> Option<Mistake> {
        let tells = |mistake: Option<Mistake>| {
            let model = Model::with(mistake);
            set(&mut Session::new(&model, false), 0).is_err()
        };
        assert!(!tells(None));
        mistakes.iter().copied().find(|mistake| !tells(Some(*mistake)))
    }

    #[test]
    fn wrong_rows_are_told() {
        let kinds = [
            Mistake::RowWritesBeforeRefusal,
            Mistake::RowFirstAsked,
            Mistake::RowLastLeft,
            Mistake::RowWrittenAbove,
            Mistake::RowLeftEdgesNone,
            Mistake::RowUpperEdgesNone,
            Mistake::KindsFromStart,
            Mistake::FirstKindForAll,
            Mistake::KindsIgnored,
            Mistake::KindFourTaken,
        ];
        assert_eq!(untold(|s, part| every_three_kinds(s, &mut Thin::one_of(1), part), &kinds), None);
        let numbers = [
            Mistake::RowNextWritten,
            Mistake::NoKindsAreIntra,
            Mistake::KindsLengthUnasked,
            Mistake::RowOfKindsTaken,
            Mistake::NoKindsRefused,
            Mistake::KindsLengthBeforePlace,
        ];
        assert_eq!(untold(every_number_of_kinds, &numbers), None);
        let orders = [
            Mistake::RowWritesBeforeRefusal,
            Mistake::RowLastRefusal,
            Mistake::RowOrderOfChecks,
            Mistake::RowFirstAsked,
            Mistake::RowLastLeft,
            Mistake::KindsLengthBeforePlace,
        ];
        assert_eq!(untold(every_pair_of_refusals, &orders), None);
    }
}
