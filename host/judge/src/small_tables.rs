//! Of reference tables in strength calls: everything, where everything is few.

use crate::refusals::{self, Sure};
use crate::request::{Buffer, Call, Request, SINGLE_CALLS, STRENGTH_CALLS};
use crate::session::{Outcome, Session};
use crate::small::{ask_everywhere, kinds_picture, product, two_macroblocks, Motion, Thin};
use crate::table;

pub fn run(s: &mut Session, thin: &mut Thin, part: u8) -> Outcome {
    every_pair_in_one_list(s, thin, part)?;
    every_pair_in_two_lists(s, thin, part)?;
    every_lone_block(s, thin, part)?;
    every_length(s, thin, part)?;
    every_limit_of_numbers(s, part)?;
    every_set_of_tables(s, part)?;
    every_pair_of_refusals(s, part)
}

/// All tables of up to three entries over these pictures, the empty one first.
fn tables(pictures: &[i32]) -> Vec<Vec<i32>> {
    let n = pictures.len();
    let of_length =
        |length: u32| (0..n.pow(length)).map(move |code| (0..length).map(|i| pictures[code / n.pow(i) % n]).collect());
    (0..4).flat_map(of_length).collect()
}

/// Some are alike in their low 8 bits, some in their low 15, and one is an index as well.
const THREE: [i32; 3] = [0, 1, 257];
const TWO: [i32; 2] = [1, 32_769];

/// Number `i` of the five references that are tried: -1, those of a table of three entries, and the next one.
fn reference(i: usize) -> i8 {
    i as i8 - 1
}

const NO_MOTION: Motion = (-1, (0, 0));

fn without_list_1(q: &mut Request) {
    (q.ref1, q.mv1) = Default::default();
}

/// Two macroblocks of one reference each, by every table, with a table for list 1, which is not lent, and
/// without one.
fn every_pair_in_one_list(s: &mut Session, thin: &mut Thin, part: u8) -> Outcome {
    let tables = tables(&THREE);
    for (way, table, p, own) in product([4, tables.len(), 5, 5]) {
        let (w, h) = if way < 2 { (2, 1) } else { (1, 2) };
        let lists = [p, own].map(|i| [(reference(i), (0, 0)), NO_MOTION]);
        let mut q = two_macroblocks(part, w, h, lists);
        without_list_1(&mut q);
        q.pictures0 = tables[table].clone().into();
        q.pictures1 = vec![1; way % 2].into();
        if thin.takes() {
            s.check("small", &q)?;
        }
    }
    Ok(())
}

/// Two macroblocks of two references each, by every pair of tables. The vectors pair the lists directly, or
/// crossed, or both ways.
fn every_pair_in_two_lists(s: &mut Session, thin: &mut Thin, part: u8) -> Outcome {
    let tables = tables(&TWO);
    for (first, second, p, own) in product([tables.len(), tables.len(), 25, 25]) {
        if !thin.takes() {
            continue;
        }
        let across = [[[0, 0], [0, 0]], [[0, 4], [0, 4]], [[0, 4], [4, 0]]][(first + second + p + own) % 3];
        let lists = [0, 1].map(|m| {
            let refs = [[p, own][m] / 5, [p, own][m] % 5].map(reference);
            [0, 1].map(|list| (refs[list], (across[m][list], 0)))
        });
        let (w, h) = if (p + second) % 2 == 0 { (2, 1) } else { (1, 2) };
        let mut q = two_macroblocks(part, w, h, lists);
        (q.pictures0, q.pictures1) = (tables[first].clone().into(), tables[second].clone().into());
        s.check("small", &q)?;
    }
    Ok(())
}

/// One macroblock, of which one block has another reference in one of two lists, or in the only one, or just
/// another vector: asked in every way, true or not, by every pair of tables.
fn every_lone_block(s: &mut Session, thin: &mut Thin, part: u8) -> Outcome {
    let tables = tables(&TWO);
    for (way, first, second, refs) in product([6, tables.len(), tables.len(), 25]) {
        if !thin.takes() {
            continue;
        }
        let (list, moved) = (way / 2, way % 2 == 1);
        let mut q = kinds_picture(part, 1, 1, &[6]);
        let (own, mv) = if list == 1 { (&mut q.ref1, &mut q.mv1) } else { (&mut q.ref0, &mut q.mv0) };
        own.fill(reference(refs / 5));
        own[5] = reference(refs % 5);
        mv[10] += i16::from(moved);
        if list == 2 {
            without_list_1(&mut q);
        }
        (q.pictures0, q.pictures1) = (tables[first].clone().into(), tables[second].clone().into());
        ask_everywhere(s, &mut q)?;
    }
    Ok(())
}

/// Around the most that references can name, and around the most that a stream has.
const LENGTHS: [usize; 12] = [1, 2, 31, 32, 33, 126, 127, 128, 129, 130, 256, 300];

/// Two macroblocks of one reference each in either list, by tables of one picture, of one for each index, and
/// of one but for the last index.
fn every_length(s: &mut Session, thin: &mut Thin, part: u8) -> Outcome {
    const REFS: [i8; 7] = [-1, 0, 31, 32, 125, 126, 127];
    for (length, refs, list, content) in product([LENGTHS.len(), 49, 2, 3]) {
        let mut lists = [[NO_MOTION; 2]; 2];
        (lists[0][list].0, lists[1][list].0) = (REFS[refs / 7], REFS[refs % 7]);
        let mut q = two_macroblocks(part, 2, 1, lists);
        let length = LENGTHS[length];
        let entry = |i: usize| [7, i as i32, i32::from(i + 1 == length)][content];
        let table: Vec<i32> = (0..length).map(entry).collect();
        q.tables().into_iter().for_each(|own| *own = vec![7].into());
        *q.tables()[list] = table.into();
        if thin.takes() {
            s.check("small", &q)?;
        }
    }
    Ok(())
}

/// A macroblock of one motion in one list or two, by tables of which each has picture 7 twice.
fn listed(part: u8, call: Call, two_lists: bool) -> Request {
    let mut q = kinds_picture(part, 1, 1, &[6]);
    (q.call, q.kind, q.kinds) = (call, 3, vec![3].into());
    q.tables().into_iter().for_each(|table| *table = vec![7; 2].into());
    if !two_lists {
        without_list_1(&mut q);
    }
    q
}

/// The first and the last number that is taken, those next to them and those of an i32: at both ends of a
/// table, and beside index 127. No reference names most of them.
fn every_limit_of_numbers(s: &mut Session, part: u8) -> Outcome {
    for (length, place, value, way) in product([LENGTHS.len(), 4, 6, 4 * STRENGTH_CALLS.len()]) {
        let (list, two_lists, call) = (way % 2, way / 2 % 2 == 1, STRENGTH_CALLS[way / 4]);
        let last = LENGTHS[length] - 1;
        let mut q = listed(part, call, two_lists);
        let mut table = vec![7; last + 1];
        table[[0, 127, 128, last][place].min(last)] = [0, 65_535, -1, 65_536, i32::MIN, i32::MAX][value];
        *q.tables()[list] = table.into();
        s.check("small", &q)?;
    }
    Ok(())
}

/// Every set of list 1's two grids and of the tables that is left empty.
fn every_set_of_tables(s: &mut Session, part: u8) -> Outcome {
    for (call, grids, tables, _) in product([STRENGTH_CALLS.len(), 4, 4, 1]) {
        let mut q = listed(part, STRENGTH_CALLS[call], true);
        let left = |set: usize, member: usize| set >> member & 1 == 1;
        if left(grids, 0) {
            q.ref1 = Buffer::default();
        }
        if left(grids, 1) {
            q.mv1 = Buffer::default();
        }
        let emptied = q.tables().into_iter().enumerate().filter(|(list, _)| left(tables, *list));
        emptied.for_each(|(_, table)| *table = Buffer::default());
        s.check("small", &q)?;
    }
    Ok(())
}

/// What each refusal of the strength calls of one macroblock is sure to come of, on 2 by 2 macroblocks, in
/// the order in which they are asked.
const SURE: [Sure; 16] = [
    (1, |q| q.h = 257),
    (2, |q| q.x = 2),
    (4, |q| q.strengths.resize(127, 0)),
    (4, |q| q.t8s.resize(5, 0)),
    (5, |q| q.nnz.resize(63, 0)),
    (5, |q| (q.pictures0, q.pictures1) = (Buffer::default(), vec![7].into())),
    (5, |q| (q.pictures0, q.pictures1) = (vec![7].into(), Buffer::default())),
    (7, |q| q.inter[63] = 2),
    (7, |q| q.t8s[3] = 2),
    (10, |q| q.ref0[63] = -2),
    (10, |q| q.ref1[63] = -2),
    (22, |q| q.pictures0.fill(65_536)),
    (22, |q| q.pictures1.fill(-1)),
    (11, |q| q.inter[62] = 0),
    (12, |q| (q.kind, q.flat) = (4, 1)),
    (12, |q| (q.kind, q.uniform) = (2, 1)),
];

/// Each alone and each with each, in every call of one macroblock.
fn every_pair_of_refusals(s: &mut Session, part: u8) -> Outcome {
    for (first, second, call, _) in product([SURE.len(), SURE.len(), 3, 1]) {
        let call = SINGLE_CALLS[call];
        let mut q = kinds_picture(part, 2, 2, &[2, 2, 2, 5]);
        (q.call, q.kind, q.x, q.y) = (call, 3, 1, 1);
        q.t8s = vec![0; 4].into();
        q.tables().into_iter().for_each(|table| *table = vec![7; 2].into());
        if [first, second].iter().all(|i| table::can_give(call, false, SURE[*i].0)) {
            refusals::pair(s, q, &SURE, first, second)?;
        }
    }
    Ok(())
}

#[cfg(test)]
mod tests {
    use super::*;
    use crate::mistakes::Mistake;
    use crate::model::Model;

    type Set = fn(&mut Session, &mut Thin, u8) -> Outcome;

    /// The first of the mistakes of which a part of the set does not tell; without one it tells nothing.
    fn untold(set: Set, mistakes: &[Mistake]) -> Option<Mistake> {
        let tells = |mistake: Option<Mistake>| {
            let (model, mut thin) = (Model::with(mistake), Thin::one_of(8));
            (0..2).any(|part| set(&mut Session::new(&model, false), &mut thin, part).is_err())
        };
        assert!(!tells(None));
        mistakes.iter().copied().find(|mistake| !tells(Some(*mistake)))
    }

    #[test]
    fn wrong_pictures_are_told() {
        let shared = [
            Mistake::TablesIgnored,
            Mistake::FieldTablesIgnored,
            Mistake::LastEntryPast,
            Mistake::PastIsPictureZero,
            Mistake::PastIsItself,
            Mistake::PastIsLast,
            Mistake::PastWraps,
            Mistake::NoneIsPictureZero,
            Mistake::NoneIsFirst,
            Mistake::NoneIsLast,
        ];
        let one = [Mistake::EightBitsCompared, Mistake::NoSecondTableRefused, Mistake::LoneSecondTableTaken];
        let two = [
            Mistake::FirstTableForBoth,
            Mistake::SecondTableForBoth,
            Mistake::TablesExchanged,
            Mistake::PicturesByList,
            Mistake::FifteenBitsCompared,
            Mistake::LoneTableTaken,
        ];
        assert_eq!(untold(every_pair_in_one_list, &[&shared[..], &one].concat()), None);
        assert_eq!(untold(every_pair_in_two_lists, &[&shared[..], &two].concat()), None);
    }

    #[test]
    fn wrong_lengths_limits_and_orders_are_told() {
        let uniform =
            [Mistake::UniformByIndex, Mistake::KindByIndex, Mistake::PastVectorsUncounted, Mistake::PastIsNotNone];
        assert_eq!(untold(every_lone_block, &uniform), None);
        assert_eq!(untold(every_length, &[Mistake::ThirtyTwoEntries, Mistake::LongTableRefused]), None);
        let entries = [
            Mistake::UsedEntriesAsked,
            Mistake::FirstEntriesAsked,
            Mistake::UnusedTableUnasked,
            Mistake::NumberAboveTaken,
            Mistake::NumberBelowTaken,
        ];
        assert_eq!(untold(|s, _, part| every_limit_of_numbers(s, part), &entries), None);
        let sets = [Mistake::NoSecondTableRefused, Mistake::LoneTableTaken, Mistake::LoneSecondTableTaken];
        assert_eq!(untold(|s, _, part| every_set_of_tables(s, part), &sets), None);
        let orders = [Mistake::NumberBeforeReference, Mistake::NumberAfterInter];
        assert_eq!(untold(|s, _, part| every_pair_of_refusals(s, part), &orders), None);
    }
}
