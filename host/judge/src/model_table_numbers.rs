//! The model's wrong numbers of reference tables: of 5, 22 and 12.

use crate::mistakes::Mistake;
use crate::model::Model;
use crate::model_numbers::with;
use crate::request::{Buffer, Call, Request};
use crate::table;

/// What the table of refusals answers after a change of both reference tables.
fn with_tables(r: &Request, change: impl Fn(&mut Buffer<i32>)) -> u32 {
    with(r, |q| q.tables().into_iter().for_each(&change))
}

/// .. with 0 in the place of all entries that are so, of a list, an index and what stands there.
fn without(r: &Request, is_so: impl Fn(usize, usize, i32) -> bool) -> u32 {
    with(r, |q| {
        for (list, table) in q.tables().into_iter().enumerate() {
            let entries = table.iter_mut().enumerate();
            entries.filter(|(index, entry)| is_so(list, *index, **entry)).for_each(|(_, entry)| *entry = 0);
        }
    })
}

impl Model {
    pub fn wrong_tables(&self, r: &Request, number: u32) -> Option<u32> {
        match number {
            0 => self.wrongly_refused(r).or_else(|| self.wrong_truth(r)),
            5 => self.wrong_lone_table(r),
            10 => self.wrong_order(r),
            22 => self.wrong_entry(r),
            12 => self.wrong_truth(r),
            _ => None,
        }
    }

    /// Of tables that are taken.
    fn wrongly_refused(&self, r: &Request) -> Option<u32> {
        let lengths = r.lists().map(|list| list.pictures.len());
        let refused = match self.mistake? {
            Mistake::NoSecondTableRefused => lengths[0] > 0 && lengths[1] == 0,
            Mistake::UnequalTablesRefused => lengths[0] != lengths[1],
            Mistake::LongTableRefused => lengths.iter().any(|length| *length > 128),
            _ => false,
        };
        refused.then_some(5)
    }

    /// Where just one table is empty the other answers are those with a table in its place.
    fn wrong_lone_table(&self, r: &Request) -> Option<u32> {
        let taken = match self.mistake? {
            Mistake::LoneTableTaken => true,
            Mistake::LoneSecondTableTaken => r.ref1.is_empty() && r.pictures0.is_empty(),
            _ => false,
        };
        let fill = |table: &mut Buffer<i32>| table.resize(table.len().max(1), 0);
        taken.then(|| with_tables(r, fill))
    }

    fn wrong_order(&self, r: &Request) -> Option<u32> {
        let clamp = |refs: &mut Buffer<i8>| refs.iter_mut().for_each(|reference| *reference = -1.max(*reference));
        let clamped = || with(r, |q| [&mut q.ref0, &mut q.ref1].into_iter().for_each(clamp));
        (self.has(Mistake::NumberBeforeReference) && clamped() == 22).then_some(22)
    }

    fn wrong_entry(&self, r: &Request) -> Option<u32> {
        let used = table::entries_read(r);
        match self.mistake? {
            Mistake::UsedEntriesAsked => Some(without(r, |list, index, _| !used[list].contains(&index))),
            Mistake::FirstEntriesAsked => Some(without(r, |_, index, _| index >= 128)),
            Mistake::UnusedTableUnasked if r.ref1.is_empty() => Some(without(r, |list, _, _| list == 1)),
            Mistake::NumberAboveTaken => Some(without(r, |_, _, entry| entry == 65_536)),
            Mistake::NumberBelowTaken => Some(without(r, |_, _, entry| entry == -1)),
            Mistake::NumberAfterInter => Some(without(r, |_, _, _| true)).filter(|number| *number == 11),
            _ => None,
        }
    }

    /// Of 12: what is uniform by something else than pictures and vectors.
    fn wrong_truth(&self, r: &Request) -> Option<u32> {
        let by_index = || with_tables(r, |table| *table = Buffer::default());
        match self.mistake? {
            Mistake::UniformByIndex => Some(by_index()),
            Mistake::KindByIndex if r.call == Call::Kind => Some(by_index()),
            Mistake::PastVectorsUncounted => Some(with(r, still_past)),
            Mistake::PastIsNotNone => Some(with_tables(r, lengthen)),
            _ => None,
        }
    }
}

/// Vectors 0 for every index past its table.
fn still_past(q: &mut Request) {
    let lengths = q.lists().map(|list| list.pictures.len());
    for (refs, mvs, length) in [(&q.ref0, &mut q.mv0, lengths[0]), (&q.ref1, &mut q.mv1, lengths[1])] {
        let is_past = |reference: i8| length > 0 && usize::try_from(reference).is_ok_and(|index| index >= length);
        let blocks = refs.iter().zip(mvs.chunks_mut(2));
        blocks.filter(|(reference, _)| is_past(**reference)).for_each(|(_, vector)| vector.fill(0));
    }
}

/// For every index past a table a picture that none of its entries is.
fn lengthen(table: &mut Buffer<i32>) {
    if let Some(other) = (0..=65_535).find(|picture| !table.contains(picture)).filter(|_| !table.is_empty()) {
        table.resize(table.len().max(128), other);
    }
}
