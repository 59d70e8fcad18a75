//! The model's pictures: docs/RULES.md, "Strengths". With tables a reference is an index, and one past its
//! table, as -1, is no reference; without tables it is the number of a picture.

use crate::mistakes::Mistake;
use crate::model::Model;
use crate::request::Request;

impl Model {
    /// What a block with this reference in this list predicts from: without tables a picture of that number,
    /// with tables the one that stands at that index, if any does.
    pub fn picture(&self, r: &Request, list: usize, reference: i8) -> Option<i32> {
        let tables = r.lists().map(|list| list.pictures);
        if tables == [[]; 2] || self.ignores_tables(r) {
            return (reference >= 0).then_some(reference.into());
        }
        let table = tables[self.table_of(list)];
        let mut entries = (0..self.entries(table)).zip(table);
        let named = entries.find(|(index, _)| *index == i32::from(reference)).map(|(_, picture)| *picture);
        named.or_else(|| self.wrongly_named(table, reference)).map(|picture| self.compared(list, picture))
    }

    fn ignores_tables(&self, r: &Request) -> bool {
        match self.mistake {
            Some(Mistake::TablesIgnored) => true,
            Some(Mistake::FieldTablesIgnored) => r.part != 0,
            _ => false,
        }
    }

    /// Whose table the references of a list are looked up in.
    fn table_of(&self, list: usize) -> usize {
        match self.mistake {
            Some(Mistake::FirstTableForBoth) => 0,
            Some(Mistake::SecondTableForBoth) => 1,
            Some(Mistake::TablesExchanged) => 1 - list,
            _ => list,
        }
    }

    /// How many entries of a table count.
    fn entries(&self, table: &[i32]) -> i32 {
        let all = table.len() as i32;
        match self.mistake {
            Some(Mistake::ThirtyTwoEntries) => all.min(32),
            Some(Mistake::LastEntryPast) => all - 1,
            _ => all,
        }
    }

    /// What -1, or an index past the table, is wrongly taken for.
    fn wrongly_named(&self, table: &[i32], reference: i8) -> Option<i32> {
        let past = usize::try_from(reference).ok();
        match self.mistake? {
            Mistake::PastIsPictureZero => past.map(|_| 0),
            Mistake::PastIsItself => past.map(|_| reference.into()),
            Mistake::PastIsLast => past.and(table.last().copied()),
            Mistake::PastWraps => past.and_then(|index| table.get(index.checked_rem(table.len())?).copied()),
            Mistake::NoneIsPictureZero if past.is_none() => Some(0),
            Mistake::NoneIsFirst if past.is_none() => table.first().copied(),
            Mistake::NoneIsLast if past.is_none() => table.last().copied(),
            _ => None,
        }
    }

    /// What is compared of the number of a picture that this list names.
    fn compared(&self, list: usize, picture: i32) -> i32 {
        match self.mistake {
            Some(Mistake::EightBitsCompared) => picture & 0xFF,
            Some(Mistake::FifteenBitsCompared) => picture & 0x7FFF,
            Some(Mistake::PicturesByList) => picture + 65_536 * list as i32,
            _ => picture,
        }
    }
}

#[cfg(test)]
mod tests {
    use super::*;
    use crate::request::Call;

    /// The pictures of -1 to 3, of 126 and of 127 in each list.
    fn named(tables: [&[i32]; 2]) -> [[Option<i32>; 7]; 2] {
        let mut r = Request::new(Call::Flagless, 1, 1);
        r.tables().into_iter().zip(tables).for_each(|(own, table)| *own = table.to_vec().into());
        [0, 1].map(|list| [-1, 0, 1, 2, 3, 126, 127].map(|reference| Model::default().picture(&r, list, reference)))
    }

    #[test]
    fn a_reference_is_a_number_or_an_index() {
        let plain = [None, Some(0), Some(1), Some(2), Some(3), Some(126), Some(127)];
        assert_eq!(named([&[], &[]]), [plain; 2]);
        let lent = named([&[7, 9, 7], &[65_535, 0]]);
        assert_eq!(lent[0], [None, Some(7), Some(9), Some(7), None, None, None]);
        assert_eq!(lent[1], [None, Some(65_535), Some(0), None, None, None, None]);
        let long: Vec<i32> = (0..300).map(|index| 1000 + index).collect();
        let own = |last| [None, Some(1000), Some(1001), Some(1002), Some(1003), Some(1126), last];
        assert_eq!(named([&long, &long[..127]]), [own(Some(1127)), own(None)]);
    }
}
