//! Random reference tables to which no refusal applies.

use crate::request::Request;
use inputs::Rng;
use std::collections::BTreeMap;

/// Of the references that are made some are past these lengths, and some are the last index or the next one.
const LENGTHS: [usize; 12] = [1, 1, 2, 2, 6, 7, 8, 64, 127, 128, 129, 300];
/// Comes up seldom.
const LONG: usize = 30_000;

/// Tables for the lists of a strength call; none in two of five. Where list 1 is not lent its own may be left
/// empty. In one of two the references become others that name the same pictures.
pub fn lend(r: &mut Rng, q: &mut Request) {
    if r.below(5) < 2 {
        return;
    }
    let numbers = numbers(r);
    q.pictures0 = table(r, numbers).into();
    if !q.ref1.is_empty() || r.once_in(2) {
        q.pictures1 = table(r, numbers).into();
    }
    if r.once_in(2) {
        rename(r, &mut q.ref0, &q.pictures0);
        rename(r, &mut q.ref1, &q.pictures1);
    }
}

/// Any index that names the same picture, and for none -1 or one past the table: what is flat stays so.
fn rename(r: &mut Rng, refs: &mut [i8], table: &[i32]) {
    let picture = |reference: i8| usize::try_from(reference).ok().and_then(|index| table.get(index));
    let mut alike: BTreeMap<Option<&i32>, Vec<i8>> = BTreeMap::new();
    (-1..=i8::MAX).for_each(|reference| alike.entry(picture(reference)).or_default().push(reference));
    refs.iter_mut().for_each(|own| *own = r.pick(&alike[&picture(*own)]));
}

/// Few, so that several indices name one picture, in one list and in both. Some are alike in their low bits.
fn numbers(r: &mut Rng) -> &'static [i32] {
    r.pick(&[&[7][..], &[0, 1], &[1, 0, 127], &[3, 65_535], &[5, 261, 65_285], &[0, 32_768, 65_535]])
}

fn table(r: &mut Rng, numbers: &[i32]) -> Vec<i32> {
    let length = if r.once_in(400) { LONG } else { r.pick(&LENGTHS) };
    if r.once_in(8) {
        return (0..length as i32).collect(); // each index names the picture of its own number
    }
    (0..length).map(|_| r.pick(numbers)).collect()
}

#[cfg(test)]
mod tests {
    use super::*;
    use crate::make;
    use crate::request::{Call, Structure};
    use crate::table::{answer, blocks_read};

    /// How many of 2000 made requests are so.
    fn count(is_so: impl Fn(&Request) -> bool) -> usize {
        let mut r = Rng::new(1);
        (0..2000).filter(|_| is_so(&make::grids(&mut r, Structure::Frame, Call::Flagless, 2, 1))).count()
    }

    /// Whether a reference that is read is so, of an index and the length of its table.
    fn reads(q: &Request, is_so: fn(i8, usize) -> bool) -> bool {
        let blocks = blocks_read(q).concat();
        let lists = q.lists().into_iter().filter(|list| !list.refs.is_empty() && !list.pictures.is_empty());
        lists.into_iter().any(|list| blocks.iter().any(|&i| is_so(list.refs[i], list.pictures.len())))
    }

    /// Whether the macroblock is uniform, and would not be if its references were numbers.
    fn is_uniform_by_tables(q: &Request) -> bool {
        let with = |q: Request| answer(&Request { call: Call::Kind, kind: 2, ..q });
        let plain = Request { pictures0: Default::default(), pictures1: Default::default(), ..q.clone() };
        with(q.clone()) == 0 && with(plain) == 12
    }

    /// Each comes up in at least one request of twenty.
    #[test]
    fn tables_of_every_sort_come_up() {
        assert_eq!(count(|q| answer(q) == 0), 2000);
        let sorts: [fn(&Request) -> bool; 10] = [
            is_uniform_by_tables,
            |q| q.pictures0.is_empty() && q.pictures1.is_empty(),
            |q| !q.pictures0.is_empty() && q.pictures1.is_empty(),
            |q| !q.pictures0.is_empty() && !q.pictures1.is_empty() && !q.ref1.is_empty(),
            |q| !q.pictures1.is_empty() && q.ref1.is_empty(),
            |q| q.pictures0.len() > 128,
            |q| q.pictures0.contains(&65_535),
            |q| reads(q, |reference, length| reference == -1 && length > 0),
            |q| reads(q, |reference, length| reference >= 0 && reference as usize == length),
            |q| reads(q, |reference, length| reference >= 0 && reference as usize > length),
        ];
        for (i, sort) in sorts.into_iter().enumerate() {
            assert!(count(sort) >= 100, "sort {i}: {}", count(sort));
        }
        assert!(count(|q| q.pictures0.len() == LONG) > 0);
    }
}
