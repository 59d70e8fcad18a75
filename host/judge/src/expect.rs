//! What a call must answer and leave behind: the number by the table of refusals, the rest by the Rust
//! original, or by the model where the original does not have what is asked for.

use crate::model::Model;
use crate::original;
use crate::request::{Call, Request};
use crate::table;

/// Puts the request into the state that the call must leave, and gives the number that it must answer.
pub fn expect(r: &mut Request) -> u32 {
    let number = table::answer(r);
    if number == 0 {
        work(r);
    }
    number
}

fn work(r: &mut Request) {
    if original::decides(r) {
        assert!(original::work(r), "the original has what is asked for");
    } else {
        Model::default().work(r);
    }
}

/// What the other of the two makes of a call that is not refused; none where the original cannot be asked.
pub fn second_opinion(r: &Request) -> Option<Request> {
    let mut other = r.clone();
    if original::decides(r) {
        Model::default().work(&mut other);
        return Some(other);
    }
    original::work(&mut other).then_some(other)
}

/// The planes of `r` after just the marked macroblocks in raster order: demand 3's picture. `r` holds the
/// planes as they were before the first visit.
pub fn marked_in_raster_order(r: &mut Request, marks: &[u8]) {
    let (call, strengths) = (r.call, r.strengths.clone());
    for (own, _) in r.strengths.chunks_mut(32).zip(marks).filter(|(_, mark)| **mark == 0) {
        own.fill(0);
    }
    r.call = Call::Whole;
    work(r);
    (r.call, r.strengths) = (call, strengths);
}

#[cfg(test)]
mod tests {
    use super::*;
    use crate::small::two_macroblocks;

    /// What the call must leave of a field, said by the model and by the original.
    fn both(q: &Request) -> Request {
        let mut want = q.clone();
        assert_eq!(expect(&mut want), 0);
        let other = second_opinion(q).expect("the original can be asked");
        assert_eq!(want.difference(&other), None);
        want
    }

    /// The strengths of vertical and of horizontal edge 0.
    fn outer(q: &Request) -> [u8; 2] {
        let at = 32 * q.at();
        let strengths = both(q).strengths;
        [strengths[at], strengths[at + 16]]
    }

    #[test]
    fn far_across_and_down_a_field() {
        let beside = |w: usize, other: (i16, i16)| {
            let q = two_macroblocks(1, w, 3 - w, [[(5, (0, 0)), (-1, (0, 0))], [(5, other), (-1, (0, 0))]]);
            outer(&q)[2 - w]
        };
        for w in [1, 2] {
            assert_eq!([-4, -3, 3, 4].map(|x| beside(w, (x, 0))), [1, 0, 0, 1]);
            assert_eq!([-2, -1, 1, 2].map(|y| beside(w, (0, y))), [1, 0, 0, 1]);
        }
    }

    #[test]
    fn the_upper_edge_of_a_field_has_no_4() {
        for inter in [[0; 2], [0, 1], [1, 0]] {
            let strengths = [1, 2].map(|w| {
                let mut q = two_macroblocks(1, w, 3 - w, [[(5, (0, 0)); 2]; 2]);
                let second = |i: usize| if w == 2 { i % 8 / 4 } else { i / 16 };
                (0..32).for_each(|i| q.inter[i] = inter[second(i)]);
                outer(&q)
            });
            assert_eq!(strengths, [[0, 3], [4, 0]]);
        }
    }

    /// P4 of docs/RULES.md in every second line.
    #[test]
    fn a_field_is_filtered_in_its_own_lines() {
        for part in [1, 2] {
            let mut q = Request::new(Call::Whole, 1, 1);
            q.part = part;
            q.luma = (0..512).map(|i| if i % 16 < 8 { 60 } else { 70 }).collect::<Vec<u8>>().into();
            (q.u, q.v) = (vec![60; 128].into(), vec![60; 128].into());
            q.strengths = (0..32).map(|i| if i / 4 == 2 { 4 } else { 0 }).collect::<Vec<u8>>().into();
            q.qps = vec![30].into();
            let after = both(&q);
            for (y, line) in after.luma.chunks(16).enumerate() {
                let own = y % 2 + 1 == usize::from(part);
                assert_eq!(line[6..10], if own { [60, 63, 68, 70] } else { [60, 60, 70, 70] });
            }
        }
    }
}
