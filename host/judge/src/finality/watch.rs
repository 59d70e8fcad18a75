//! What becomes final in the course of visits, and that its samples are those of the whole picture from then
//! on.

use super::ask::{Ask, Call};
use super::model::{awaited, Place};
use super::session::Session;
use crate::request::{Request, Structure};
use crate::session::{Failure, Outcome};
use std::collections::BTreeSet;

/// In pictures of up to so many macroblocks all of them are looked at after each visit.
const SMALL: usize = 36;

/// Pictures over the same planes in the course of their visits.
pub struct Watch {
    /// The planes with all of these pictures filtered.
    whole: Request,
    pictures: Vec<Countdown>,
}

impl Watch {
    pub fn new(whole: Request, pictures: usize) -> Watch {
        let (w, h) = (whole.w, whole.h);
        Watch { whole, pictures: (0..pictures).map(|_| Countdown::new(w, h)).collect() }
    }

    /// After a visit that is done, of `q`, which holds the planes: what is final now and was not before is
    /// what the call lists, where it is asked, and what is final has the samples of the whole picture.
    pub fn visited(&mut self, s: &mut Session, q: &Request, picture: usize, is_asked: bool) -> Outcome {
        let made = self.pictures[picture].mark((q.x, q.y));
        if !is_asked {
            return Ok(());
        }
        let told = listed(s, q)?;
        if told != made {
            let Request { x, y, w, h, .. } = q;
            let what = format!("the visit of ({x}, {y}) in {w} by {h} made {made:?} final, and {told:?} is told");
            return Err(Failure(format!("finality, visits: {what}")));
        }
        let all = (0..q.w * q.h).map(|m| (m % q.w, m / q.w));
        let looked_at: Vec<Place> = if q.w * q.h <= SMALL { all.collect() } else { made.into_iter().collect() };
        for &at in &looked_at {
            let is_final = s.check("visits", &Ask::of(q, Call::IsFinal, at))?.finals[0] == 1;
            assert_eq!(is_final, self.pictures[picture].is_final(at), "the model and its countdown agree");
        }
        (0..self.pictures.len()).try_for_each(|picture| self.compare(s, q, picture, &looked_at))
    }

    /// Those of the places that are final in a picture have the samples of the whole one.
    fn compare(&self, s: &mut Session, q: &Request, picture: usize, places: &[Place]) -> Outcome {
        let part = if self.pictures.len() == 1 { 0 } else { 1 + picture as u8 };
        for &at in places.iter().filter(|at| self.pictures[picture].is_final(**at)) {
            if !lines(q, part, at).eq(lines(&self.whole, part, at)) {
                let what = format!("{at:?} of part {part} is final and not as in the whole picture");
                return Err(Failure(format!("finality, visits: after ({}, {}): {what}", q.x, q.y)));
            }
            s.settled();
        }
        Ok(())
    }
}

/// The macroblocks that the call lists after a visit.
fn listed(s: &mut Session, q: &Request) -> Result<BTreeSet<Place>, Failure> {
    let places = [(q.x, q.y), (q.x.wrapping_sub(1), q.y), (q.x, q.y.wrapping_sub(1))];
    let told = s.check("visits", &Ask::of(q, Call::MadeFinal, (q.x, q.y)))?.finals;
    Ok(places.into_iter().zip(told).filter(|(_, yes)| *yes == 1).map(|(at, _)| at).collect())
}

/// The lines of a macroblock in all planes, of a field those of its part.
fn lines(q: &Request, part: u8, (x, y): Place) -> impl Iterator<Item = &[u8]> {
    let (share, first) = (Structure::of(part).share(), usize::from(part == 2));
    [(&q.luma, 16), (&q.u, 8), (&q.v, 8)].into_iter().flat_map(move |(plane, side)| {
        let rows = (side * y..side * (y + 1)).map(move |row| share * row + first);
        rows.map(move |row| &plane[(row * q.w + x) * side..][..side])
    })
}

/// Of each macroblock, how many of the marks that it awaits are missing: what is final, found forwards from
/// the visits.
struct Countdown {
    w: usize,
    missing: Vec<usize>,
    /// The macroblocks that await each.
    awaiting: Vec<Vec<Place>>,
}

impl Countdown {
    fn new(w: usize, h: usize) -> Countdown {
        let mut all = Countdown { w, missing: vec![0; w * h], awaiting: vec![Vec::new(); w * h] };
        for at in (0..w * h).map(|m| (m % w, m / w)) {
            for (x, y) in awaited(w, h, at) {
                all.awaiting[y * w + x].push(at);
                all.missing[at.1 * w + at.0] += 1;
            }
        }
        all
    }

    /// Marks a macroblock; those that have become final with it.
    fn mark(&mut self, (x, y): Place) -> BTreeSet<Place> {
        let awaiting = std::mem::take(&mut self.awaiting[y * self.w + x]);
        awaiting.iter().for_each(|(x, y)| self.missing[y * self.w + x] -= 1);
        awaiting.into_iter().filter(|at| self.is_final(*at)).collect()
    }

    fn is_final(&self, (x, y): Place) -> bool {
        self.missing[y * self.w + x] == 0
    }
}

#[cfg(test)]
mod tests {
    use super::*;
    use crate::expect::expect;
    use crate::request;
    use crate::small::blocky;

    /// The smallest pictures in which the visit of the last macroblock changes the first, in frames and in
    /// fields: of the own, the right and the lower mark none can be done without.
    #[test]
    fn each_of_the_three_marks_is_needed() {
        for (part, (w, h)) in (0..3).flat_map(|part| [(part, (1, 1)), (part, (2, 1)), (part, (1, 2))]) {
            let mut q = blocky(part, request::Call::Visit, w, h, 1);
            q.strengths.fill(3);
            q.marks.fill(0);
            let mut whole = Request { call: request::Call::Whole, ..q.clone() };
            assert_eq!(expect(&mut whole), 0);
            for m in 0..w * h {
                assert!(!lines(&q, part, (0, 0)).eq(lines(&whole, part, (0, 0))), "part {part}, {w} by {h}");
                (q.x, q.y) = (m % w, m / w);
                assert_eq!(expect(&mut q), 0);
            }
            assert!(lines(&q, part, (0, 0)).eq(lines(&whole, part, (0, 0))));
        }
    }

    /// 2 by 2 macroblocks in raster order.
    #[test]
    fn a_countdown_by_hand() {
        let mut all = Countdown::new(2, 2);
        let made = [(0, 0), (1, 0), (0, 1), (1, 1)].map(|at| all.mark(at).into_iter().collect::<Vec<Place>>());
        assert_eq!(made, [vec![], vec![], vec![(0, 0)], vec![(0, 1), (1, 0), (1, 1)]]);
    }
}
