//! What a visit can have made final.

use crate::{wire, Answer, Place};

/// Which of a macroblock and its left and upper neighbours exist and are final: right after a visit of the
/// macroblock, just what that visit has made final.
#[derive(Clone, Copy, PartialEq, Eq, Debug, Default)]
pub struct Finals {
    /// The macroblock itself.
    pub own: bool,
    /// Its left neighbour.
    pub left: bool,
    /// Its upper neighbour.
    pub upper: bool,
}

impl Finals {
    pub(crate) fn of(told: wire::Finals) -> Result<Finals, Answer> {
        Answer::of(told.answer).ok()?;
        Ok(Finals { own: told.own != 0, left: told.left != 0, upper: told.upper != 0 })
    }

    /// Where those that are final stand, `at` being the macroblock that was asked about: its upper neighbour
    /// first, which is raster order.
    ///
    /// ```
    /// use deblock::{Finals, Place};
    ///
    /// let made = Finals { own: false, left: true, upper: true };
    /// let places: Vec<Place> = made.places(Place { x: 4, y: 2 }).collect();
    /// assert_eq!(places, [Place { x: 4, y: 1 }, Place { x: 3, y: 2 }]);
    /// ```
    pub fn places(self, at: Place) -> impl Iterator<Item = Place> {
        // a neighbour that does not exist is not final, whatever wraps
        let upper = self.upper.then_some(Place { y: at.y.wrapping_sub(1), ..at });
        let left = self.left.then_some(Place { x: at.x.wrapping_sub(1), ..at });
        [upper, left, self.own.then_some(at)].into_iter().flatten()
    }
}

#[cfg(test)]
mod tests {
    use crate::{Answer, Finals, Part, Picture, Place, Size};

    const AT: Place = Place { x: 1, y: 1 };

    fn lent<'a>(w: usize, h: usize, marks: &'a mut [u8]) -> Picture<'a> {
        Picture { size: Size { w, h }, marks, ..Picture::default() }
    }

    /// Of 3 by 3 macroblocks the one in the middle, each of its three marks missing in turn, and any other.
    #[test]
    fn three_marks_make_it_final() {
        for missing in 0..9 {
            let mut marks = [1; 9];
            marks[missing] = 0;
            assert_eq!(lent(3, 3, &mut marks).is_final(AT), Ok(![4, 5, 7].contains(&missing)), "{missing}");
        }
    }

    #[test]
    fn neighbours_that_do_not_exist_are_not_waited_for() {
        for (w, h) in [(1, 1), (2, 1), (1, 2), (2, 2)] {
            let last = Place { x: w - 1, y: h - 1 };
            let mut marks = vec![0; w * h];
            marks[w * h - 1] = 1;
            let p = lent(w, h, &mut marks);
            assert_eq!(p.is_final(last), Ok(true));
            assert_eq!(p.made_final(last), Ok(Finals { own: true, ..Finals::default() }));
        }
    }

    /// Visits of 2 by 2 macroblocks in raster order, in a frame and in a field: what each makes final.
    #[test]
    fn each_is_made_final_once() {
        for part in [Part::Frame, Part::BottomField] {
            let n = if part == Part::Frame { 4 } else { 8 };
            let size = Size { w: 2, h: 2 };
            let mut p = Picture {
                size,
                part,
                luma: &mut vec![90; 256 * n],
                u: &mut vec![90; 64 * n],
                v: &mut vec![90; 64 * n],
                strengths: &mut [3; 128],
                qps: &[40; 4],
                marks: &mut [0; 4],
                ..Picture::default()
            };
            let made = size.places().map(|at| {
                assert!(p.visit(at).is_done());
                p.made_final(at).expect("marks").places(at).map(|at| size.index(at)).collect()
            });
            assert_eq!(made.collect::<Vec<Vec<usize>>>(), [vec![], vec![], vec![0], vec![1, 2, 3]]);
        }
    }

    /// All is wrong at first; each line mends what was refused before.
    #[test]
    fn refusals_have_an_order() {
        let marks = [1, 1, 0, 1, 2, 1];
        let answer = |w, h, at, mut marks: Vec<u8>| {
            let p = lent(w, h, &mut marks);
            assert_eq!(p.is_final(at).err(), p.made_final(at).err());
            p.is_final(at).map_err(Answer::number)
        };
        let (outside, short) = (Place { x: 3, y: 1 }, marks[1..].to_vec());
        assert_eq!(answer(257, 2, Place { x: usize::MAX, y: 1 }, short.clone()), Err(1));
        assert_eq!(answer(3, 2, outside, short.clone()), Err(2));
        assert_eq!(answer(3, 2, AT, short), Err(4));
        assert_eq!(answer(3, 2, AT, marks.to_vec()), Err(7));
        assert_eq!(answer(3, 2, AT, vec![1, 1, 0, 1, 1, 1]), Ok(true));
    }

    /// A mark above 1 below the left neighbour, which the macroblock's own question does not read.
    #[test]
    fn a_neighbours_refusal_is_the_answer() {
        let mut marks = [1, 1, 1, 1, 2, 1];
        let p = lent(2, 3, &mut marks);
        assert_eq!((p.is_final(AT), p.made_final(AT)), (Ok(true), Err(Answer::NotABool)));
    }
}
