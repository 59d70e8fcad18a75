//! What is final as the rules say it, by lists of places: what the two calls are held to. No line of it comes
//! from the archive; rule.rs, which carries the mistakes, goes by indices.

use super::ask::{Ask, Call, Reply};
use crate::table;

/// A macroblock's column and row.
pub type Place = (usize, usize);

/// The macroblocks that are awaited, and must be marked for one in the picture to be final: it, its right and
/// its lower neighbour, as far as they exist.
pub fn awaited(w: usize, h: usize, (x, y): Place) -> Vec<Place> {
    let all = [(x, y), (x + 1, y), (x, y + 1)];
    all.into_iter().filter(|&(x, y)| x < w && y < h).collect()
}

/// The macroblocks that a call asks about: its own; where it asks what a visit has made final also its left
/// and its upper neighbour, as far as they exist.
pub fn asked(a: &Ask) -> [Option<Place>; 3] {
    let beside = |at: usize| at.checked_sub(1).filter(|_| a.call == Call::MadeFinal);
    [Some((a.x, a.y)), beside(a.x).map(|x| (x, a.y)), beside(a.y).map(|y| (a.x, y))]
}

/// The macroblocks whose marks a call reads that is not refused before: all that are awaited.
pub fn marks_read(a: &Ask) -> Vec<usize> {
    let awaited = asked(a).into_iter().flatten().flat_map(|at| awaited(a.w, a.h, at));
    awaited.map(|(x, y)| y * a.w + x).collect()
}

/// What the call must answer. It leaves the marks as they are.
pub fn answer(a: &Ask) -> Reply {
    let is_final = |at: Place| awaited(a.w, a.h, at).iter().all(|(x, y)| a.marks[y * a.w + x] == 1);
    match number(a) {
        0 => Reply { number: 0, finals: asked(a).map(|at| at.is_some_and(is_final).into()) },
        number => Reply::refused(number),
    }
}

/// The number of the first check that applies; 0 if none does.
fn number(a: &Ask) -> u32 {
    match () {
        _ if !table::is_size(a.w, a.h) => 1,
        _ if a.x >= a.w || a.y >= a.h => 2,
        _ if a.marks.len() != a.w * a.h => 4,
        _ if marks_read(a).iter().any(|&m| a.marks[m] > 1) => 7,
        _ => 0,
    }
}

#[cfg(test)]
mod tests {
    use super::*;

    fn reply(call: Call, (w, h): (usize, usize), (x, y): Place, marks: &[u8]) -> (u32, [u8; 3]) {
        let Reply { number, finals } = answer(&Ask { call, w, h, x, y, marks: marks.to_vec().into() });
        (number, finals)
    }

    /// Of 3 by 3 macroblocks the one in the middle: all marked, and each of the nine missing.
    #[test]
    fn worked_by_hand() {
        let made = |marks: &[u8]| {
            let yes = reply(Call::IsFinal, (3, 3), (1, 1), marks);
            let made = reply(Call::MadeFinal, (3, 3), (1, 1), marks);
            assert_eq!(yes, (made.0, [made.1[0], 0, 0]));
            made.1
        };
        assert_eq!(made(&[1; 9]), [1, 1, 1]);
        let without = |missing: usize| made(&[0, 1, 2, 3, 4, 5, 6, 7, 8].map(|m| u8::from(m != missing)));
        let want = [
            [1, 1, 1],
            [1, 1, 0], // the upper one's own mark
            [1, 1, 0], // its right one
            [1, 0, 1], // the left one's own mark
            [0, 0, 0], // the macroblock's own mark, which all three await
            [0, 1, 1], // its right one
            [1, 0, 1], // the left one's lower one
            [0, 1, 1], // its lower one
            [1, 1, 1],
        ];
        assert_eq!([0, 1, 2, 3, 4, 5, 6, 7, 8].map(without), want);
    }

    #[test]
    fn a_lone_macroblock_waits_for_itself() {
        for (mark, want) in [(0, (0, [0; 3])), (1, (0, [1, 0, 0])), (2, (7, [0; 3])), (255, (7, [0; 3]))] {
            for call in [Call::IsFinal, Call::MadeFinal] {
                assert_eq!(reply(call, (1, 1), (0, 0), &[mark]), want);
            }
        }
    }

    /// 7 is asked of all awaited marks, the own one set or not, and of no others.
    #[test]
    fn marks_that_are_read() {
        let read = |call| {
            (0..9).filter(move |&m| {
                let mut marks = [0; 9];
                marks[m] = 2;
                reply(call, (3, 3), (1, 1), &marks).0 == 7
            })
        };
        assert_eq!(read(Call::IsFinal).collect::<Vec<usize>>(), [4, 5, 7]);
        assert_eq!(read(Call::MadeFinal).collect::<Vec<usize>>(), [1, 2, 3, 4, 5, 6, 7]);
    }

    #[test]
    fn checks_have_an_order() {
        let number = |size, at, marks: &[u8]| reply(Call::IsFinal, size, at, marks).0;
        assert_eq!(number((257, 1), (257, 0), &[]), 1);
        assert_eq!(number((256, 145), (0, 0), &[1; 256 * 145]), 1);
        assert_eq!(number((2, 1), (2, 0), &[2]), 2);
        assert_eq!(number((2, 1), (1, usize::MAX), &[2]), 2);
        assert_eq!(number((2, 1), (1, 0), &[2]), 4);
        assert_eq!(number((2, 1), (0, 0), &[1, 2]), 7);
        assert_eq!(number((2, 1), (1, 0), &[2, 1]), 0);
    }
}
