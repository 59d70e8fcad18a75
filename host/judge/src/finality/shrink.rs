//! From a case that fails to one that a person can read: fewer macroblocks, then plainer marks, as long as it
//! fails.

use super::ask::Ask;
use crate::shrink::{areas, cut};

/// The smallest case found that still fails.
pub fn smallest(a: &Ask, fails: impl Fn(&Ask) -> bool) -> Ask {
    let mut best = a.clone();
    while let Some(smaller) = crops(&best).into_iter().find(&fails) {
        best = smaller;
    }
    for (i, plain) in (0..best.marks.len()).flat_map(|i| [(i, 1), (i, 0)]) {
        let mut tried = best.clone();
        tried.marks[i] = plain;
        if fails(&tried) {
            best = tried;
        }
    }
    best
}

/// The case with fewer columns or rows, where its marks are as many as its macroblocks.
fn crops(a: &Ask) -> Vec<Ask> {
    areas(a.w, a.h).into_iter().filter_map(|area| crop(a, area)).collect()
}

fn crop(a: &Ask, area: [usize; 4]) -> Option<Ask> {
    let [x0, x1, y0, y1] = area;
    let mut c = Ask { w: x1 - x0, h: y1 - y0, x: a.x.checked_sub(x0)?, y: a.y.checked_sub(y0)?, ..a.clone() };
    cut(&mut c.marks, a.w, a.h, (1, 1), area)?;
    Some(c)
}

#[cfg(test)]
mod tests {
    use super::*;
    use crate::finality::ask::Call;

    /// A case that fails as long as the mark to the right of its macroblock is 7 comes down to just that.
    #[test]
    fn shrinks_to_what_matters() {
        let mut a = Ask { call: Call::IsFinal, w: 9, h: 5, x: 4, y: 2, marks: vec![3; 45].into() };
        a.marks[23] = 7;
        let fails = |a: &Ask| a.x + 1 < a.w && a.y < a.h && a.marks[a.y * a.w + a.x + 1] == 7;
        let want = "IsFinal w 2 h 1 x 0 y 0, 2 marks, the first of them [0, 7]";
        assert_eq!(smallest(&a, fails).describe(), want);
    }
}
