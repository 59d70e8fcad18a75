//! What is timed: contents of pictures, with their bounds.

use deblock::Kind;

/// What a picture holds.
pub struct Content {
    pub name: &'static str,
    /// The most that each call may take of the original's time: by kind, by flags and with nothing known, and
    /// the row's by kinds and with nothing known.
    pub bounds: [f64; 5],
    /// Each macroblock is one of these, at random and equally often.
    pub kinds: &'static [Kind],
    /// List 1 is lent too, and most blocks use both lists.
    pub two_lists: bool,
    /// A picture for each index of a list, or none at all.
    pub tables: [&'static [i32]; 2],
    /// 8x8 flags are lent too: each is set or not, at random and equally often.
    pub t8s: bool,
}

pub const KINDS: [Kind; 4] = [Kind::Intra, Kind::Skip, Kind::InterUniform, Kind::Inter];

const UNBOUNDED: f64 = f64::INFINITY;

/// What a content is unless it says otherwise: a mixture of the four kinds, of one list.
const ONE_LIST: Content =
    Content { name: "", bounds: [UNBOUNDED; 5], kinds: &KINDS, two_lists: false, tables: [&[], &[]], t8s: false };
const TWO_LISTS: Content = Content { two_lists: true, ..ONE_LIST };
/// Indices 0 to 2, which blocks use, name three pictures in each list, of which two are in both; 3 names one
/// of them again.
const TWO_TABLES: Content = Content { tables: [&[4, 6, 2, 4], &[6, 8, 4, 6]], ..TWO_LISTS };
const EIGHT_BY_EIGHT: Content = Content { t8s: true, ..ONE_LIST };

/// Of an intra macroblock whose kind it is told the original copies a constant: a ratio to that has no bound.
pub const CONTENTS: [Content; 9] = [
    Content { name: "intra", bounds: [UNBOUNDED, 0.85, 0.75, UNBOUNDED, 0.3], kinds: &[Kind::Intra], ..ONE_LIST },
    Content { name: "skip", bounds: [2.55, 1.25, 1.1, 1.75, 0.8], kinds: &[Kind::Skip], ..ONE_LIST },
    Content { name: "uniform", bounds: [1.9, 1.35, 1.05, 1.4, 0.75], kinds: &[Kind::InterUniform], ..ONE_LIST },
    Content { name: "one list", bounds: [1.2, 1.5, 1.35, 1.0, 1.1], kinds: &[Kind::Inter], ..ONE_LIST },
    Content { name: "two lists", bounds: [1.0, 1.0, 1.0, 0.85, 0.9], kinds: &[Kind::Inter], ..TWO_LISTS },
    Content { name: "mixture, one list", bounds: [1.75, 1.25, 1.1, 1.25, 0.75], ..ONE_LIST },
    Content { name: "mixture, two lists", bounds: [1.2, 0.95, 0.85, 1.0, 0.7], ..TWO_LISTS },
    Content { name: "mixture, two tables", bounds: [1.4, 1.05, 1.0, 1.15, 0.8], ..TWO_TABLES },
    Content { name: "mixture, 8x8", bounds: [1.85, 1.35, 1.15, 1.3, 0.8], ..EIGHT_BY_EIGHT },
];

impl Content {
    /// Whether the ratio of each call is within its bound.
    pub fn is_within(&self, ratios: [f64; 5]) -> bool {
        ratios.into_iter().zip(self.bounds).all(|(ratio, bound)| ratio <= bound)
    }
}

#[cfg(test)]
mod tests {
    use super::*;

    const BOUNDED: Content = Content { bounds: [2.0, 1.5, 0.5, 1.0, 0.7], ..ONE_LIST };

    #[test]
    fn a_ratio_above_its_own_bound_fails() {
        assert!(BOUNDED.is_within(BOUNDED.bounds));
        for call in 0..5 {
            let mut above = [0.1; 5];
            above[call] = BOUNDED.bounds[call] + 0.01;
            assert!(!BOUNDED.is_within(above), "{above:?}");
        }
    }

    #[test]
    fn a_ratio_without_a_bound_is_not_tested() {
        let content = Content { bounds: [UNBOUNDED, 1.5, UNBOUNDED, UNBOUNDED, 1.0], ..BOUNDED };
        assert!(content.is_within([1e9, 1.5, 1e9, 1e9, 1.0]));
        assert!(!content.is_within([0.1, 1.6, 0.1, 0.1, 1.0]));
    }

    #[test]
    fn intra_by_kind_alone_has_no_bound() {
        for Content { name, bounds, .. } in CONTENTS {
            let by_kind = name != "intra";
            assert_eq!(bounds.map(f64::is_finite), [by_kind, true, true, by_kind, true], "{name}");
        }
    }
}
