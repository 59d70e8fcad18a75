//! The model's wrong edges: which of them slices leave out by mistake, or do not.

use crate::mistakes::Mistake;
use crate::model::{Edge, Model};
use crate::model_slices::{is_border_of_slice, slice};
use crate::request::{Call, Request};

/// Whether the macroblock's left or upper edge is a border of its slice.
fn has_border_of_slice(r: &Request, e: Edge) -> bool {
    [false, true].into_iter().any(|horizontal| is_border_of_slice(r, Edge { number: 0, horizontal, ..e }))
}

impl Model {
    /// Whether an edge is left out where there is a mistake in that; `right` says what the rules say.
    pub fn wrongly_by_slice(&self, r: &Request, e: Edge, right: bool) -> Option<bool> {
        self.mistake?;
        let mode = self.record(r, e.own(r)).mode;
        let wrong = match mode {
            1 => self.wrongly_in_mode_1(r, e),
            2 => self.wrongly_in_mode_2(r, e, right),
            _ => None,
        };
        wrong.or_else(|| self.wrongly_in_any_mode(r, e, right))
    }

    fn wrongly_in_any_mode(&self, r: &Request, e: Edge, right: bool) -> Option<bool> {
        let mode_beside = e.beside(r).map(|p| self.record(r, p).mode);
        match self.mistake? {
            Mistake::ModesIgnored => Some(false),
            Mistake::RowsModesIgnored => Some(right && r.call != Call::Rows),
            Mistake::VisitModesIgnored => Some(right && r.call != Call::Visit),
            Mistake::FieldModesIgnored => Some(right && r.part == 0),
            Mistake::ModeOneNextLeft => Some(right || !e.horizontal && mode_beside == Some(1)),
            Mistake::ModeOneNextTop => Some(right || e.horizontal && mode_beside == Some(1)),
            Mistake::ModeTwoOfP => Some(right || mode_beside == Some(2) && is_border_of_slice(r, e)),
            _ => None,
        }
    }

    fn wrongly_in_mode_1(&self, r: &Request, e: Edge) -> Option<bool> {
        match self.mistake? {
            Mistake::ModeOneInner => Some(e.number == 0),
            Mistake::ModeOneOuter => Some(e.number > 0),
            Mistake::ModeOneChroma => Some(e.chroma.is_none()),
            Mistake::ModeOneLuma => Some(e.chroma.is_some()),
            Mistake::ModesOneAndTwoExchanged => Some(is_border_of_slice(r, e)),
            _ => None,
        }
    }

    fn wrongly_in_mode_2(&self, r: &Request, e: Edge, right: bool) -> Option<bool> {
        // of an outer edge p's macroblock and q's
        let pair = e.beside(r).map(|p| [p, e.own(r)]);
        let tells = |is_so: fn([u16; 2]) -> bool| pair.is_some_and(|pair| is_so(pair.map(|m| slice(r, m))));
        let has_equal_records = || pair.is_some_and(|[p, q]| self.record(r, p) == self.record(r, q));
        match self.mistake? {
            Mistake::ModeTwoAsOne | Mistake::ModesOneAndTwoExchanged => Some(true),
            Mistake::ModeTwoAsZero => Some(false),
            Mistake::ModeTwoByRecord => Some(right && !has_equal_records()),
            Mistake::ModeTwoInner => Some(right || has_border_of_slice(r, e)),
            Mistake::ModeTwoLeftOnly => Some(right && !e.horizontal),
            Mistake::ModeTwoTopOnly => Some(right && e.horizontal),
            Mistake::ModeTwoAlways => Some(e.number == 0),
            Mistake::ModeTwoChroma => Some(right && e.chroma.is_none()),
            Mistake::ModeTwoLeftNumberAbove if e.x > 0 => Some(is_border_of_slice(r, Edge { horizontal: false, ..e })),
            Mistake::ModeTwoLowBits => Some(tells(|[p, q]| p % 256 != q % 256)),
            Mistake::ModeTwoHigherNumber => Some(tells(|[p, q]| p < q)),
            _ => None,
        }
    }
}
