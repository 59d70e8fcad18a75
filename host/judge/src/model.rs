//! The rules of docs/RULES.md as a plain program, which can be told to make one mistake.
//!
//! Without a mistake it is what a field is held to, a strength call that reads an 8x8 flag which is set, and
//! a filtering call with two chroma offsets or by several slices; elsewhere it is a second opinion beside the
//! Rust original:
//! `judge bounded` and `judge mutants` ask that the two agree. It finds the lines of a field where they lie
//! in the frame; what the original is asked of a field (original.rs) has them taken out.

use crate::mistakes::Mistake;
use crate::request::{Call, Request};
use crate::subject::Subject;
use std::cell::RefCell;

#[derive(Default)]
pub struct Model {
    pub mistake: Option<Mistake>,
    /// The last visit, for a mistake that remembers it.
    pub last: RefCell<Option<Visited>>,
}

/// What a visit was lent: its part, where the planes lie, and the marks as it left them.
pub struct Visited {
    pub part: u8,
    pub luma: *const u8,
    pub marks: Vec<u8>,
}

impl Subject for Model {
    fn call(&self, r: &mut Request) -> u32 {
        let number = self.number(r);
        if number == 0 {
            self.work(r);
        } else if r.call == Call::StrengthsRow {
            self.refused_row(r);
        } else if number == 14 && self.has(Mistake::MarksWhenNotReady) {
            let at = r.at();
            r.marks[at] = 1;
        }
        if r.call == Call::Visit && self.has(Mistake::MarksShared) {
            *self.last.borrow_mut() = Some(Visited { part: r.part, luma: r.luma.as_ptr(), marks: r.marks.to_vec() });
        }
        number
    }
}

/// One edge of macroblock (x, y), in luma or in U (false) or V (true).
#[derive(Clone, Copy)]
pub struct Edge {
    pub x: usize,
    pub y: usize,
    pub chroma: Option<bool>,
    pub horizontal: bool,
    pub number: usize,
}

impl Edge {
    fn is_border(self) -> bool {
        self.number == 0 && if self.horizontal { self.y == 0 } else { self.x == 0 }
    }

    /// Its macroblock, by number, in which q0 lies.
    pub fn own(self, r: &Request) -> usize {
        self.y * r.w + self.x
    }

    /// The other macroblock that an outer edge lies at, in which p0 lies.
    pub fn beside(self, r: &Request) -> Option<usize> {
        let back = if self.horizontal { r.w } else { 1 };
        (self.number == 0 && !self.is_border()).then(|| self.own(r) - back)
    }
}

impl Model {
    pub fn with(mistake: Option<Mistake>) -> Model {
        Model { mistake, ..Model::default() }
    }

    pub fn has(&self, mistake: Mistake) -> bool {
        self.mistake == Some(mistake)
    }

    /// Does what a call that is not refused does.
    pub fn work(&self, r: &mut Request) {
        match r.call {
            Call::Kind | Call::Flags | Call::Flagless => self.strengths(r),
            Call::StrengthsRow => self.strengths_row(r),
            Call::Whole => self.rows(r, 0, r.h),
            Call::Rows => self.rows(r, r.first, r.last),
            Call::Visit => self.visit(r),
        }
        if self.has(Mistake::OtherFieldTouched) && !r.call.is_strengths() && r.part != 0 {
            // the first sample of the other field's last line
            let at = r.luma.len() - 16 * r.w * usize::from(r.part);
            r.luma[at] ^= 1;
        }
    }

    fn visit(&self, r: &mut Request) {
        let at = r.at();
        let first = r.marks.iter().all(|&m| m == 0);
        if first || !self.has(Mistake::FiltersFirstVisitOnly) {
            self.macroblock(r, r.x, r.y);
        }
        let is_forgotten = match self.mistake {
            Some(Mistake::MarkForgotten) => true,
            Some(Mistake::ModeOneUnmarked) => r.sliced && r.record(at).mode == 1,
            _ => false,
        };
        if !is_forgotten {
            r.marks[at] = 1;
        }
    }

    fn rows(&self, r: &mut Request, first: usize, last: usize) {
        if self.has(Mistake::PlanesUntouched) {
            return;
        }
        for y in first..last {
            for x in 0..r.w {
                let x = if self.has(Mistake::RightToLeft) { r.w - 1 - x } else { x };
                self.macroblock(r, x, y);
            }
        }
        if self.has(Mistake::UvExchanged) && first < last {
            std::mem::swap(&mut r.u, &mut r.v);
        }
    }

    /// Luma vertical edges, luma horizontal ones, then U and V, each vertical then horizontal.
    fn macroblock(&self, r: &mut Request, x: usize, y: usize) {
        let directions = if self.has(Mistake::HorizontalFirst) { [true, false] } else { [false, true] };
        for chroma in [None, Some(false), Some(true)] {
            for horizontal in directions {
                for number in 0..4 {
                    self.edge(r, Edge { x, y, chroma, horizontal, number });
                }
            }
        }
    }

    fn edge(&self, r: &mut Request, e: Edge) {
        if self.is_left_out(r, e) {
            return;
        }
        let at = e.own(r);
        let thresholds = self.thresholds(r, e, r.qps[self.neighbour(r, e)].into(), r.qps[at].into());
        let from = 32 * at + 4 * e.number + if e.horizontal { 16 } else { 0 };
        let four: [u8; 4] = std::array::from_fn(|i| r.strengths[from + i]);
        let (first, apart) = self.lines(r, e.chroma.is_some());
        let (plane, side) = match e.chroma {
            None => (&mut r.luma, 16),
            Some(false) => (&mut r.u, 8),
            Some(true) => (&mut r.v, 8),
        };
        let width = side * r.w;
        let down = apart * width;
        let (step, along) = if e.horizontal { (down, 1) } else { (1, down) };
        // edges of chroma lie 4 samples apart where those of luma lie 8
        let across = if e.chroma.is_some() { 2 * e.number } else { 4 * e.number };
        let corner = first * width + e.y * side * down + e.x * side + across * step;
        let step = if e.horizontal && self.has(Mistake::NextLineOfFrame) { width } else { step };
        for line in 0..side {
            let segment = match self.mistake {
                Some(Mistake::ChromaSegmentsOfFour) if e.chroma.is_some() => line / 4,
                _ => 4 * line / side,
            };
            let strength = four[segment];
            if strength == 0 || self.has(Mistake::MixedFourSkipped) && strength == 4 && four != [4; 4] {
                continue;
            }
            let q0 = corner + line * along;
            if e.chroma.is_some() {
                self.chroma_line(plane, q0, step, strength, &thresholds);
            } else {
                self.luma_line(plane, q0, step, strength, &thresholds);
            }
        }
    }

    /// The first line of the picture in its planes, and how many lines on the next one lies.
    fn lines(&self, r: &Request, chroma: bool) -> (usize, usize) {
        if r.part == 0 {
            return (0, 1);
        }
        let parity = usize::from(r.part) - 1;
        match self.mistake {
            Some(Mistake::PartsExchanged) => (1 - parity, 2),
            Some(Mistake::LinesNotDoubled) => (parity, 1),
            Some(Mistake::ChromaNotDoubled) if chroma => (parity, 1),
            _ => (parity, 2),
        }
    }

    /// The picture's border; edges that the 8x8 flag skips; of chroma, whose edges lie at luma edges 0 and 2,
    /// the two others; and edges that the slice leaves.
    fn is_left_out(&self, r: &Request, e: Edge) -> bool {
        // filtering at the left border takes the end of the line above for p
        let filters_border = self.has(Mistake::BorderFiltered) && !e.horizontal && e.y > 0;
        let t8 = !r.t8s.is_empty() && r.t8s[e.own(r)] == 1 && !self.has(Mistake::FlagIgnored);
        let odd = e.number % 2 == 1;
        let skipped = match e.chroma {
            None => t8 && odd,
            Some(_) => odd || t8 && e.number == 2 && self.has(Mistake::FlagSkipsChroma),
        };
        e.is_border() && !filters_border || skipped || self.is_left_out_by_slice(r, e)
    }

    /// The macroblock on p's side.
    fn neighbour(&self, r: &Request, e: Edge) -> usize {
        match e.beside(r) {
            None => e.own(r),
            Some(_) if self.has(Mistake::LeftQpAbove) && e.x > 0 => e.own(r) - 1,
            Some(beside) => beside,
        }
    }
}
