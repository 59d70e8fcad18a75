//! What is judged: the archive, or a filter that stands in its place.

use crate::fence::{Fenced, Side};
use crate::finality::{Finality, Rule};
use crate::request::{Call, Request};
use deblock::{wire, Grids, Offsets, Picture, Place, Size};
use std::cell::{Cell, RefCell, RefMut};

pub trait Subject {
    /// Makes the call on the request's own memory and gives its answer.
    fn call(&self, r: &mut Request) -> u32;

    /// What is asked what is final: beside a filter that is not the archive, the rule without a mistake.
    fn finality(&self) -> &dyn Finality {
        &Rule { mistake: None }
    }
}

/// The proved filter. Of three calls one is made between guard elements, two between fences.
pub struct Archive {
    turn: Cell<usize>,
    fences: RefCell<[Fenced; 11]>,
}

impl Archive {
    pub fn new() -> Archive {
        Archive { turn: Cell::new(0), fences: RefCell::new(std::array::from_fn(|_| Fenced::new())) }
    }

    /// Which side of its buffers the next call has against a fence, if any.
    pub fn next_side(&self) -> Option<Side> {
        self.turn.set(self.turn.get() + 1);
        [None, Some(Side::Start), Some(Side::End)][self.turn.get() % 3]
    }

    /// Room for as many buffers as a call may take.
    pub fn fences(&self) -> RefMut<'_, [Fenced; 11]> {
        self.fences.borrow_mut()
    }
}

impl Archive {
    fn derive(&self, r: &mut Request) -> u32 {
        let side = self.next_side();
        let mut fences = self.fences();
        let [f0, f1, f2, f3, f4, f5, f6, f7, f8, f9, f10] = &mut *fences;
        let (t8s, mut strengths) = (f0.lend(&mut r.t8s, side), f1.lend(&mut r.strengths, side));
        let (inter, nnz) = (f2.lend(&mut r.inter, side), f3.lend(&mut r.nnz, side));
        let (ref0, mv0) = (f4.lend(&mut r.ref0, side), f5.lend(&mut r.mv0, side));
        let (ref1, mv1) = (f6.lend(&mut r.ref1, side), f7.lend(&mut r.mv1, side));
        let (pictures0, pictures1) = (f8.lend(&mut r.pictures0, side), f9.lend(&mut r.pictures1, side));
        let kinds = f10.lend(&mut r.kinds, side);

        let size = Size { w: r.w, h: r.h };
        let mut picture = Picture { size, t8s: &t8s, strengths: &mut strengths, ..Picture::default() };
        let grids = Grids {
            inter: &inter,
            nnz: &nnz,
            ref0: &ref0,
            mv0: &mv0,
            ref1: &ref1,
            mv1: &mv1,
            pictures0: &pictures0,
            pictures1: &pictures1,
        };
        let at = Place { x: r.x, y: r.y };
        match r.call {
            Call::Kind => wire::strengths_kind(&mut picture, r.part, grids, at, r.kind),
            Call::Flags => wire::strengths_flags(&mut picture, r.part, grids, at, [r.flat, r.uniform]),
            Call::StrengthsRow => wire::strengths_row(&mut picture, r.part, grids, r.y, &kinds),
            _ => wire::strengths(&mut picture, r.part, grids, at),
        }
    }

    fn filter(&self, r: &mut Request) -> u32 {
        let side = self.next_side();
        let mut fences = self.fences();
        let [f0, f1, f2, f3, f4, f5, f6, f7, f8, ..] = &mut *fences;
        let mut luma = f0.lend(&mut r.luma, side);
        let (mut u, mut v) = (f1.lend(&mut r.u, side), f2.lend(&mut r.v, side));
        let (qps, t8s) = (f3.lend(&mut r.qps, side), f4.lend(&mut r.t8s, side));
        let (mut strengths, mut marks) = (f5.lend(&mut r.strengths, side), f6.lend(&mut r.marks, side));
        let (slices, slice_numbers) = (f7.lend(&mut r.slices, side), f8.lend(&mut r.numbers, side));

        let [a, b, chroma_u, chroma_v] = r.offsets;
        let mut picture = Picture {
            size: Size { w: r.w, h: r.h },
            offsets: Offsets { a, b, chroma_u, chroma_v },
            luma: &mut luma,
            u: &mut u,
            v: &mut v,
            strengths: &mut strengths,
            qps: &qps,
            t8s: &t8s,
            marks: &mut marks,
            slices: &slices,
            slice_numbers: &slice_numbers,
            ..Picture::default()
        };
        let (p, part, at) = (&mut picture, r.part, Place { x: r.x, y: r.y });
        match (r.call, r.sliced) {
            (Call::Whole, false) => wire::whole(p, part),
            (Call::Rows, false) => wire::rows(p, part, r.first, r.last),
            (_, false) => wire::visit(p, part, at),
            (Call::Whole, true) => wire::whole_slices(p, part),
            (Call::Rows, true) => wire::rows_slices(p, part, r.first, r.last),
            (_, true) => wire::visit_slices(p, part, at),
        }
    }
}

impl Subject for Archive {
    fn call(&self, r: &mut Request) -> u32 {
        if r.call.is_strengths() {
            self.derive(r)
        } else {
            self.filter(r)
        }
    }

    fn finality(&self) -> &dyn Finality {
        self
    }
}
