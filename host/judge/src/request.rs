//! One call with everything that is lent to it.

use deblock::SliceRecord;
use std::ops::{Deref, DerefMut};

/// The calls of the archive that derive strengths and filter; each that filters is there twice, plain and
/// with slices.
#[derive(Clone, Copy, PartialEq, Eq, PartialOrd, Ord, Debug)]
pub enum Call {
    Kind,
    Flags,
    Flagless,
    /// A row of strengths, where `Rows` filters.
    StrengthsRow,
    Whole,
    Rows,
    Visit,
}

/// The strength calls of one macroblock.
pub const SINGLE_CALLS: [Call; 3] = [Call::Kind, Call::Flags, Call::Flagless];
pub const STRENGTH_CALLS: [Call; 4] = [Call::Kind, Call::Flags, Call::Flagless, Call::StrengthsRow];
pub const FILTER_CALLS: [Call; 3] = [Call::Whole, Call::Rows, Call::Visit];
pub const CALLS: [Call; 7] =
    [Call::Kind, Call::Flags, Call::Flagless, Call::StrengthsRow, Call::Whole, Call::Rows, Call::Visit];

impl Call {
    /// Whether the call is lent the 4x4 grids and writes strengths; the others are lent planes and read
    /// strengths.
    pub fn is_strengths(self) -> bool {
        STRENGTH_CALLS.contains(&self)
    }

    /// In words; a filtering call with slices is another call.
    pub fn name(self, sliced: bool) -> String {
        format!("{self:?}{}", if sliced { "Slices" } else { "" })
    }
}

/// What a picture is: a frame, or a field, which lies on every second line of a frame.
#[derive(Clone, Copy, PartialEq, Eq, PartialOrd, Ord)]
pub enum Structure {
    Frame,
    Field,
}

impl Structure {
    pub fn of(part: u8) -> Structure {
        match part {
            0 => Structure::Frame,
            _ => Structure::Field,
        }
    }

    pub fn words(self) -> &'static str {
        match self {
            Structure::Frame => "frames",
            Structure::Field => "fields",
        }
    }

    /// How many pictures share the planes.
    pub fn share(self) -> usize {
        match self {
            Structure::Frame => 1,
            Structure::Field => 2,
        }
    }
}

/// What is lent of a list: references and vectors of all blocks, and the table from index to picture.
#[derive(Clone, Copy)]
pub struct List<'a> {
    pub refs: &'a [i8],
    pub mvs: &'a [i16],
    pub pictures: &'a [i32],
}

/// A call and its arguments. What the call does not take stays empty or 0.
#[derive(Clone, PartialEq)]
pub struct Request {
    pub call: Call,
    pub w: usize,
    pub h: usize,
    /// 0 a frame, 1 its top field, 2 its bottom field. To a strength call any byte but 0 says that the
    /// picture is a field.
    pub part: u8,
    /// The macroblock of a strength call or a visit; of a row of strengths `y` alone.
    pub x: usize,
    pub y: usize,
    /// The rows that a row call filters.
    pub first: usize,
    pub last: usize,
    pub kind: u8,
    pub flat: u8,
    pub uniform: u8,
    /// A, B, U's chroma offset, V's. A call with slices is not lent A and B.
    pub offsets: [i32; 4],
    /// Whether a filtering call is the one with slices: it alone is lent `slices` and `numbers`.
    pub sliced: bool,
    /// The records of slices, and for each macroblock the number of its own.
    pub slices: Buffer<SliceRecord>,
    pub numbers: Buffer<u16>,
    /// Of a row of strengths: for each macroblock of the picture its kind, or none.
    pub kinds: Buffer<u8>,
    pub inter: Buffer<u8>,
    pub nnz: Buffer<u8>,
    pub ref0: Buffer<i8>,
    pub mv0: Buffer<i16>,
    pub ref1: Buffer<i8>,
    pub mv1: Buffer<i16>,
    pub pictures0: Buffer<i32>,
    pub pictures1: Buffer<i32>,
    pub strengths: Buffer<u8>,
    pub luma: Buffer<u8>,
    pub u: Buffer<u8>,
    pub v: Buffer<u8>,
    pub qps: Buffer<u8>,
    pub t8s: Buffer<u8>,
    pub marks: Buffer<u8>,
}

impl Request {
    pub fn new(call: Call, w: usize, h: usize) -> Request {
        Request {
            call,
            w,
            h,
            part: 0,
            x: 0,
            y: 0,
            first: 0,
            last: 0,
            kind: 0,
            flat: 0,
            uniform: 0,
            offsets: [0; 4],
            sliced: false,
            slices: Buffer::default(),
            numbers: Buffer::default(),
            kinds: Buffer::default(),
            inter: Buffer::default(),
            nnz: Buffer::default(),
            ref0: Buffer::default(),
            mv0: Buffer::default(),
            ref1: Buffer::default(),
            mv1: Buffer::default(),
            pictures0: Buffer::default(),
            pictures1: Buffer::default(),
            strengths: Buffer::default(),
            luma: Buffer::default(),
            u: Buffer::default(),
            v: Buffer::default(),
            qps: Buffer::default(),
            t8s: Buffer::default(),
            marks: Buffer::default(),
        }
    }

    /// The number of the request's macroblock in raster order.
    pub fn at(&self) -> usize {
        self.y * self.w + self.x
    }

    /// The kind that a strength call is told of a macroblock, if any.
    pub fn kind_of(&self, macroblock: usize) -> Option<u8> {
        match self.call {
            Call::Kind => Some(self.kind),
            Call::StrengthsRow => self.kinds.get(macroblock).copied(),
            _ => None,
        }
    }

    /// A row of strengths as the single call of its macroblock in this column: by kind where kinds are lent.
    pub fn turn_to(&mut self, x: usize) {
        self.x = x;
        (self.call, self.kind) = match self.kinds.get(self.at()) {
            Some(kind) => (Call::Kind, *kind),
            None => (Call::Flagless, 0),
        };
    }

    /// The number of the macroblock that a 4x4 block lies in.
    pub fn macroblock_of(&self, block: usize) -> usize {
        block / (4 * self.w) / 4 * self.w + block % (4 * self.w) / 4
    }

    pub fn name(&self) -> String {
        self.call.name(self.sliced)
    }

    pub fn structure(&self) -> Structure {
        Structure::of(self.part)
    }

    pub fn lists(&self) -> [List<'_>; 2] {
        let Request { ref0, mv0, pictures0, ref1, mv1, pictures1, .. } = self;
        [(ref0, mv0, pictures0), (ref1, mv1, pictures1)].map(|(refs, mvs, pictures)| List { refs, mvs, pictures })
    }

    /// The record of a macroblock's slice.
    pub fn record(&self, macroblock: usize) -> SliceRecord {
        self.slices[usize::from(self.numbers[macroblock])]
    }

    /// Whether a strength call is lent a table for a list at least.
    pub fn has_tables(&self) -> bool {
        self.call.is_strengths() && self.lists().iter().any(|list| !list.pictures.is_empty())
    }

    /// The two tables, for a change.
    pub fn tables(&mut self) -> [&mut Buffer<i32>; 2] {
        [&mut self.pictures0, &mut self.pictures1]
    }

    /// The first thing that differs between two requests, in words.
    pub fn difference(&self, other: &Request) -> Option<String> {
        differs("kinds", &self.kinds, &other.kinds)
            .or_else(|| differs("inter", &self.inter, &other.inter))
            .or_else(|| differs("nnz", &self.nnz, &other.nnz))
            .or_else(|| differs("ref0", &self.ref0, &other.ref0))
            .or_else(|| differs("mv0", &self.mv0, &other.mv0))
            .or_else(|| differs("ref1", &self.ref1, &other.ref1))
            .or_else(|| differs("mv1", &self.mv1, &other.mv1))
            .or_else(|| differs("pictures0", &self.pictures0, &other.pictures0))
            .or_else(|| differs("pictures1", &self.pictures1, &other.pictures1))
            .or_else(|| differs("slices", &self.slices, &other.slices))
            .or_else(|| differs("numbers", &self.numbers, &other.numbers))
            .or_else(|| differs("strengths", &self.strengths, &other.strengths))
            .or_else(|| differs("luma", &self.luma, &other.luma))
            .or_else(|| differs("u", &self.u, &other.u))
            .or_else(|| differs("v", &self.v, &other.v))
            .or_else(|| differs("qps", &self.qps, &other.qps))
            .or_else(|| differs("t8s", &self.t8s, &other.t8s))
            .or_else(|| differs("marks", &self.marks, &other.marks))
    }

    /// Undoes the step from `before` to `after` in every entry that is still as in `after`.
    pub fn undo(&mut self, before: &Request, after: &Request) {
        self.kinds.undo(&before.kinds, &after.kinds);
        self.inter.undo(&before.inter, &after.inter);
        self.nnz.undo(&before.nnz, &after.nnz);
        self.ref0.undo(&before.ref0, &after.ref0);
        self.mv0.undo(&before.mv0, &after.mv0);
        self.ref1.undo(&before.ref1, &after.ref1);
        self.mv1.undo(&before.mv1, &after.mv1);
        self.pictures0.undo(&before.pictures0, &after.pictures0);
        self.pictures1.undo(&before.pictures1, &after.pictures1);
        self.slices.undo(&before.slices, &after.slices);
        self.numbers.undo(&before.numbers, &after.numbers);
        self.strengths.undo(&before.strengths, &after.strengths);
        self.luma.undo(&before.luma, &after.luma);
        self.u.undo(&before.u, &after.u);
        self.v.undo(&before.v, &after.v);
        self.qps.undo(&before.qps, &after.qps);
        self.t8s.undo(&before.t8s, &after.t8s);
        self.marks.undo(&before.marks, &after.marks);
    }
}

/// The first place at which two buffers of a length differ, guards included, in words.
pub fn differs<T: Lent>(name: &str, got: &Buffer<T>, want: &Buffer<T>) -> Option<String> {
    if got.all == want.all {
        return None; // the usual case, and much quicker than looking for a place
    }
    let i = got.all.iter().zip(&want.all).position(|(a, b)| a != b)?;
    let (a, b) = (got.all[i], want.all[i]);
    let place = match i.checked_sub(GUARD) {
        None => "in the guard before it".to_string(),
        Some(i) if i >= got.len() => "in the guard after it".to_string(),
        Some(i) => format!("at {i}"),
    };
    Some(format!("{name} {place}: {a:?} instead of {b:?}"))
}

/// Guard elements on each side of a buffer.
const GUARD: usize = 64;

/// The element types that are lent, each with the value of its guards.
pub trait Lent: Copy + PartialEq + std::fmt::Debug {
    const GUARD: Self;
    /// Any value, from random bits.
    fn of(bits: u64) -> Self;
}

macro_rules! lent {
    ($($type:ident $guard:literal)*) => {
        $(impl Lent for $type {
            const GUARD: $type = $guard;
            fn of(bits: u64) -> $type {
                bits as $type
            }
        })*
    };
}
lent! { u8 0xA5 i8 -0x5B u16 0xA5A5 i16 -0x5A5B i32 -0x5A5A_5A5B }

impl Lent for SliceRecord {
    const GUARD: SliceRecord = SliceRecord { mode: u8::GUARD, a: i8::GUARD, b: i8::GUARD };
    fn of(bits: u64) -> SliceRecord {
        SliceRecord { mode: u8::of(bits), a: i8::of(bits >> 8), b: i8::of(bits >> 16) }
    }
}

/// Lent memory between guards. Comparing two buffers compares their guards too, so a byte written beside a
/// buffer shows.
#[derive(Clone, PartialEq)]
pub struct Buffer<T> {
    all: Vec<T>,
}

impl<T: Lent> Buffer<T> {
    pub fn resize(&mut self, len: usize, fill: T) {
        let mut content = self.to_vec();
        content.resize(len, fill);
        *self = content.into();
    }

    fn undo(&mut self, before: &[T], after: &[T]) {
        for (own, (before, after)) in self.iter_mut().zip(before.iter().zip(after)) {
            if before != after && own == after {
                *own = *before;
            }
        }
    }
}

impl<T: Lent> From<Vec<T>> for Buffer<T> {
    fn from(content: Vec<T>) -> Self {
        let mut all = Vec::with_capacity(content.len() + 2 * GUARD);
        all.resize(GUARD, T::GUARD);
        all.extend(content);
        all.resize(all.len() + GUARD, T::GUARD);
        Buffer { all }
    }
}

impl<T: Lent> Default for Buffer<T> {
    fn default() -> Self {
        Vec::new().into()
    }
}

impl<T> Deref for Buffer<T> {
    type Target = [T];
    fn deref(&self) -> &[T] {
        &self.all[GUARD..self.all.len() - GUARD]
    }
}

impl<T> DerefMut for Buffer<T> {
    fn deref_mut(&mut self) -> &mut [T] {
        let end = self.all.len() - GUARD;
        &mut self.all[GUARD..end]
    }
}

#[cfg(test)]
mod tests {
    use super::*;

    #[test]
    fn what_a_call_has_changed_is_not_undone() {
        let lent = |marks: [u8; 4]| Request { marks: marks.to_vec().into(), ..Request::new(Call::Visit, 4, 1) };
        let mut got = lent([9, 2, 7, 5]);
        got.undo(&lent([1, 2, 3, 4]), &lent([9, 2, 8, 4]));
        assert_eq!(got.marks[..], [1, 2, 7, 5]);
    }
}
