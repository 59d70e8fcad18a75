//! One call about what is final with what is lent to it.

use crate::request::{differs, Buffer, Request};

/// The two calls.
#[derive(Clone, Copy, PartialEq, Eq, PartialOrd, Ord, Debug)]
pub enum Call {
    IsFinal,
    MadeFinal,
}

pub const CALLS: [Call; 2] = [Call::IsFinal, Call::MadeFinal];

/// A call and its arguments.
#[derive(Clone)]
pub struct Ask {
    pub call: Call,
    pub w: usize,
    pub h: usize,
    pub x: usize,
    pub y: usize,
    pub marks: Buffer<u8>,
}

/// What a call gives back.
#[derive(Clone, Copy, PartialEq, Eq, Debug)]
pub struct Reply {
    pub number: u32,
    /// Of the macroblock, its left and its upper neighbour 1 where it is final; `IsFinal` tells the first.
    pub finals: [u8; 3],
}

impl Reply {
    pub fn refused(number: u32) -> Reply {
        Reply { number, finals: [0; 3] }
    }
}

impl Ask {
    /// About macroblock (x, y) of the picture that a request is made on.
    pub fn of(q: &Request, call: Call, (x, y): (usize, usize)) -> Ask {
        Ask { call, w: q.w, h: q.h, x, y, marks: q.marks.clone() }
    }

    /// What differs between two of them that must not, in words.
    pub fn difference(&self, other: &Ask) -> Option<String> {
        differs("marks", &self.marks, &other.marks)
    }

    /// The case in words: the numbers, and the first of the marks.
    pub fn describe(&self) -> String {
        let Ask { call, w, h, x, y, marks } = self;
        let shown = &marks[..marks.len().min(64)];
        format!("{call:?} w {w} h {h} x {x} y {y}, {} marks, the first of them {shown:?}", marks.len())
    }
}
