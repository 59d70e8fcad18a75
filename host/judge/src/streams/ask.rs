//! One call about a stream with everything that is lent to it.

use crate::request::{differs, Buffer};

/// The four calls about streams.
#[derive(Clone, Copy, PartialEq, Eq, PartialOrd, Ord, Debug)]
pub enum Call {
    Look,
    Read,
    Length,
    Write,
}

/// A call and its arguments. What the call does not take is not handed to it, and must stay as it is.
#[derive(Clone)]
pub struct Ask {
    pub call: Call,
    /// The size that `Length` and `Write` are told, in macroblocks.
    pub w: usize,
    pub h: usize,
    /// Read by `Look` and `Read`, written by `Write`.
    pub stream: Buffer<u8>,
    pub luma: Buffer<u8>,
    pub u: Buffer<u8>,
    pub v: Buffer<u8>,
}

/// What a call gives back. `Length` answers no number; for the count 1 stands for a length of 0.
#[derive(Clone, Copy, PartialEq, Eq, Debug, Default)]
pub struct Reply {
    pub number: u32,
    /// The size that `Look` and `Read` found, in macroblocks.
    pub w: usize,
    pub h: usize,
    pub length: usize,
}

impl Reply {
    pub fn refused(number: u32) -> Reply {
        Reply { number, ..Reply::default() }
    }

    pub fn length(length: usize) -> Reply {
        Reply { number: (length == 0).into(), length, ..Reply::default() }
    }
}

/// How long the planes of a picture are; where no picture is so large, any lengths will do.
pub fn lengths(w: usize, h: usize) -> [usize; 3] {
    let n = if w <= 256 && h <= 256 { w * h } else { 1 };
    [256 * n, 64 * n, 64 * n]
}

impl Ask {
    /// To look at a stream, and later to read it into planes of these lengths. What they hold before differs
    /// from most samples.
    pub fn of(stream: Vec<u8>, lengths: [usize; 3]) -> Ask {
        let [luma, u, v] = lengths.map(|len| vec![0x5A; len].into());
        Ask { call: Call::Look, w: 0, h: 0, stream: stream.into(), luma, u, v }
    }

    /// To write a stream of these samples into `room` bytes.
    pub fn to_write(w: usize, h: usize, samples: &[u8], room: usize) -> Ask {
        let [luma, u, v] = split(samples, lengths(w, h)).map(|plane| plane.to_vec().into());
        Ask { call: Call::Write, w, h, stream: vec![0x3C; room].into(), luma, u, v }
    }

    pub fn planes(&mut self) -> [&mut Buffer<u8>; 3] {
        [&mut self.luma, &mut self.u, &mut self.v]
    }

    /// The first thing that differs between two of them, in words.
    pub fn difference(&self, other: &Ask) -> Option<String> {
        differs("stream", &self.stream, &other.stream)
            .or_else(|| differs("luma", &self.luma, &other.luma))
            .or_else(|| differs("u", &self.u, &other.u))
            .or_else(|| differs("v", &self.v, &other.v))
    }

    /// The case in words: the numbers, and the stream as far as a person may read it. Dots at its end, which
    /// are what the search for a small case leaves of samples, are counted.
    pub fn describe(&self) -> String {
        const SHOWN: usize = 600;
        let Ask { call, w, h, stream, luma, u, v } = self;
        let dots = stream.iter().rev().take_while(|b| **b == b'.').count();
        let told = &stream[..stream.len() - dots];
        let shown = &told[..told.len().min(SHOWN)];
        let rest = match (told.len() - shown.len(), dots) {
            (0, 0) => String::new(),
            (0, dots) => format!(" and {dots} dots"),
            (more, dots) => format!(" and {} bytes more", more + dots),
        };
        format!(
            "{call:?} w {w} h {h}, luma {}, u {}, v {} bytes, stream of {} bytes: \"{}\"{rest}",
            luma.len(),
            u.len(),
            v.len(),
            stream.len(),
            shown.escape_ascii()
        )
    }
}

/// The samples of three planes that stand one after the other; those that are missing are missing at the end.
fn split(samples: &[u8], lengths: [usize; 3]) -> [&[u8]; 3] {
    let mut rest = samples;
    lengths.map(|len| {
        let (own, others) = rest.split_at(len.min(rest.len()));
        rest = others;
        own
    })
}
