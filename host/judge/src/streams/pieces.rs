//! A stream in pieces: the words of its two lines, what ends them, and its samples. A word may be empty:
//! that makes two spaces, or one at an end of the line.

use super::ask::{lengths, Ask};
use super::POOL;
use crate::make;
use inputs::Rng;

#[derive(Clone)]
pub struct Pieces {
    pub header: Vec<Vec<u8>>,
    pub frame: Vec<Vec<u8>>,
    /// What ends each of the two lines.
    pub ends: [Vec<u8>; 2],
    pub samples: Vec<u8>,
    /// How long the planes are into which it is read.
    pub lengths: [usize; 3],
}

/// Tags that are passed over, in the header and in the FRAME line.
#[rustfmt::skip]
const OTHERS: [&[u8]; 14] = [
    b"F25:1", b"F30000:1001", b"Ip", b"It", b"A1:1", b"A0:0", b"XYSCSS=420JPEG", b"XCOLORRANGE=LIMITED",
    b"X", b"w16", b"c444", b"XFOO\r", b"\t", b"\0\xC8",
];

/// Tags that count in the header alone, and are passed over in the FRAME line.
const OF_HEADER: [&[u8]; 7] = [b"W16", b"W", b"H17", b"H-1", b"C444", b"C420", b"C"];

impl Pieces {
    /// A good stream of a picture of at most `area` macroblocks.
    pub fn good(r: &mut Rng, area: usize) -> Pieces {
        let (w, h) = make::size(r, area);
        let mut header: Vec<Vec<u8>> =
            [(b'W', w), (b'H', h)].map(|(letter, side)| tag(letter, &pixels(r, side))).into();
        if !r.once_in(3) {
            header.push(tag(b'C', r.pick(&[b"420", b"420jpeg", b"420mpeg2", b"420paldv"])));
        }
        (0..r.pick(&[0, 0, 1, 2, 4])).for_each(|_| header.push(other(r)));
        r.shuffle(&mut header);
        header.insert(0, b"YUV4MPEG2".to_vec());
        let mut frame = vec![b"FRAME".to_vec()];
        for _ in 0..r.pick(&[0, 0, 0, 1, 3]) {
            frame.push(if r.once_in(2) { other(r) } else { r.pick(&OF_HEADER).to_vec() });
        }
        let after = r.pick(&[0, 0, 1, 6, 400]);
        let mut samples = some(r, 384 * w * h + after);
        if r.once_in(8) {
            samples = [&samples, &b"FRAME\n"[..], &some(r, 384 * w * h)].concat();
        }
        Pieces { header, frame, ends: [b"\n".to_vec(), b"\n".to_vec()], samples, lengths: lengths(w, h) }
    }

    /// The place of a tag of the header.
    pub fn place(&self, letter: u8) -> Option<usize> {
        (1..self.header.len()).find(|i| self.header[*i].first() == Some(&letter))
    }

    /// Puts another value into a tag of the header; where it is not there, adds it.
    pub fn set(&mut self, letter: u8, value: &[u8]) {
        match self.place(letter) {
            Some(i) => self.header[i] = tag(letter, value),
            None => self.header.push(tag(letter, value)),
        }
    }

    /// The two lines.
    pub fn lines(&self) -> Vec<u8> {
        let [header, frame] = [&self.header, &self.frame].map(|words| words.join(&b' '));
        [header, self.ends[0].clone(), frame, self.ends[1].clone()].concat()
    }

    pub fn ask(&self) -> Ask {
        Ask::of([self.lines(), self.samples.clone()].concat(), self.lengths)
    }
}

pub fn tag(letter: u8, value: &[u8]) -> Vec<u8> {
    [&[letter], value].concat()
}

/// Samples from anywhere in the pool: what they are does not matter, but that they differ does.
pub fn some(r: &mut Rng, len: usize) -> Vec<u8> {
    let from = r.below(POOL.len() - len + 1);
    POOL[from..from + len].to_vec()
}

/// A side as it may be written: leading zeros come up.
fn pixels(r: &mut Rng, side: usize) -> Vec<u8> {
    zeros(r, (16 * side).to_string().into_bytes())
}

/// The number behind some zeros.
pub fn zeros(r: &mut Rng, digits: Vec<u8>) -> Vec<u8> {
    let count = match r.below(16) {
        0..=9 => return digits,
        10..=12 => 1 + r.below(3),
        13..=14 => r.below(30),
        _ => r.below(400),
    };
    [vec![b'0'; count], digits].concat()
}

/// A tag that is passed over: a usual one, or any bytes.
pub fn other(r: &mut Rng) -> Vec<u8> {
    if !r.once_in(3) {
        return r.pick(&OTHERS).to_vec();
    }
    let mut tag: Vec<u8> = (0..1 + r.below(8)).map(|_| r.bits() as u8).collect();
    tag.iter_mut().filter(|b| matches!(**b, b' ' | b'\n')).for_each(|b| *b = b'\r');
    if matches!(tag[0], b'W' | b'H' | b'C') {
        tag[0] = b'X';
    }
    tag
}
