//! Pictures as the filter takes them: three planes, and what is lent with them.

use crate::lent::Lent;
use crate::part;
use crate::raw::{samples, Sample, View};
use crate::slices::Slices;
use deblock::{Offsets, Part, Place, Size};

#[derive(Clone, PartialEq, Eq)]
pub struct Picture {
    /// As the calls take it: that of one field where the planes have the lines of two.
    pub size: Size,
    pub luma: Vec<u8>,
    pub u: Vec<u8>,
    pub v: Vec<u8>,
}

/// What filtering a frame or a field needs beside the planes.
pub struct Settings {
    pub part: Part,
    /// A and B are 0 where there are slices, which have their own.
    pub offsets: Offsets,
    pub slices: Option<Slices>,
    pub strengths: Vec<u8>,
    pub qps: Vec<u8>,
    pub t8s: Vec<u8>,
}

impl Picture {
    /// The planes end to end, as a recording has them: two thirds of the samples are luma's.
    pub fn from_planes(size: Size, bytes: &[u8]) -> Picture {
        let (luma, chroma) = bytes.split_at(bytes.len() / 3 * 2);
        let (u, v) = chroma.split_at(chroma.len() / 2);
        Picture { size, luma: luma.to_vec(), u: u.to_vec(), v: v.to_vec() }
    }

    /// The picture as calls take it. Strengths are those of `settings`, or others: calls may write them.
    pub fn lent<'a>(&'a mut self, settings: &'a Settings, strengths: &'a mut [u8], marks: &'a mut [u8]) -> Lent<'a> {
        let Picture { size, luma, u, v } = self;
        let Settings { part, offsets, slices, qps, t8s, .. } = settings;
        let (table, numbers) = slices.as_ref().map_or((&[][..], &[][..]), |s| (&s.table[..], &s.numbers[..]));
        let picture = deblock::Picture {
            size: *size,
            part: *part,
            offsets: *offsets,
            luma,
            u,
            v,
            strengths,
            qps,
            t8s,
            marks,
            slices: table,
            slice_numbers: numbers,
        };
        Lent { picture, has_slices: slices.is_some() }
    }

    /// Another sample in every place.
    pub fn inverted(&self) -> Picture {
        let other = |plane: &[u8]| plane.iter().map(|&s| 255 - s).collect();
        Picture { size: self.size, luma: other(&self.luma), u: other(&self.u), v: other(&self.v) }
    }

    /// Takes the samples of one macroblock from another picture of the same size.
    pub fn take_macroblock(&mut self, from: &Picture, part: Part, at: Place) {
        let w = self.size.w;
        let (first, step) = part::lines(part);
        let planes = [(&mut self.luma, &from.luma, 16), (&mut self.u, &from.u, 8), (&mut self.v, &from.v, 8)];
        for (to, from, side) in planes {
            for line in (0..side).map(|row| first + step * (side * at.y + row)) {
                let start = side * (line * w + at.x);
                to[start..start + side].copy_from_slice(&from[start..start + side]);
            }
        }
    }

    pub fn view(&self) -> View<'_> {
        View { width: self.width(), planes: [&self.luma, &self.u, &self.v] }
    }

    pub fn width(&self) -> usize {
        16 * self.size.w
    }

    pub fn height(&self) -> usize {
        self.luma.len() / self.width()
    }
}

/// All samples in which two pictures of one size differ.
pub fn differences(a: &Picture, b: &Picture) -> Vec<Sample> {
    samples(Part::Frame, a.view(), b.view()).collect()
}
