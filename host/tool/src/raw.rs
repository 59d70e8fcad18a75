//! Pictures of any even size, for comparing: three planes, Y, U and V, and how two pictures differ.

use crate::part;
use crate::picture::Picture;
use deblock::Part;

/// Width and height in pixels, which are even.
#[derive(Clone, Copy, PartialEq, Eq, Debug)]
pub struct Extent {
    pub width: usize,
    pub height: usize,
}

impl Extent {
    /// The samples of all three planes.
    pub fn samples(self) -> usize {
        self.width * self.height / 2 * 3
    }
}

pub struct Raw {
    pub extent: Extent,
    /// Y, U and V; U and V have half of Y's width and height.
    pub planes: [Vec<u8>; 3],
}

impl Raw {
    /// Y, U and V end to end, as a raw file has them.
    pub fn from_bytes(extent: Extent, mut bytes: Vec<u8>) -> Raw {
        assert_eq!(bytes.len(), extent.samples(), "just as many bytes");
        let area = extent.width * extent.height;
        let v = bytes.split_off(area + area / 4);
        let u = bytes.split_off(area);
        Raw { extent, planes: [bytes, u, v] }
    }

    pub fn view(&self) -> View<'_> {
        View { width: self.extent.width, planes: self.planes.each_ref().map(Vec::as_slice) }
    }
}

impl From<Picture> for Raw {
    fn from(p: Picture) -> Raw {
        Raw { extent: Extent { width: p.width(), height: p.height() }, planes: [p.luma, p.u, p.v] }
    }
}

/// The planes of a picture, of whatever type, and the width of Y.
#[derive(Clone, Copy)]
pub struct View<'a> {
    pub width: usize,
    pub planes: [&'a [u8]; 3],
}

/// A sample that two pictures have differently. In a field all is counted in the field's own lines.
#[derive(Clone, Copy)]
pub struct Sample {
    pub plane: char,
    pub x: usize,
    pub y: usize,
    pub here: u8,
    pub there: u8,
    /// The macroblock that holds it.
    pub column: usize,
    pub row: usize,
}

impl Sample {
    pub fn step(&self) -> u8 {
        self.here.abs_diff(self.there)
    }
}

/// All samples in which two pictures of one size differ, or two fields.
pub fn samples<'a>(part: Part, a: View<'a>, b: View<'a>) -> impl Iterator<Item = Sample> + 'a {
    let (first, step) = part::lines(part);
    let in_plane = move |(p, plane): (usize, char)| {
        let (width, side) = if p == 0 { (a.width, 16) } else { (a.width / 2, 8) };
        let pairs = a.planes[p].iter().zip(b.planes[p]).enumerate();
        pairs.filter(|(_, (here, there))| here != there).filter_map(move |(i, (&here, &there))| {
            let (x, line) = (i % width, i / width);
            let y = line / step;
            (line % step == first).then_some(Sample { plane, x, y, here, there, column: x / side, row: y / side })
        })
    };
    "YUV".chars().enumerate().flat_map(in_plane)
}

#[cfg(test)]
mod tests {
    use super::*;

    #[test]
    fn planes_of_a_size_that_is_no_multiple_of_16() {
        let extent = Extent { width: 18, height: 34 };
        let a = Raw::from_bytes(extent, vec![9; extent.samples()]);
        let mut bytes = vec![9; extent.samples()];
        let (y, u) = (18 * 34, 9 * 17);
        for at in [17, y - 1, y + 8, y + u + 16 * 9] {
            bytes[at] = 7;
        }
        let b = Raw::from_bytes(extent, bytes);
        let found = samples(Part::Frame, a.view(), b.view()).map(|s| (s.plane, s.x, s.y, s.column, s.row));
        let found: Vec<_> = found.collect();
        assert_eq!(found, [('Y', 17, 0, 1, 0), ('Y', 17, 33, 1, 2), ('U', 8, 0, 1, 0), ('V', 0, 16, 0, 2)]);
    }

    /// Of each plane the first line, the second and the last: two lines of the bottom field.
    #[test]
    fn the_lines_of_a_field() {
        let extent = Extent { width: 16, height: 64 };
        let (a, mut b) = (Raw::from_bytes(extent, vec![9; 1536]), Raw::from_bytes(extent, vec![9; 1536]));
        for (plane, width) in b.planes.iter_mut().zip([16, 8, 8]) {
            [0, width, plane.len() - 1].into_iter().for_each(|at| plane[at] = 7);
        }
        let of = |part: Part| samples(part, a.view(), b.view()).map(|s| (s.x, s.y, s.row)).collect::<Vec<_>>();
        let [top, bottom] = crate::part::FIELDS.map(of);
        assert_eq!(top, [(0, 0, 0); 3]);
        assert_eq!(bottom, [(0, 0, 0), (15, 31, 1), (0, 0, 0), (7, 15, 1), (0, 0, 0), (7, 15, 1)]);
    }
}
