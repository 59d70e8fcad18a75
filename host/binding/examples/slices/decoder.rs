//! A decoder's stand-in, which makes random pictures and the order in which their slices arrive; and a
//! picture's memory, how it is lent and how a macroblock of it is copied. All values are legal, though no
//! encoder would choose them so.

use deblock::{Grids, Offsets, Picture, Place, Size};

pub const SIZE: Size = Size { w: 5, h: 4 };
pub const N: usize = SIZE.w * SIZE.h;

/// Luma, U and V.
pub type Planes = [Vec<u8>; 3];

/// The memory of a picture. References and vectors are those of list 0, then of list 1.
#[derive(Clone)]
pub struct Buffers {
    pub planes: Planes,
    pub strengths: Vec<u8>,
    pub qps: Vec<u8>,
    pub t8s: Vec<u8>,
    pub marks: Vec<u8>,
    pub inter: Vec<u8>,
    pub nnz: Vec<u8>,
    pub refs: [Vec<i8>; 2],
    pub mvs: [Vec<i16>; 2],
}

impl Buffers {
    pub fn filled(byte: u8) -> Buffers {
        Buffers {
            planes: [256, 64, 64].map(|samples| vec![byte; samples * N]),
            strengths: vec![byte; 32 * N],
            qps: vec![byte; N],
            t8s: vec![byte; N],
            marks: vec![byte; N],
            inter: vec![byte; 16 * N],
            nnz: vec![byte; 16 * N],
            refs: [0, 1].map(|_| vec![byte as i8; 16 * N]),
            mvs: [0, 1].map(|_| vec![byte.into(); 32 * N]),
        }
    }

    #[allow(clippy::needless_update)] // a later version may add members
    pub fn lend(&mut self) -> (Picture<'_>, Grids<'_>) {
        let Buffers { planes: [luma, u, v], strengths, qps, t8s, marks, inter, nnz, refs, mvs } = self;
        let ([ref0, ref1], [mv0, mv1]) = (refs, mvs);
        // two chroma offsets, as a High profile stream may send
        let offsets = Offsets { a: 2, b: -2, chroma_u: 1, chroma_v: -3 };
        let picture = Picture { size: SIZE, offsets, luma, u, v, strengths, qps, t8s, marks, ..Picture::default() };
        (picture, Grids { inter, nnz, ref0, mv0, ref1, mv1, ..Grids::default() })
    }
}

/// Copies macroblock `at` of a plane or grid in which it has so many rows of so many entries.
pub fn copy<T: Copy>(to: &mut [T], from: &[T], at: Place, rows: usize, entries: usize) {
    for row in rows * at.y..rows * (at.y + 1) {
        let first = (row * SIZE.w + at.x) * entries;
        to[first..first + entries].copy_from_slice(&from[first..first + entries]);
    }
}

pub fn copy_samples(to: &mut Planes, from: &Planes, at: Place) {
    for (plane, side) in [16, 8, 8].into_iter().enumerate() {
        copy(&mut to[plane], &from[plane], at, side, side);
    }
}

/// Makes random numbers.
struct Random(u32);

impl Random {
    /// A number below `n`.
    fn below(&mut self, n: usize) -> usize {
        self.0 ^= self.0 << 13;
        self.0 ^= self.0 >> 17;
        self.0 ^= self.0 << 5;
        (self.0 >> 8) as usize % n
    }
}

/// Slices of 1 to 6 macroblocks, and one of them once more.
fn cut_slices(random: &mut Random) -> Vec<Vec<Place>> {
    let mut rest: Vec<Place> = SIZE.places().collect();
    let mut slices: Vec<Vec<Place>> = Vec::new();
    while !rest.is_empty() {
        let len = rest.len().min(1 + random.below(6));
        slices.push(rest.drain(..len).collect());
    }
    slices.push(slices[random.below(slices.len())].clone());
    slices
}

fn shuffle_slices(slices: &mut [Vec<Place>], random: &mut Random) {
    for i in (1..slices.len()).rev() {
        slices.swap(i, random.below(i + 1));
    }
}

/// A block's reference and vector in each list, -1 and 0 where it does not use the list. Inter blocks use
/// list 0, list 1 or both.
fn decode_motion(sent: &mut Buffers, block: usize, random: &mut Random) {
    let lists = if sent.inter[block] == 1 { 1 + random.below(3) } else { 0 };
    for list in 0..2 {
        let uses = lists >> list & 1 == 1;
        sent.refs[list][block] = if uses { random.below(2) as i8 } else { -1 };
        sent.mvs[list][2 * block] = if uses { random.below(8) as i16 } else { 0 };
        sent.mvs[list][2 * block + 1] = if uses { random.below(8) as i16 } else { 0 };
    }
}

/// Counts are the blocks' own, also under an 8x8 transform: the library joins those of an 8x8 block.
fn decode_macroblock(sent: &mut Buffers, at: Place, random: &mut Random) {
    let (inter, t8) = (random.below(3) > 0, random.below(3) == 0);
    let coded = random.below(65536); // a bit a block
    sent.qps[SIZE.index(at)] = 30 + random.below(22) as u8;
    sent.t8s[SIZE.index(at)] = t8.into();
    for k in 0..16 {
        let block = (4 * at.y + k / 4) * 4 * SIZE.w + 4 * at.x + k % 4;
        sent.inter[block] = inter.into();
        sent.nnz[block] = (coded >> k & 1) as u8;
        decode_motion(sent, block, random);
    }
}

/// Picture 1, 2 and so on, and its slices in the order in which they arrive. The slices come first: so their
/// order depends on nothing else.
pub fn decode(number: u32) -> (Buffers, Vec<Vec<Place>>) {
    let mut random = Random(number * 57639); // with this factor picture 1 has a bit of everything
    let mut slices = cut_slices(&mut random);
    shuffle_slices(&mut slices, &mut random);
    let mut sent = Buffers::filled(0);
    for plane in &mut sent.planes {
        plane.fill_with(|| 100 + random.below(10) as u8); // noise, which the filter smooths
    }
    SIZE.places().for_each(|at| decode_macroblock(&mut sent, at, &mut random));
    (sent, slices)
}
