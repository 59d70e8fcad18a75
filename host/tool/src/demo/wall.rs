//! The wall of a pipe with a joint and a fine crack, as a crawler's camera films it.
//!
//! Only sums, products, quotients and roundings are used, so that every machine computes the same samples.

use crate::picture::Picture;
use deblock::Size;
use inputs::Rng;

/// 176 by 144 samples.
pub const SIZE: Size = Size { w: 11, h: 9 };
/// How far the wall moves to the left from a picture to the next, in luma samples.
pub const STEP: usize = 3;

/// A wall in samples: how bright it is at each place along the pipe and across it.
pub struct Wall {
    length: usize,
    brightness: Vec<f64>,
}

impl Wall {
    /// A wall long enough for so many pictures.
    pub fn new(pictures: usize) -> Wall {
        let length = 16 * SIZE.w + STEP * pictures;
        let mut r = Rng::new(3);
        let stains =
            [stains(&mut r, length, 23, 10.0), stains(&mut r, length, 6, 5.0), stains(&mut r, length, 1, 10.0)];
        let crack = crack(&mut r, length);
        let brightness = (0..length * 16 * SIZE.h).map(|i| {
            let (x, y) = ((i % length) as f64, (i / length) as f64);
            round_wall(y) + joint(x, y) - 16.0 * bump((y - crack[i % length]) / 1.3)
                + stains.iter().map(|s| s[i]).sum::<f64>()
        });
        Wall { length, brightness: brightness.collect() }
    }

    /// What the camera sees in picture `n`: luma, and a tint that goes with it.
    pub fn photograph(&self, n: usize) -> Picture {
        let (w, h) = (16 * SIZE.w, 16 * SIZE.h);
        let seen = |x: usize, y: usize| self.brightness[y * self.length + x + STEP * n];
        let luma = (0..w * h).map(|i| sample(seen(i % w, i / w))).collect();
        let tint = |level: f64, part: f64| {
            (0..w * h / 4)
                .map(|i| sample(level + part * (seen(2 * (i % (w / 2)), 2 * (i / (w / 2))) - 120.0)))
                .collect()
        };
        Picture { size: SIZE, luma, u: tint(122.0, -0.1), v: tint(132.0, 0.1) }
    }
}

/// The nearest sample.
fn sample(level: f64) -> u8 {
    (level + 0.5).clamp(0.0, 255.0) as u8
}

/// 1 at 0, falling to nothing within 2 to 3.
fn bump(d: f64) -> f64 {
    1.0 / ((1.0 + d * d) * (1.0 + d * d))
}

/// The light on a round wall: less of it above and below.
fn round_wall(y: f64) -> f64 {
    let middle = (8 * SIZE.h) as f64;
    150.0 - 40.0 * (y - middle) * (y - middle) / (middle * middle)
}

/// The groove of the joint, bent as a ring seen from the side, with a bright lip.
fn joint(x: f64, y: f64) -> f64 {
    let from_middle = (y - (8 * SIZE.h) as f64) / 16.0;
    let from_joint = x - 110.0 - from_middle * from_middle;
    18.0 * bump((from_joint + 9.0) / 4.0) - 55.0 * bump(from_joint / 4.0)
}

/// The crack's row for each place along the pipe: it wanders about the lower rows of the fourth row of
/// macroblocks, and so across the corners of one after the other.
fn crack(r: &mut Rng, length: usize) -> Vec<f64> {
    let mut wander = 0.0;
    let mut row = |x: usize| {
        wander = 0.9 * wander + 0.0025 * f64::from(r.within(-100, 100));
        20.0 + 0.3 * x as f64 + wander
    };
    (0..length).map(&mut row).collect()
}

/// Random levels on a lattice of `cell` samples, each within `depth` of 0, and smooth between them.
fn stains(r: &mut Rng, length: usize, cell: usize, depth: f64) -> Vec<f64> {
    let columns = length / cell + 2;
    let rows = 16 * SIZE.h / cell + 2;
    let levels: Vec<f64> = (0..columns * rows).map(|_| depth * f64::from(r.within(-1000, 1000)) / 1000.0).collect();
    let smooth = |n: usize| {
        let t = (n % cell) as f64 / cell as f64;
        t * t * (3.0 - 2.0 * t)
    };
    let between = |a: f64, b: f64, t: f64| a * (1.0 - t) + b * t;
    let at = |i: usize| {
        let (x, y) = (i % length, i / length);
        let corner = y / cell * columns + x / cell;
        let upper = between(levels[corner], levels[corner + 1], smooth(x));
        let lower = between(levels[corner + columns], levels[corner + columns + 1], smooth(x));
        between(upper, lower, smooth(y))
    };
    (0..length * 16 * SIZE.h).map(at).collect()
}
