//! What crates/arrivals must print: the same pictures and orders, each visit answered by the table of
//! refusals and carried out by the Rust original, in a field by the model, with which the original, asked of
//! the field's lines as a frame, agrees.

use crate::expect::{expect, marked_in_raster_order, second_opinion};
use crate::request::{Call, Request};
use std::io::{Result, Write};

type Order<const N: usize> = (&'static str, [(usize, usize); N]);

const ORDERS: [Order<8>; 4] = [
    ("raster order, each twice:", [(0, 0), (0, 0), (1, 0), (1, 0), (0, 1), (0, 1), (1, 1), (1, 1)]),
    ("as slices arrived:", [(0, 1), (0, 0), (0, 1), (1, 0), (2, 0), (0, 1), (1, 1), (1, 1)]),
    ("the old release's order, then again:", [(0, 0), (0, 1), (1, 0), (1, 1), (0, 2), (0, 1), (0, 0), (1, 1)]),
    ("upper row only:", [(1, 0), (0, 0), (1, 1), (0, 1), (1, 0), (1, 1), (1, 0), (0, 0)]),
];

/// The second half of P12: one wide, (0, 1) has no upper right neighbour to wait for.
const DOWNWARDS: Order<2> = ("downwards:", [(0, 0), (0, 1)]);

/// A request to a field: its parity, column and row.
type Arrival = (u8, usize, usize);
type Arrivals = (&'static str, [Arrival; 12]);

const MAX: usize = usize::MAX;

#[rustfmt::skip]
const INTERLACED: [Arrivals; 7] = [
    ("top field first:", [
        (0, 0, 0), (0, 1, 0), (0, 1, 1), (0, 0, 1), (0, 1, 1), (1, 1, 0),
        (1, 0, 0), (1, 1, 0), (1, 0, 1), (1, 1, 1), (0, 1, 1), (1, 1, 1),
    ]),
    ("bottom field first:", [
        (1, 0, 0), (1, 1, 0), (0, 0, 1), (1, 0, 1), (1, 1, 1), (1, 0, 0),
        (0, 0, 0), (0, 1, 0), (0, 0, 1), (0, 1, 1), (0, 0, 0), (1, 0, 1),
    ]),
    ("in turn:", [
        (0, 0, 0), (1, 0, 0), (0, 1, 0), (1, 1, 0), (0, 1, 1), (1, 1, 1),
        (0, 0, 1), (1, 0, 1), (0, 1, 1), (1, 1, 1), (0, 0, 0), (1, 0, 0),
    ]),
    ("with parities of no field:", [
        (2, 0, 0), (0, 0, 0), (255, 1, 0), (0, 1, 0), (0, 0, 1), (1, 0, 0),
        (2, 2, 0), (255, 0, 2), (0, 1, 1), (1, 1, 0), (1, 0, 1), (1, 1, 1),
    ]),
    ("the bottom field unfinished:", [
        (0, 0, 0), (1, 0, 0), (0, 1, 0), (1, 0, 2), (0, 0, 1), (1, 0, 1),
        (0, 1, 1), (1, 1, 0), (0, 2, 1), (1, 1, 1), (1, 0, 0), (0, 1, 1),
    ]),
    ("the top field unfinished:", [
        (1, 0, 0), (0, 1, 0), (1, 1, 0), (0, 0, 0), (1, 0, 1), (2, 1, 0),
        (0, 0, 1), (1, 1, 1), (0, 1, 1), (0, 0, 0), (1, 1, 1), (0, 1, 0),
    ]),
    ("all refused:", [
        (0, 1, 0), (1, 1, 0), (0, 0, 1), (1, 1, 1), (2, 0, 0), (255, 0, 0),
        (2, 2, 2), (255, MAX, 0), (0, 2, 0), (1, 0, MAX), (3, 1, 1), (1, 0, 1),
    ]),
];

/// Asked of planes that have the length of one field's.
#[rustfmt::skip]
const SHORT: Arrivals = ("planes of one field:", [
    (0, 0, 0), (1, 0, 0), (0, 1, 0), (1, 1, 0), (2, 0, 0), (255, 1, 1),
    (0, 2, 0), (1, 0, 2), (2, 2, 0), (0, 0, 1), (1, 0, 1), (1, 1, 1),
]);

pub fn run(out: &mut impl Write) -> Result<()> {
    for (name, picture) in [("flat", flat()), ("mixed", mixed())] {
        writeln!(out, "{name}")?;
        for order in ORDERS {
            replay(out, picture.clone(), order)?;
        }
    }
    writeln!(out, "one wide")?;
    replay(out, one_wide(), DOWNWARDS)?;
    writeln!(out, "interlaced")?;
    for order in INTERLACED {
        replay_fields(out, fields(2), order)?;
    }
    replay_fields(out, fields(1), SHORT)
}

fn replay<const N: usize>(out: &mut impl Write, before: Request, (name, places): Order<N>) -> Result<()> {
    let mut r = before.clone();
    let answers = places.map(|(x, y)| {
        (r.x, r.y) = (x, y);
        expect(&mut r)
    });
    let mut raster = before;
    marked_in_raster_order(&mut raster, &r.marks);
    assert!(raster.luma == r.luma && raster.u == r.u && raster.v == r.v, "demand 3 on the original itself");
    // 0: the lists of the replay are equally long
    write!(out, "{name} 0, answers{}, marks{}, ", words(&answers), words(&r.marks))?;
    writeln!(out, "sample {}, sums {} {} {}", r.luma[495], sum(&r.luma), sum(&r.u), sum(&r.v))
}

fn replay_fields(out: &mut impl Write, before: [Request; 2], (name, arrivals): Arrivals) -> Result<()> {
    let mut now = before.clone();
    let answers = arrivals.map(|arrival| visit_field(&mut now, arrival));
    let mut raster = before;
    for parity in 0..2 {
        marked_in_raster_order(&mut raster[parity], &now[parity].marks);
        lend_planes(&mut raster, parity);
    }
    let [top, bottom] = &now;
    assert!(raster[0].luma == top.luma && raster[0].u == top.u && raster[0].v == top.v, "demand 3 on the model");
    write!(out, "{name} 0, answers{}", words(&answers))?;
    write!(out, ", top marks{}, bottom marks{}", words(&top.marks), words(&bottom.marks))?;
    writeln!(out, ", top sums{}, bottom sums{}", words(&field_sums(top, 0)), words(&field_sums(top, 1)))
}

/// What the visit must answer; the fields are then as it must leave them. A parity above 1 becomes a part
/// above 2, which the table refuses whatever is lent.
fn visit_field(fields: &mut [Request; 2], (parity, x, y): Arrival) -> u32 {
    let own = usize::from(parity != 0);
    let q = &mut fields[own];
    (q.part, q.x, q.y) = (parity.saturating_add(1), x, y);
    let before = q.clone();
    let number = expect(q);
    if number == 0 {
        let other = second_opinion(&before).expect("the original filters planes");
        assert_eq!(q.difference(&other), None, "the original on the field's lines");
    }
    q.part = own as u8 + 1;
    lend_planes(fields, own);
    number
}

/// Puts the planes as the field of parity `from` has them into the other: they are one frame's.
fn lend_planes(fields: &mut [Request; 2], from: usize) {
    let Request { luma, u, v, .. } = fields[from].clone();
    fields[1 - from] = Request { luma, u, v, ..fields[1 - from].clone() };
}

/// The sums of the field's lines.
fn field_sums(r: &Request, parity: usize) -> [u64; 3] {
    let of = |plane: &[u8], line: usize| sum(&plane.chunks(line).skip(parity).step_by(2).collect::<Vec<_>>().concat());
    [of(&r.luma, 16 * r.w), of(&r.u, 8 * r.w), of(&r.v, 8 * r.w)]
}

fn words<T: ToString>(items: &[T]) -> String {
    items.iter().map(|n| format!(" {}", n.to_string())).collect()
}

fn sum(s: &[u8]) -> u64 {
    s.iter().fold(0, |h, &b| (h * 31 + u64::from(b)) % 65521)
}

/// What a picture's four grids are filled with, by the place.
struct Fills<L, U, V, S> {
    luma: L,
    u: U,
    v: V,
    strength: S,
}

fn picture<L, U, V, S>(w: usize, h: usize, fills: Fills<L, U, V, S>) -> Request
where
    L: Fn(usize) -> u8,
    U: Fn(usize) -> u8,
    V: Fn(usize) -> u8,
    S: Fn(usize) -> u8,
{
    let mut r = Request::new(Call::Visit, w, h);
    let n = w * h;
    r.luma = (0..256 * n).map(fills.luma).collect::<Vec<u8>>().into();
    r.u = (0..64 * n).map(fills.u).collect::<Vec<u8>>().into();
    r.v = (0..64 * n).map(fills.v).collect::<Vec<u8>>().into();
    r.strengths = (0..32 * n).map(fills.strength).collect::<Vec<u8>>().into();
    r.marks = vec![0; n].into();
    r
}

/// The fault of the old release: flat macroblocks 100 103 above 105 104, with strength 1 on each edge between
/// two of them.
fn flat() -> Request {
    let luma = |i: usize| [100, 103, 105, 104][2 * (i / 512) + i / 16 % 2];
    let strength = |i: usize| {
        let (m, k) = (i / 32, i % 32);
        u8::from(k < 4 && m % 2 == 1 || (16..20).contains(&k) && m >= 2)
    };
    let mut r = picture(2, 2, Fills { luma, u: |_| 128, v: |_| 127, strength });
    r.qps = vec![40; 4].into();
    r.t8s = vec![0; 4].into();
    r
}

/// Every strength, differences below and above the thresholds.
fn varied(w: usize, h: usize) -> Request {
    let luma = |i: usize| 60 + ((i * 37 + i / 32 * 11) % 23) as u8;
    let u = |i: usize| 120 + ((i * 13 + i / 16 * 5) % 9) as u8;
    let v = |i: usize| 90 + ((i * 7 + i / 16 * 3) % 8) as u8;
    let strength = |i: usize| ((i * 3 + i / 32) % 5) as u8;
    let mut r = picture(w, h, Fills { luma, u, v, strength });
    r.offsets = [2, -3, 1, 1];
    r
}

fn mixed() -> Request {
    let mut r = varied(2, 2);
    r.qps = vec![30, 36, 41, 45].into();
    r.t8s = vec![0, 1, 0, 1].into();
    r
}

fn one_wide() -> Request {
    let mut r = varied(1, 2);
    r.qps = vec![30, 36].into();
    r.t8s = vec![0, 1].into();
    r
}

/// Two fields of 2 by 2 macroblocks, over planes for so many of them: the top one is lent what `mixed` is,
/// the bottom one strengths, QPs, flags and offsets of its own, two chroma offsets among them.
fn fields(count: usize) -> [Request; 2] {
    let Request { luma, u, v, .. } = varied(2, 2 * count);
    let top = Request { part: 1, luma, u, v, ..mixed() };
    let mut bottom = Request { part: 2, offsets: [-1, 4, -2, 3], ..top.clone() };
    bottom.strengths = (0..128).map(|i| ((i * 2 + i / 16) % 5) as u8).collect::<Vec<u8>>().into();
    bottom.qps = vec![44, 33, 38, 35].into();
    bottom.t8s = vec![1, 0, 0, 1].into();
    [top, bottom]
}

#[cfg(test)]
mod tests {
    use super::*;
    use std::mem::swap;

    fn line(fields: [Request; 2], order: Arrivals) -> String {
        let mut out = Vec::new();
        replay_fields(&mut out, fields, order).expect("memory is written");
        String::from_utf8(out).expect("plain text")
    }

    /// The sums of the field of that parity.
    fn sums_of(parity: usize, line: &str) -> &str {
        let (_, sums) = line.trim_end().split_once(", top sums").expect("sums");
        let (top, bottom) = sums.split_once(", bottom sums").expect("sums of both");
        [top, bottom][parity]
    }

    #[test]
    fn what_is_lent_for_the_other_field_shows() {
        let exchanges: [fn(&mut Request, &mut Request); 7] = [
            |top, bottom| swap(&mut top.strengths, &mut bottom.strengths),
            |top, bottom| swap(&mut top.qps, &mut bottom.qps),
            |top, bottom| swap(&mut top.t8s, &mut bottom.t8s),
            |top, bottom| swap(&mut top.offsets[0], &mut bottom.offsets[0]),
            |top, bottom| swap(&mut top.offsets[1], &mut bottom.offsets[1]),
            |top, bottom| swap(&mut top.offsets[2], &mut bottom.offsets[2]),
            |top, bottom| swap(&mut top.offsets[3], &mut bottom.offsets[3]),
        ];
        let right = line(fields(2), INTERLACED[0]);
        for exchange in exchanges {
            let [mut top, mut bottom] = fields(2);
            exchange(&mut top, &mut bottom);
            let wrong = line([top, bottom], INTERLACED[0]);
            assert!([0, 1].iter().all(|&parity| sums_of(parity, &right) != sums_of(parity, &wrong)));
        }
    }

    #[test]
    fn a_field_comes_out_the_same_whatever_the_other_received() {
        let lines = INTERLACED.map(|order| line(fields(2), order));
        let [top, bottom] = [0, 1].map(|parity| lines.each_ref().map(|line| sums_of(parity, line)));
        assert!(top[..5].iter().all(|sums| *sums == top[0]) && top[5] != top[0] && top[6] != top[0]);
        assert!(bottom.iter().enumerate().all(|(i, sums)| (*sums == bottom[0]) == (i != 4 && i != 6)));
    }
}
