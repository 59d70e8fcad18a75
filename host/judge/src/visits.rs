//! Demand 3: visits in any order, refused ones among them, against the picture of just the visited ones in
//! raster order. The two fields of a frame are two pictures, whose visits come mixed.

use crate::expect::{expect, marked_in_raster_order};
use crate::finality::Watch;
use crate::make;
use crate::make_slices;
use crate::request::{Call, Request, Structure};
use crate::session::{Failure, Outcome, Session};
use crate::table;
use inputs::Rng;
use std::mem::swap;

/// A visit: of which picture, with which part, where.
#[derive(Clone, Copy, Debug)]
struct Ask {
    picture: usize,
    part: u8,
    at: (usize, usize),
}

/// A frame, or the two fields of one: each with strengths, QPs, flags, marks and offsets of its own, over the
/// same planes, which one of them holds.
#[derive(Clone)]
struct Pictures {
    all: Vec<Request>,
    holder: usize,
}

impl Pictures {
    /// The picture, now with the planes.
    fn lend(&mut self, picture: usize) -> &mut Request {
        if picture != self.holder {
            let [from, to] = self.all.get_disjoint_mut([self.holder, picture]).expect("two of them");
            swap(&mut from.luma, &mut to.luma);
            swap(&mut from.u, &mut to.u);
            swap(&mut from.v, &mut to.v);
            self.holder = picture;
        }
        &mut self.all[picture]
    }

    /// The request of a visit.
    fn ask(&mut self, ask: Ask) -> &mut Request {
        let q = self.lend(ask.picture);
        (q.part, (q.x, q.y)) = (ask.part, ask.at);
        q
    }

    /// The pictures with just the marked macroblocks visited, in raster order.
    fn marked(&self, marks: &[Vec<u8>]) -> Pictures {
        let mut all = self.clone();
        for (i, marks) in marks.iter().enumerate() {
            let own = all.lend(i);
            marked_in_raster_order(own, marks);
            own.marks.copy_from_slice(marks);
        }
        all
    }
}

/// How a picture is made.
type Maker = fn(&mut Rng, Structure, Call, usize, usize) -> Request;

/// Whole pictures by visits. Every answer is compared; the planes are compared after every call of small
/// pictures, and now and then in large ones. After each visit that is done, in the largest pictures after one
/// of many, what it has made final is asked.
pub fn sequence(s: &mut Session, r: &mut Rng, of: Structure, w: usize, h: usize) -> Outcome {
    sequence_of(s, r, make::picture, of, w, h)
}

/// The same with slices, of two fields with slices for each.
pub fn sequence_with_slices(s: &mut Session, r: &mut Rng, of: Structure, w: usize, h: usize) -> Outcome {
    sequence_of(s, r, make_slices::picture, of, w, h)
}

fn sequence_of(s: &mut Session, r: &mut Rng, make: Maker, of: Structure, w: usize, h: usize) -> Outcome {
    let all = (0..of.share()).map(|i| {
        let mut q = make(r, of, Call::Visit, w, h);
        q.marks.fill(0);
        q.part = if of == Structure::Frame { 0 } else { 1 + i as u8 };
        q
    });
    let before = Pictures { all: all.collect(), holder: 0 };
    let order = match of {
        Structure::Frame => arrival(r, w, h).into_iter().map(|at| Ask { picture: 0, part: 0, at }).collect(),
        Structure::Field => mixed(r, w, h),
    };
    follow(s, &before, &order).map_err(|failure| explain(s, &before, &order, failure))
}

/// In pictures of so many macroblocks not every visit is followed by the question what it has made final.
const MANY: usize = 2000;

fn follow(s: &mut Session, before: &Pictures, order: &[Ask]) -> Outcome {
    let n = before.all[0].marks.len();
    let every = if n <= 36 { 1 } else { n / 5 };
    let mut lent = before.clone();
    let mut marks: Vec<Vec<u8>> = before.all.iter().map(|q| q.marks.to_vec()).collect();
    let whole = before.marked(&vec![vec![1; n]; marks.len()]).lend(0).clone();
    let mut watch = Watch::new(whole, marks.len());
    for (i, &ask) in order.iter().enumerate() {
        let q = lent.ask(ask);
        let number = table::answer(q);
        if number == 0 {
            marks[ask.picture][q.at()] = 1;
        }
        s.call("visits", q, number)?;
        if i % every == 0 || i + 1 == order.len() {
            compare(s, before, q, ask.picture, &marks)?;
        }
        if number == 0 {
            watch.visited(&mut s.finality, q, ask.picture, i % (n / MANY + 1) == 0)?;
        }
    }
    assert!(!marks.concat().contains(&0), "the order of visits has every macroblock");
    Ok(())
}

/// Compares the picture that holds the planes, and so all of them, with the visited ones in raster order.
fn compare(s: &mut Session, before: &Pictures, q: &Request, picture: usize, marks: &[Vec<u8>]) -> Outcome {
    let mut want = before.marked(marks);
    s.note(match (before.all[0].structure(), before.all[0].sliced) {
        (Structure::Frame, false) => "frames after visits, compared with the visited ones in raster order",
        (Structure::Field, false) => "pairs of fields after visits, compared with the visited ones in raster order",
        (Structure::Frame, true) => "frames after visits with slices, compared with the visited ones in raster order",
        (Structure::Field, true) => {
            "pairs of fields after visits with slices, compared with the visited ones in raster order"
        }
    });
    match q.difference(want.lend(picture)) {
        None => Ok(()),
        Some(what) => {
            let place = format!("({}, {}) of {} by {}, part {}", q.x, q.y, q.w, q.h, q.part);
            Err(Failure(format!("visits: after {place}: {what}")))
        }
    }
}

/// Looks for a single visit of the sequence that is wrong by itself: such a case can be made small.
fn explain(s: &mut Session, before: &Pictures, order: &[Ask], failure: Failure) -> Failure {
    const PATIENCE: usize = 2000;
    let mut lent = before.clone();
    for &ask in order.iter().filter(|_| before.all[0].marks.len() <= PATIENCE) {
        let q = lent.ask(ask);
        if let Err(single) = s.check("visits", q) {
            return single;
        }
        expect(q);
    }
    Failure(format!("{failure}\nno single visit is wrong by itself; the order was {order:?}"))
}

/// Orders of both fields, one after the other or mixed, with visits among them whose part is none, or is the
/// frame, which planes of twice the length are not.
fn mixed(r: &mut Rng, w: usize, h: usize) -> Vec<Ask> {
    let mut orders = [arrival(r, w, h), arrival(r, w, h)].map(|order| order.into_iter().peekable());
    let in_turn = r.once_in(4);
    let mut all = Vec::new();
    while orders.iter_mut().any(|order| order.peek().is_some()) {
        let picture = if in_turn { orders[0].peek().is_none().into() } else { r.below(2) };
        let part = 1 + picture as u8;
        if r.once_in(8) {
            all.push(Ask { picture, part: r.pick(&[0, 3, 255]), at: (r.below(w), r.below(h)) });
        }
        all.extend(orders[picture].next().map(|at| Ask { picture, part, at }));
    }
    all
}

/// An order of visits that marks everything, with visits among them that are refused: not ready, again,
/// outside.
fn arrival(r: &mut Rng, w: usize, h: usize) -> Vec<(usize, usize)> {
    let mut marks = vec![false; w * h];
    let marked = |marks: &[bool], x: usize, y: usize| x >= w || marks[y * w + x];
    let is_ready = |marks: &[bool], x: usize, y: usize| {
        let left = x == 0 || marked(marks, x - 1, y);
        let above = y == 0 || marked(marks, x, y - 1) && marked(marks, x + 1, y - 1);
        left && above
    };
    // the ready ones: the next of each row whose upper right is done; rows are few, so a list of rows will do
    let mut next = vec![0; h];
    let mut order = Vec::new();
    let mut left = w * h;
    let greedy = r.below(3);
    while left > 0 {
        let new = order.len();
        let rows: Vec<usize> = (0..h).filter(|&y| next[y] < w && is_ready(&marks, next[y], y)).collect();
        let y = match greedy {
            0 => rows[rows.len() - 1], // as far down as can be: reverse diagonals
            _ => r.pick(&rows),
        };
        if r.once_in(3) {
            order.push((r.below(w), r.below(h))); // mostly refused; if it is ready, it counts
        }
        if r.once_in(50) {
            order.push(r.pick(&[(w, 0), (0, h), (usize::MAX, 0), (0, usize::MAX)]));
        }
        order.push((next[y], y));
        // a stray visit may have been ready
        for &(x, y) in &order[new..] {
            if x < w && y < h && !marks[y * w + x] && is_ready(&marks, x, y) {
                marks[y * w + x] = true;
                next[y] = x + 1;
                left -= 1;
            }
        }
    }
    order
}
