//! Damaged requests: every check alone and in pairs, in the order of the table of refusals.

use crate::make;
use crate::make_slices;
use crate::request::{Buffer, Call, Lent, Request, Structure, CALLS, FILTER_CALLS};
use crate::session::{Failure, Outcome, Session};
use crate::table;
use deblock::SliceRecord;
use inputs::Rng;

/// A way to spoil a request, at random places: read or not, the table says which.
type Damage = fn(&mut Rng, &mut Request);

/// Each with the number that it calls forth, in some call and at some place.
const DAMAGES: [(u32, Damage); 32] = [
    (1, |r, q| q.w = r.pick(&HUGE)),
    (1, |r, q| q.h = r.pick(&HUGE)),
    (1, |r, q| (q.w, q.h) = r.pick(&[(256, 145), (145, 256), (256, 256), (193, 192), (1 << 32, 1 << 32)])),
    (2, |r, q| q.x = r.pick(&[q.w, q.w.wrapping_add(1), usize::MAX, 1 << 60])),
    (2, |r, q| q.y = r.pick(&[q.h, q.h.wrapping_add(1), usize::MAX, 1 << 60])),
    (2, |r, q| q.last = r.pick(&[q.h.wrapping_add(1), usize::MAX, 0])),
    (2, |r, q| q.first = r.pick(&[q.last.wrapping_add(1), usize::MAX, q.h, q.h.wrapping_add(1)])),
    (3, |r, q| spoil_length(r, &mut q.luma)),
    (3, |r, q| if r.once_in(2) { spoil_length(r, &mut q.u) } else { spoil_length(r, &mut q.v) }),
    (4, |r, q| spoil_length(r, &mut q.strengths)),
    (4, |r, q| spoil_length(r, &mut q.qps)),
    (4, |r, q| spoil_length(r, &mut q.t8s)),
    (4, |r, q| spoil_length(r, &mut q.marks)),
    (4, |r, q| spoil_length(r, &mut q.kinds)),
    (5, |r, q| if r.once_in(2) { spoil_length(r, &mut q.inter) } else { spoil_length(r, &mut q.nnz) }),
    (5, |r, q| if r.once_in(2) { spoil_length(r, &mut q.ref0) } else { spoil_length(r, &mut q.mv0) }),
    (5, |r, q| if r.once_in(2) { spoil_length(r, &mut q.ref1) } else { spoil_length(r, &mut q.mv1) }),
    (5, leave_one_table),
    (6, |r, q| q.offsets[r.below(2)] = r.pick(&FAR_OFFSETS)),
    (6, |r, q| q.offsets[2] = r.pick(&FAR_OFFSETS)),
    (6, |r, q| q.offsets[3] = r.pick(&FAR_OFFSETS)),
    (6, |r, q| q.offsets[2..].fill(r.pick(&FAR_OFFSETS))),
    (7, |r, q| {
        let value = r.pick(&[2, 3, 128, 255]);
        match q.call {
            Call::Visit if r.once_in(2) => spoil_near(r, q, |q| &mut q.marks, value),
            call if call.is_strengths() && r.once_in(2) => spoil_near(r, q, |q| &mut q.inter, value),
            _ => spoil_near(r, q, |q| &mut q.t8s, value),
        }
    }),
    (8, |r, q| {
        let value = r.pick(&[52, 53, 128, 255]);
        spoil_near(r, q, |q| &mut q.qps, value)
    }),
    (9, |r, q| {
        let value = r.pick(&[5, 6, 128, 255]);
        spoil_near(r, q, |q| &mut q.strengths, value)
    }),
    (10, |r, q| {
        let value = r.pick(&[-2, -3, -128]);
        if r.once_in(2) {
            spoil_near(r, q, |q| &mut q.ref0, value)
        } else {
            spoil_near(r, q, |q| &mut q.ref1, value)
        }
    }),
    (22, spoil_number),
    (11, |r, q| {
        let value = r.below(2) as u8;
        spoil_near(r, q, |q| &mut q.inter, value)
    }),
    (12, |r, q| {
        q.kind = r.pick(&[0, 1, 2, 3, 4, 5, 255]);
        (q.flat, q.uniform) = (r.pick(&[0, 1, 255]), r.pick(&[0, 1, 255]));
    }),
    (12, |r, q| {
        let value = r.pick(&[0, 1, 2, 3, 4, 5, 255]);
        spoil_near(r, q, |q| &mut q.kinds, value)
    }),
    (13, |r, q| spoil_near(r, q, |q| &mut q.marks, 1)),
    (14, |r, q| spoil_near(r, q, |q| &mut q.marks, 0)),
];

/// What can be wrong with a field beside that: no part, the part of the frame, and the planes of the field
/// alone.
const FIELD_DAMAGES: [(u32, Damage); 3] = [
    (19, |r, q| q.part = r.pick(&[3, 4, 127, 128, 254, 255])),
    (3, |_, q| q.part = 0),
    (3, |_, q| [&mut q.luma, &mut q.u, &mut q.v].into_iter().for_each(|plane| plane.resize(plane.len() / 2, 0))),
];

/// What can be wrong with slices.
const SLICE_DAMAGES: [(u32, Damage); 7] = [
    (4, |r, q| spoil_length(r, &mut q.numbers)),
    (6, |r, q| {
        let (a, b) = r.pick(&[(13, 0), (-13, 0), (0, 13), (0, -13), (127, 0), (0, -128), (-128, 127)]);
        spoil_record(r, q, |record| SliceRecord { a, b, ..record })
    }),
    (20, |r, q| {
        let length = q.slices.len().min(65_535) as u16;
        let value = r.pick(&[length, length, length.saturating_add(1), 65_535]);
        spoil_near(r, q, |q| &mut q.numbers, value)
    }),
    (20, |r, q| {
        let length = q.slices.len();
        q.slices.resize(r.pick(&[length.saturating_sub(1), length / 2, 0]), SliceRecord::default())
    }),
    (20, |r, q| q.numbers.fill(r.pick(&[256, 300, 65_535]))),
    (21, |r, q| {
        let mode = r.pick(&[3, 4, 128, 255]);
        spoil_record(r, q, |record| SliceRecord { mode, ..record })
    }),
    (21, |_, q| q.slices.resize(q.slices.len() + 1, SliceRecord { mode: 3, a: 0, b: 0 })),
];

fn damages(of: Structure, sliced: bool) -> Vec<(u32, Damage)> {
    let fields = if of == Structure::Field { &FIELD_DAMAGES[..] } else { &[] };
    let slices = if sliced { &SLICE_DAMAGES[..] } else { &[] };
    [&DAMAGES[..], fields, slices].concat()
}

/// Sides that are too large, whose products and sums overflow.
pub const HUGE: [usize; 8] = [0, 257, usize::MAX, 1 << 63, (1 << 63) + 1, 1 << 32, 1 << 56, usize::MAX / 32 + 2];

/// Offsets that are out of range, just so and by far.
const FAR_OFFSETS: [i32; 6] = [-13, 13, i32::MIN, i32::MAX, 255, -256];

/// One good request of each call, spoiled once and twice in every combination.
pub fn every_pair(s: &mut Session, r: &mut Rng, of: Structure, area: usize) -> Outcome {
    for call in CALLS {
        let good = good(r, of, call, area);
        every_pair_of(s, r, &good, &damages(of, false))?;
    }
    Ok(())
}

/// The same of one of the calls with slices, what can be wrong with those among the rest.
pub fn every_pair_with_slices(s: &mut Session, r: &mut Rng, of: Structure, area: usize) -> Outcome {
    let call = r.pick(&FILTER_CALLS);
    let good = sliced(r, of, call, area);
    every_pair_of(s, r, &good, &damages(of, true))
}

fn every_pair_of(s: &mut Session, r: &mut Rng, good: &Request, damages: &[(u32, Damage)]) -> Outcome {
    s.check("refusals", good)?;
    for (i, (_, first)) in damages.iter().enumerate() {
        let mut once = good.clone();
        first(r, &mut once);
        s.check("refusals", &once)?;
        for (_, second) in &damages[i..] {
            let mut twice = once.clone();
            second(r, &mut twice);
            s.check("refusals", &twice)?;
        }
    }
    Ok(())
}

/// A small random request, spoiled up to three times: quick, so that there are many.
pub fn spoiled(s: &mut Session, r: &mut Rng, of: Structure) -> Outcome {
    let call = r.pick(&CALLS);
    let q = good(r, of, call, 6);
    spoil(s, r, q, &damages(of, false))
}

/// The same of a call with slices, of which half of the damages are to slices.
pub fn spoiled_with_slices(s: &mut Session, r: &mut Rng, of: Structure) -> Outcome {
    let call = r.pick(&FILTER_CALLS);
    let q = sliced(r, of, call, 6);
    if r.once_in(2) {
        return spoil(s, r, q, &SLICE_DAMAGES);
    }
    spoil(s, r, q, &damages(of, true))
}

fn spoil(s: &mut Session, r: &mut Rng, mut q: Request, damages: &[(u32, Damage)]) -> Outcome {
    for _ in 0..r.below(4) {
        r.pick(damages).1(r, &mut q);
    }
    s.check("refusals", &q)
}

/// A change that is sure to call a number forth.
pub type Sure = (u32, fn(&mut Request));

/// Two changes of `sure`: the one that stands first there, since it is asked first, is the answer.
pub fn pair(s: &mut Session, mut q: Request, sure: &[Sure], one: usize, other: usize) -> Outcome {
    let [(asked, first), (_, second)] = [one.min(other), one.max(other)].map(|i| sure[i]);
    first(&mut q);
    second(&mut q);
    let number = table::answer(&q);
    if number != asked {
        return Err(Failure(format!("{:?}: the table answers {number}, and {asked} is asked first", q.call)));
    }
    s.check("pairs", &q)
}

fn good(r: &mut Rng, of: Structure, call: Call, area: usize) -> Request {
    let (w, h) = make::size(r, area);
    if call.is_strengths() {
        return make::grids(r, of, call, w, h);
    }
    ready(make::picture(r, of, call, w, h))
}

/// A good call with slices.
fn sliced(r: &mut Rng, of: Structure, call: Call, area: usize) -> Request {
    let (w, h) = make::size(r, area);
    ready(make_slices::picture(r, of, call, w, h))
}

/// A visit becomes ready: everything before it in raster order is marked, and what follows may be.
fn ready(mut q: Request) -> Request {
    if q.call == Call::Visit {
        let at = q.at();
        q.marks[..at].fill(1);
        q.marks[at] = 0;
    }
    q
}

/// One short, one long, empty, a single one, twice or half as long.
pub fn spoil_length<T: Lent + Default>(r: &mut Rng, b: &mut Buffer<T>) {
    let len = b.len();
    let other = r.pick(&[len.saturating_sub(1), len + 1, 0, 1, 2 * len, len / 2]);
    b.resize(other, T::default());
}

/// Just one of the two tables, either of them.
fn leave_one_table(r: &mut Rng, q: &mut Request) {
    let mut tables = q.tables();
    tables.rotate_left(r.below(2));
    let [lent, empty] = tables;
    *empty = Buffer::default();
    if lent.is_empty() {
        *lent = vec![7; 1 + r.below(3)].into();
    }
}

/// A number out of range, in either table: at an end, at a limit of references, or anywhere. A table that is
/// not there is made for it, and one for list 0 in any case.
fn spoil_number(r: &mut Rng, q: &mut Request) {
    let list = r.below(2);
    let made = q.tables().into_iter().take(list + 1).filter(|table| table.is_empty());
    made.for_each(|table| *table = vec![7; 2].into());
    let [first, second] = q.tables();
    let own = if list == 0 { first } else { second };
    let (last, anywhere) = (own.len() - 1, r.below(own.len()));
    let place = r.pick(&[0, last, 127, 128, anywhere, anywhere]).min(last);
    own[place] = r.pick(&[-1, 65_536, i32::MIN, i32::MAX, -65_536, 65_543]);
}

/// Changes one record: the macroblock's own, the first, the last or any.
fn spoil_record(r: &mut Rng, q: &mut Request, change: impl Fn(SliceRecord) -> SliceRecord) {
    if q.slices.is_empty() {
        return;
    }
    let at = q.y.saturating_mul(q.w.clamp(1, 256)).saturating_add(q.x);
    let (last, anywhere) = (q.slices.len() - 1, r.below(q.slices.len()));
    let own = q.numbers.get(at).map_or(0, |&number| number.into());
    let place = r.pick(&[own, 0, last, anywhere]).min(last);
    q.slices[place] = change(q.slices[place]);
}

/// Changes one entry of a buffer: of this macroblock, of one beside it, or anywhere.
fn spoil_near<T: Lent>(r: &mut Rng, q: &mut Request, member: fn(&mut Request) -> &mut Buffer<T>, value: T) {
    let (w, n) = (q.w.clamp(1, 256), q.w.saturating_mul(q.h).max(1));
    let at = q.y.saturating_mul(w).saturating_add(q.x);
    let b = member(q);
    if b.is_empty() {
        return;
    }
    // entries of one macroblock are together in all grids but the 4x4 ones, where "anywhere" must do
    let each = (b.len() / n).max(1);
    let near = [at, at, at.wrapping_sub(1), at.wrapping_sub(w), at.wrapping_sub(w).wrapping_add(1)];
    let place = r.pick(&near).wrapping_mul(each).wrapping_add(r.below(each));
    let place = if place < b.len() && !r.once_in(4) { place } else { r.below(b.len()) };
    b[place] = value;
}

#[cfg(test)]
mod tests {
    use super::*;
    use crate::request::STRENGTH_CALLS;
    use crate::table::answer;

    #[test]
    fn every_damage_calls_its_number_forth() {
        let mut r = Rng::new(2);
        for (i, (number, damage)) in damages(Structure::Field, false).iter().enumerate() {
            let mut hits = |call: Call| {
                let q = good(&mut r, Structure::Field, call, 6);
                calls_forth(&mut r, q, *damage, *number)
            };
            assert!((0..200).any(|_| CALLS.into_iter().any(&mut hits)), "damage {i} never gives {number}");
        }
    }

    fn calls_forth(r: &mut Rng, mut q: Request, damage: Damage, number: u32) -> bool {
        let before = answer(&q);
        damage(r, &mut q);
        before == 0 && answer(&q) == number
    }

    /// In each of the three calls.
    #[test]
    fn every_damage_to_slices_calls_its_number_forth() {
        let mut r = Rng::new(4);
        for (i, call) in (0..SLICE_DAMAGES.len()).flat_map(|i| FILTER_CALLS.map(|call| (i, call))) {
            let (number, damage) = SLICE_DAMAGES[i];
            let mut hits = || {
                let q = sliced(&mut r, Structure::Field, call, 6);
                calls_forth(&mut r, q, damage, number)
            };
            assert!((0..200).any(|_| hits()), "damage {i} to {call:?} never gives {number}");
        }
    }

    /// Of every strength call the 8x8 flags get other lengths, and bad values where they are read and where
    /// not.
    #[test]
    fn flags_of_strength_calls_are_spoiled() {
        let mut r = Rng::new(3);
        for call in STRENGTH_CALLS {
            let mut comes_up = |number: u32, wanted: u32| {
                (0..200).any(|_| {
                    let before = good(&mut r, Structure::Frame, call, 6);
                    let mut q = before.clone();
                    DAMAGES.iter().filter(|(own, _)| *own == number).for_each(|(_, damage)| damage(&mut r, &mut q));
                    let flags_alone = Request { t8s: q.t8s.clone(), ..before.clone() };
                    answer(&before) == 0 && before != flags_alone && answer(&flags_alone) == wanted
                })
            };
            assert!(comes_up(4, 4) && comes_up(7, 7) && comes_up(7, 0));
        }
    }
}
