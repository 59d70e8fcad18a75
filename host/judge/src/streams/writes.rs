//! Writes: spoiled ones, every check alone and in pairs, and good ones, which are read again.

use super::ask::{Ask, Call};
use super::model;
use super::pieces::some;
use super::session::Session;
use crate::make;
use crate::request::Buffer;
use crate::session::Outcome;
use inputs::Rng;

/// A way to spoil a write.
type Damage = fn(&mut Rng, &mut Ask);

const DAMAGES: [(u32, Damage); 7] = [
    (1, |r, a| a.w = r.pick(&HUGE)),
    (1, |r, a| a.h = r.pick(&HUGE)),
    (1, |r, a| (a.w, a.h) = r.pick(&[(256, 145), (145, 256), (256, 256), (193, 192), (1 << 32, 1 << 32)])),
    (3, |r, a| other_length(r, &mut a.luma)),
    (3, |r, a| if r.once_in(2) { other_length(r, &mut a.u) } else { other_length(r, &mut a.v) }),
    (3, |_, a| std::mem::swap(&mut a.luma, &mut a.v)),
    (18, |r, a| other_length(r, &mut a.stream)),
];

/// Sides that are too large, whose products and sums overflow.
const HUGE: [usize; 8] = [0, 257, usize::MAX, 1 << 63, (1 << 63) + 1, 1 << 32, 1 << 60, usize::MAX / 16 + 2];

fn other_length(r: &mut Rng, b: &mut Buffer<u8>) {
    let len = b.len();
    b.resize(r.pick(&[len.saturating_sub(1), len + 1, 0, 2 * len, len / 2, len + 16]), 0x3C);
}

/// A good write, spoiled once and twice in every combination, and the length of each size.
pub fn every_pair(s: &mut Session, r: &mut Rng) -> Outcome {
    let (w, h) = make::size(r, 3);
    let samples = some(r, 384 * w * h);
    let good = Ask::to_write(w, h, &samples, model::length(w, h));
    let mut check = |a: &Ask| {
        s.check("refusals", a)?;
        s.check("refusals", &Ask { call: Call::Length, ..a.clone() })
    };
    check(&good)?;
    for (_, first) in DAMAGES {
        let mut once = good.clone();
        first(r, &mut once);
        check(&once)?;
        for (_, second) in DAMAGES {
            let mut twice = once.clone();
            second(r, &mut twice);
            check(&twice)?;
        }
    }
    Ok(())
}

/// A picture of that size, written and read again.
pub fn again(s: &mut Session, run: &'static str, r: &mut Rng, (w, h): (usize, usize)) -> Outcome {
    let samples = some(r, 384 * w * h);
    s.write_and_read(run, w, h, &samples)
}

#[cfg(test)]
mod tests {
    use super::*;
    use crate::streams::POOL;

    #[test]
    fn every_damage_calls_its_number_forth() {
        let mut r = Rng::new(4);
        for (forth, damage) in DAMAGES {
            let mut hits = |_| {
                let mut a = Ask::to_write(2, 1, &POOL[..768], model::length(2, 1));
                assert_eq!(model::answer(&mut a.clone()).number, 0);
                damage(&mut r, &mut a);
                model::answer(&mut a).number == forth
            };
            assert!((0..200).any(&mut hits), "{forth}");
        }
    }
}
