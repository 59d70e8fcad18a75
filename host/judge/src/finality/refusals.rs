//! Damaged calls, every check alone, in pairs and at random, and marks that a call does not read.

use super::ask::{Ask, CALLS};
use super::cases::some;
use super::model;
use super::session::Session;
use crate::make;
use crate::refusals::{spoil_length, HUGE};
use crate::session::Outcome;
use inputs::Rng;

/// A way to spoil a call.
type Damage = fn(&mut Rng, &mut Ask);

/// Each with the number that it calls forth, in the order in which they are asked.
const DAMAGES: [(u32, Damage); 8] = [
    (1, |r, a| a.w = r.pick(&HUGE)),
    (1, |r, a| a.h = r.pick(&HUGE)),
    (1, |r, a| (a.w, a.h) = r.pick(&[(256, 145), (145, 256), (256, 256), (193, 192), (1 << 32, 1 << 32)])),
    (2, |r, a| a.x = r.pick(&[a.w, a.w.wrapping_add(1), usize::MAX, 1 << 60])),
    (2, |r, a| a.y = r.pick(&[a.h, a.h.wrapping_add(1), usize::MAX, 1 << 60])),
    (4, |r, a| spoil_length(r, &mut a.marks)),
    (7, |r, a| spoil_mark(r, a, 0)),
    (7, |r, a| spoil_mark(r, a, 1)),
];

/// Makes one of the marks that are read, if that can be told, one that is none. The macroblock's own is
/// `own` then, unless it is the one.
fn spoil_mark(r: &mut Rng, a: &mut Ask, own: u8) {
    if !is_sound(a) {
        return;
    }
    let at = a.y * a.w + a.x;
    a.marks[at] = own;
    let m = r.pick(&model::marks_read(a));
    a.marks[m] = r.pick(&[2, 3, 128, 255]);
}

/// Whether none of the checks before 7 applies.
fn is_sound(a: &Ask) -> bool {
    matches!(model::answer(a).number, 0 | 7)
}

fn good(r: &mut Rng, area: usize) -> Ask {
    let (w, h) = make::size(r, area);
    Ask { call: r.pick(&CALLS), w, h, x: r.below(w), y: r.below(h), marks: some(r, w * h).into() }
}

/// One good call of each kind, spoiled once and twice in every combination, in both orders.
pub fn every_pair(s: &mut Session, r: &mut Rng) -> Outcome {
    for call in CALLS {
        let good = Ask { call, ..good(r, 12) };
        s.check("refusals", &good)?;
        for (_, first) in DAMAGES {
            let mut once = good.clone();
            first(r, &mut once);
            s.check("refusals", &once)?;
            for (_, second) in DAMAGES {
                let mut twice = once.clone();
                second(r, &mut twice);
                s.check("refusals", &twice)?;
            }
        }
    }
    Ok(())
}

/// A random call, spoiled up to three times.
pub fn spoiled(s: &mut Session, r: &mut Rng) -> Outcome {
    let mut a = good(r, 30);
    for _ in 0..r.below(4) {
        r.pick(&DAMAGES).1(r, &mut a);
    }
    s.check("random", &a).map(|_| ())
}

/// A good call, and the same with marks that are none wherever it does not read.
pub fn unread(s: &mut Session, r: &mut Rng, area: usize) -> Outcome {
    let a = good(r, area);
    let mut other = a.clone();
    let read = model::marks_read(&a);
    for m in (0..other.marks.len()).filter(|m| !read.contains(m)) {
        other.marks[m] = 2 + r.below(254) as u8;
    }
    s.alike("unread", &a, &other)
}

#[cfg(test)]
mod tests {
    use super::*;
    use crate::damage_tests::{each_calls_its_number_forth, every_pair_meets};
    use crate::finality::rule::Rule;

    const ORDER: [u32; 4] = [1, 2, 4, 7];

    fn answer(r: &mut Rng, damages: &[Damage]) -> u32 {
        let mut a = good(r, 12);
        assert_eq!(model::answer(&a).number, 0);
        damages.iter().for_each(|damage| damage(r, &mut a));
        model::answer(&a).number
    }

    #[test]
    fn damages_call_their_numbers_forth() {
        let mut r = Rng::new(2);
        each_calls_its_number_forth(&DAMAGES, |damages| answer(&mut r, damages));
        every_pair_meets(&DAMAGES, &ORDER, |damages| answer(&mut r, damages));
    }

    #[test]
    fn a_mark_too_many_is_told() {
        use crate::finality::mistakes::Mistake;
        let tells = |mistake| {
            let rule = Rule { mistake };
            let (mut s, mut r) = (Session::new(&rule, false), Rng::new(4));
            (0..200).any(|_| unread(&mut s, &mut r, 12).is_err())
        };
        assert!(!tells(None));
        let too_many = [
            Mistake::LowerRightAwaited,
            Mistake::LowerRightAsked,
            Mistake::AllAsked,
            Mistake::RightWraps,
            Mistake::LeftAwaited,
            Mistake::UpperAwaited,
            Mistake::LeftWraps,
        ];
        assert_eq!(too_many.into_iter().find(|mistake| !tells(Some(*mistake))), None);
    }
}
