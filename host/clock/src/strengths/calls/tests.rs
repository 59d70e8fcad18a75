//! The calls on every content.

use super::*;
use crate::strengths::contents::CONTENTS;
use inputs::Rng;

fn made() -> impl Iterator<Item = (&'static str, Lent)> {
    CONTENTS.iter().map(|content| (content.name, Lent::new(Grids::new(&mut Rng::new(1), content))))
}

/// Every call is done, and the original agrees, whichever comes first.
#[test]
fn both_sides_derive_the_same() {
    for (name, lent) in made() {
        for (call, turn) in Call::ALL.into_iter().flat_map(|call| [(call, 0), (call, 1)]) {
            assert!(call.times(&lent, turn).iter().all(|time| *time > 0.0), "{name}, {call:?}");
        }
    }
}

/// The archive, which refuses a flag that is not true, is asked about each alone.
#[test]
fn flags_are_set_where_they_are_true() {
    for (name, lent) in made() {
        let strengths = &mut vec![0; 32 * W * H];
        let mut p = deblock::Picture { size: SIZE, strengths, t8s: &lent.grids.t8s, ..deblock::Picture::default() };
        for (at, flags) in SIZE.places().zip(&lent.flags) {
            let mut is_true = |flags| p.derive_by_flags(lent.grids.lent(), at, flags).is_done();
            let flat = is_true(Flags { flat: true, ..Flags::default() });
            let uniform = is_true(Flags { uniform: true, ..Flags::default() });
            assert_eq!(*flags, Flags { flat, uniform }, "{name}, {at:?}");
        }
    }
}

/// On edges 1 and 3 all strengths are 0 where an 8x8 flag is set, and elsewhere not all are, but for skip.
#[test]
fn flags_reach_every_call() {
    for (name, lent) in made() {
        for (call, side) in Call::ALL.into_iter().flat_map(|call| [(call, archive as Side), (call, original)]) {
            let (_, strengths) = side(call, &lent);
            let of_edges = |m: usize| [4..8, 12..16, 20..24, 28..32].map(|edge| &strengths[32 * m..][edge]).concat();
            let all_zero =
                |flagged: bool| (0..W * H).filter(|m| lent.t8s[*m] == flagged).all(|m| of_edges(m) == [0; 16]);
            assert!(all_zero(true), "{name}, {call:?}");
            assert!(!all_zero(false) || name == "skip", "{name}, {call:?}");
        }
    }
}

/// Where the motion of blocks varies throughout, each strength of inter blocks is at least a tenth of all.
#[test]
fn strengths_vary() {
    for (name, lent) in made().filter(|(_, lent)| lent.grids.kinds == [Kind::Inter; W * H]) {
        let (_, strengths) = archive(Call::Plain, &lent);
        let counts = [0, 1, 2].map(|strength| strengths.iter().filter(|own| **own == strength).count());
        assert!(counts.iter().all(|count| 10 * count >= strengths.len()), "{name}: {counts:?}");
    }
}
