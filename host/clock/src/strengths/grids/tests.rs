//! The grids are what their content says.

use super::*;
use crate::strengths::contents::{CONTENTS, KINDS};
use crate::SIZE;
use deblock::Picture;

fn made() -> impl Iterator<Item = (&'static Content, Grids)> {
    CONTENTS.iter().map(|content| (content, Grids::new(&mut Rng::new(1), content)))
}

/// The archive, which refuses a kind that is not true, is asked about all four.
#[test]
fn kinds_are_true_and_no_other_says_more() {
    for (content, grids) in made() {
        let strengths = &mut vec![0; 32 * W * H];
        let mut p = Picture { size: SIZE, strengths, t8s: &grids.t8s, ..Picture::default() };
        for (at, kind) in SIZE.places().zip(&grids.kinds) {
            let truths = match kind {
                Kind::Intra => [true, false, false, false],
                Kind::Skip => [false, true, true, true],
                Kind::InterUniform => [false, false, true, true],
                Kind::Inter => [false, false, false, true],
            };
            let taken = KINDS.map(|kind| p.derive_by_kind(grids.lent(), at, kind).is_done());
            assert_eq!(taken, truths, "{}, {at:?}", content.name);
        }
    }
}

/// Within a tenth.
fn is_about(count: usize, wanted: usize) -> bool {
    (wanted - wanted / 10..=wanted + wanted / 10).contains(&count)
}

#[test]
fn kinds_are_equally_frequent() {
    for (content, grids) in made() {
        for wanted in content.kinds {
            let count = grids.kinds.iter().filter(|kind| *kind == wanted).count();
            assert!(is_about(count, W * H / content.kinds.len()), "{}: {count} {wanted:?}", content.name);
        }
    }
}

/// Of a macroblock, in raster order.
fn blocks(m: usize) -> [usize; 16] {
    from_fn(|i| m / W * 16 * W + m % W * 4 + i / 4 * 4 * W + i % 4)
}

/// In a macroblock of any kind but skip. With an 8x8 transform it is a third: one 8x8 block of four, and one
/// at least, is 1/4 + (3/4)^4 / 4 of them.
#[test]
fn a_quarter_of_the_blocks_has_coefficients() {
    for (content, grids) in made() {
        let coded = |m: usize| blocks(m).into_iter().filter(|block| grids.nnz[*block] != 0).count();
        for (flagged, in_64) in [(false, 16), (true, 21)] {
            let own = |m: &usize| is_8x8(&grids.t8s, *m) == flagged && grids.kinds[*m] != Kind::Skip;
            let (all, coded) = (0..W * H).filter(own).fold((0, 0), |(all, sum), m| (all + 16, sum + coded(m)));
            assert!(is_about(coded, all * in_64 / 64), "{}, {flagged}: {coded} of {all}", content.name);
        }
    }
}

/// Where they are lent there is one for each macroblock, 0 or 1, equally often.
#[test]
fn flags_are_0_and_1() {
    for (content, grids) in made() {
        let [zeros, ones] = [0, 1].map(|flag| grids.t8s.iter().filter(|own| **own == flag).count());
        if content.t8s {
            assert!(zeros + ones == W * H && is_about(ones, W * H / 2), "{}: {zeros}, {ones}", content.name);
        } else {
            assert!(grids.t8s.is_empty(), "{}", content.name);
        }
    }
    assert_eq!(CONTENTS.iter().filter(|content| content.t8s).count(), 1);
}

/// Where the flag is set the four blocks of an 8x8 block have the same count and the same motion; elsewhere
/// some have not.
#[test]
fn eight_by_eight_blocks_are_alike_within() {
    for (content, grids) in made().filter(|(content, _)| content.t8s) {
        let of = |block: usize| (grids.nnz[block], grids.refs[0][block], &grids.mvs[0][2 * block..][..2]);
        let is_alike = |m: usize| {
            let own = blocks(m);
            (0..16).all(|i| of(own[i]) == of(own[i / 8 * 8 + i % 4 / 2 * 2]))
        };
        assert!((0..W * H).all(|m| is_alike(m) || !is_8x8(&grids.t8s, m)), "{}", content.name);
        assert!((0..W * H).any(|m| !is_alike(m)), "{}", content.name);
    }
}

/// With two lists most inter blocks use both, and some each alone; with one no list 1 is lent.
#[test]
fn lists_are_used() {
    for (content, grids) in made() {
        let lent = grids.lent();
        let used = |list: &[i8], i: usize| list.get(i).is_some_and(|reference| *reference >= 0);
        let count = |inter: u8, lists: [bool; 2]| {
            let alike = |i: &usize| lent.inter[*i] == inter && [used(lent.ref0, *i), used(lent.ref1, *i)] == lists;
            (0..16 * W * H).filter(alike).count()
        };
        let inter = lent.inter.iter().filter(|inter| **inter == 1).count();
        let [both, first, second] = [[true, true], [true, false], [false, true]].map(|lists| count(1, lists));
        assert_eq!(both + first + second, inter, "{}", content.name);
        assert_eq!(count(0, [false; 2]), lent.inter.len() - inter, "{}", content.name);
        if content.two_lists {
            assert!(2 * both > inter && 30 * first > inter && 30 * second > inter, "{}", content.name);
        } else {
            assert!(first == inter && lent.ref1.is_empty() && lent.mv1.is_empty(), "{}", content.name);
        }
    }
}
