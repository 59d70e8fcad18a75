//! The strength calls by cases that are worked by hand.

mod rows;
mod tables;

use super::*;

type Ask = fn(&mut Picture, Grids, Place) -> Answer;

/// The ways to ask, told what is true of every inter macroblock. The last two ask of its row.
const ASKS: [Ask; 5] = [
    |p, grids, at| p.derive(grids, at),
    |p, grids, at| p.derive_by_flags(grids, at, Flags::default()),
    |p, grids, at| p.derive_by_kind(grids, at, Kind::Inter),
    |p, grids, at| p.derive_row(grids, at.y, &[]),
    |p, grids, at| by_row(p, grids, at, Kind::Inter),
];

/// Those that can be told more of one with one motion.
const UNIFORM_ASKS: [Ask; 3] = [
    |p, grids, at| p.derive_by_flags(grids, at, Flags { uniform: true, ..Flags::default() }),
    |p, grids, at| p.derive_by_kind(grids, at, Kind::InterUniform),
    |p, grids, at| by_row(p, grids, at, Kind::InterUniform),
];

/// And those for one that has no counts either.
const FLAT_ASKS: [Ask; 3] = [
    |p, grids, at| p.derive_by_flags(grids, at, Flags { flat: true, ..Flags::default() }),
    |p, grids, at| p.derive_by_kind(grids, at, Kind::Skip),
    |p, grids, at| by_row(p, grids, at, Kind::Skip),
];

/// The row of a macroblock of this kind; all others are inter.
fn by_row(p: &mut Picture, grids: Grids, at: Place, kind: Kind) -> Answer {
    let mut kinds = vec![Kind::Inter; p.size.macroblocks()];
    kinds[p.size.index(at)] = kind;
    p.derive_row(grids, at.y, &kinds)
}

const LONE: Size = Size { w: 1, h: 1 };
const BESIDE: Size = Size { w: 2, h: 1 };
const BELOW: Size = Size { w: 1, h: 2 };

/// What a call answers for the last macroblock of a picture, and the strengths that it leaves where 9 stood.
fn last(size: Size, t8s: &[u8], grids: Grids, ask: Ask) -> (Answer, [u8; 32]) {
    let strengths = &mut vec![9; 32 * size.macroblocks()];
    let at = Place { x: size.w - 1, y: size.h - 1 };
    let answer = ask(&mut Picture { size, t8s, strengths, ..Picture::default() }, grids, at);
    (answer, *strengths.last_chunk().expect("32 of them"))
}

/// The same of all ways to ask, of a picture of one motion whose counts are 0 but for that of block
/// `counted`, which of two macroblocks is the first one's. They must agree.
fn all_alike(size: Size, t8s: &[u8], counted: usize) -> (Answer, [u8; 32]) {
    let n = size.macroblocks();
    let mut nnz = vec![0; 16 * n];
    nnz[counted] = 3;
    let grids =
        Grids { inter: &vec![1; 16 * n], nnz: &nnz, ref0: &vec![5; 16 * n], mv0: &vec![7; 32 * n], ..Grids::default() };
    let flat_asks = if size == LONE { &[][..] } else { &FLAT_ASKS };
    let asks = [&ASKS[..], &UNIFORM_ASKS, flat_asks].concat();
    let outcomes: Vec<_> = asks.into_iter().map(|ask| last(size, t8s, grids, ask)).collect();
    assert!(outcomes.iter().all(|outcome| *outcome == outcomes[0]));
    outcomes[0]
}

/// Done, with 2 in these places and 0 in the others.
fn twos(places: &[usize]) -> (Answer, [u8; 32]) {
    (Answer::Done, std::array::from_fn(|i| if places.contains(&i) { 2 } else { 0 }))
}

/// An intra macroblock, a flat one, one with a count, and one with a vector of its own.
#[test]
fn kinds_are_held_to_the_grids() {
    const KINDS: [Ask; 4] = [
        |p, grids, at| p.derive_by_kind(grids, at, Kind::Intra),
        |p, grids, at| p.derive_by_kind(grids, at, Kind::Skip),
        |p, grids, at| p.derive_by_kind(grids, at, Kind::InterUniform),
        |p, grids, at| p.derive_by_kind(grids, at, Kind::Inter),
    ];
    let cases = [(0, 0, 7, "1000"), (1, 0, 7, "0111"), (1, 1, 7, "0011"), (1, 0, 99, "0001")];
    for (inter, count, vector, truths) in cases {
        let (mut nnz, mut mv0) = ([0; 16], [7; 32]);
        (nnz[0], mv0[0]) = (count, vector);
        let grids = Grids { inter: &[inter; 16], nnz: &nnz, ref0: &[5; 16], mv0: &mv0, ..Grids::default() };
        let answers = KINDS.map(|ask| last(LONE, &[], grids, ask).0);
        let done: String = answers.map(|answer| if answer.is_done() { '1' } else { '0' }).iter().collect();
        assert_eq!(done, truths);
    }
}

/// A macroblock of one motion with counts, which is uniform and not flat.
#[test]
fn flags_are_held_to_the_grids() {
    let grids = Grids { inter: &[1; 16], nnz: &[1; 16], ref0: &[5; 16], mv0: &[7; 32], ..Grids::default() };
    let inside = std::array::from_fn(|i| if i / 4 % 4 == 0 { 0 } else { 2 });
    assert_eq!(last(LONE, &[], grids, FLAT_ASKS[0]), (Answer::Untrue, [9; 32]));
    assert_eq!(last(LONE, &[], grids, UNIFORM_ASKS[0]), (Answer::Done, inside));
}

/// Of the edges inside, an 8x8 transform has only the middle ones.
#[test]
fn an_8x8_transform_has_two_inner_edges() {
    let grids = Grids { inter: &[0; 16], nnz: &[0; 16], ref0: &[-1; 16], mv0: &[0; 32], ..Grids::default() };
    let intra: Ask = |p, grids, at| p.derive_by_kind(grids, at, Kind::Intra);
    let intra_row: Ask = |p, grids, at| by_row(p, grids, at, Kind::Intra);
    for ask in [intra, intra_row, ASKS[0], ASKS[1], ASKS[3]] {
        let [with, without] = [&[1][..], &[0]].map(|t8s| last(LONE, t8s, grids, ask));
        assert_eq!(with, (Answer::Done, std::array::from_fn(|i| if i / 4 % 4 == 2 { 3 } else { 0 })));
        assert_eq!(without, (Answer::Done, std::array::from_fn(|i| if i / 4 % 4 == 0 { 0 } else { 3 })));
        assert_eq!(without, last(LONE, &[], grids, ask));
    }
}

/// A count in block 0 alone: with the 8x8 flag it stands for the upper left 8x8 block, without it for itself.
#[test]
fn a_count_stands_for_its_8x8_block() {
    assert_eq!(all_alike(LONE, &[1], 0), twos(&[8, 9, 24, 25]));
    assert_eq!(all_alike(LONE, &[0], 0), twos(&[4, 20]));
    assert_eq!(all_alike(LONE, &[], 0), twos(&[4, 20]));
}

/// A count of the left macroblock in column 2, or of the upper one in row 2: the other macroblock's edge lies
/// beside the 8x8 block, and not beside the block.
#[test]
fn a_neighbours_flag_counts() {
    for block in 0..4 {
        let half = block / 2 * 2;
        let (left, above) = (8 * block + 2, 4 * 2 + block);
        assert_eq!(all_alike(BESIDE, &[1, 0], left), twos(&[half, half + 1]));
        assert_eq!(all_alike(BELOW, &[1, 0], above), twos(&[16 + half, 17 + half]));
        for t8s in [&[0, 0][..], &[0, 1], &[]] {
            assert_eq!([all_alike(BESIDE, t8s, left), all_alike(BELOW, t8s, above)], [twos(&[]); 2]);
        }
    }
}

#[test]
fn bad_8x8_flags_are_refused() {
    for size in [BESIDE, BELOW] {
        for t8s in [[2, 0], [0, 2], [255, 1]] {
            assert_eq!(all_alike(size, &t8s, 0), (Answer::NotABool, [9; 32]));
        }
        for t8s in [&[0][..], &[0, 0, 0]] {
            assert_eq!(all_alike(size, t8s, 0), (Answer::MacroblockGridLength, [9; 32]));
        }
    }
}

/// A macroblock under an intra one, whose lower half moves by 2 quarter samples: in a field the upper edge
/// gets 3 and not 4, and the vectors are far.
#[test]
fn fields_have_strengths_of_their_own() {
    let inter: Vec<u8> = (0..32).map(|block| block / 16).collect();
    let mv0: Vec<i16> = (0..32).flat_map(|block| [0, block / 24 * 2]).collect();
    let grids = Grids { inter: &inter, nnz: &[0; 32], ref0: &[0; 32], mv0: &mv0, ..Grids::default() };
    for (part, upper, middle) in [(Part::Frame, 4, 0), (Part::TopField, 3, 1), (Part::BottomField, 3, 1)] {
        for ask in ASKS {
            let strengths = &mut [9; 64];
            let mut p = Picture { size: BELOW, part, strengths, ..Picture::default() };
            let answer = ask(&mut p, grids, Place { x: 0, y: 1 });
            assert_eq!((answer, p.strengths[48], p.strengths[56]), (Answer::Done, upper, middle));
        }
    }
}
