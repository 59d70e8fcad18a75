//! The row call beside the calls of a macroblock.

use super::*;

const SIZE: Size = Size { w: 4, h: 2 };
const KINDS: [Kind; 8] = {
    use Kind::{Inter, InterUniform, Intra, Skip};
    [Intra, Skip, InterUniform, Inter, Inter, Inter, Skip, Intra]
};

/// Grids of which `KINDS` are true.
struct Made {
    inter: Vec<u8>,
    nnz: Vec<u8>,
    ref0: Vec<i8>,
    mv0: Vec<i16>,
}

/// The macroblock of a block; a row has 16 blocks.
fn macroblock(block: usize) -> usize {
    block / 64 * 4 + block % 16 / 4
}

impl Made {
    /// A third of the blocks is coded, but for skip. Vectors differ by macroblock, of inter ones by block.
    fn new() -> Made {
        let blocks = || (0..128).map(|block| (block, KINDS[macroblock(block)]));
        let x = |(block, kind)| if kind == Kind::Inter { block % 7 } else { 3 * macroblock(block) } as i16;
        Made {
            inter: blocks().map(|(_, kind)| (kind != Kind::Intra).into()).collect(),
            nnz: blocks().map(|(block, kind)| (kind != Kind::Skip && block % 3 == 0).into()).collect(),
            ref0: blocks().map(|(_, kind)| if kind == Kind::Intra { -1 } else { 0 }).collect(),
            mv0: blocks().flat_map(|block| [x(block), 0]).collect(),
        }
    }

    /// What `ask` answers of the picture, and the strengths that it leaves where 9 stood.
    fn asked(&self, part: Part, t8s: &[u8], ask: impl Fn(&mut Picture, Grids) -> Answer) -> (Answer, [u8; 256]) {
        let Made { inter, nnz, ref0, mv0 } = self;
        let grids = Grids { inter, nnz, ref0, mv0, ..Grids::default() };
        let mut strengths = [9; 256];
        let mut p = Picture { size: SIZE, part, t8s, strengths: &mut strengths, ..Picture::default() };
        (ask(&mut p, grids), strengths)
    }

    /// The row call of a frame without 8x8 flags.
    fn row(&self, y: usize, kinds: &[Kind]) -> (Answer, [u8; 256]) {
        self.asked(Part::Frame, &[], |p, grids| p.derive_row(grids, y, kinds))
    }
}

/// One macroblock after the other, up to the first refusal.
fn one_by_one(p: &mut Picture, grids: Grids, y: usize, kinds: &[Kind]) -> Answer {
    let one = |at| match kinds.get(SIZE.index(at)) {
        Some(&kind) => p.derive_by_kind(grids, at, kind),
        None => p.derive(grids, at),
    };
    (0..SIZE.w).map(|x| Place { x, y }).map(one).find(|answer| !answer.is_done()).unwrap_or(Answer::Done)
}

#[test]
fn a_row_is_its_macroblocks() {
    let made = Made::new();
    for part in [Part::Frame, Part::TopField, Part::BottomField] {
        for (t8s, kinds) in [(&[][..], &[][..]), (&[], &KINDS), (&[1, 0, 0, 1, 1, 1, 0, 0], &[]), (&[1; 8], &KINDS)] {
            for y in 0..SIZE.h {
                let row = made.asked(part, t8s, |p, grids| p.derive_row(grids, y, kinds));
                assert_eq!(row.0, Answer::Done);
                assert_eq!(row, made.asked(part, t8s, |p, grids| one_by_one(p, grids, y, kinds)));
                assert_eq!(row.1[128 * (1 - y)..][..128], [9; 128]);
            }
        }
    }
    let (_, strengths) = made.row(1, &KINDS);
    assert!((0..5).all(|strength| strengths.contains(&strength)), "strengths of every value");
}

/// Of the blocks of the last macroblock no other call of the row reads any.
#[test]
fn a_refusal_in_the_last_macroblock_leaves_every_byte() {
    for (inter, ref0, answer) in [(2, 0, Answer::NotABool), (1, -2, Answer::BadReference), (0, 0, Answer::MixedInter)] {
        let mut made = Made::new();
        (made.inter[15], made.ref0[15]) = (inter, ref0);
        for kinds in [&[][..], &KINDS] {
            assert_eq!(made.row(0, kinds), (answer, [9; 256]));
            let (one, strengths) = made.asked(Part::Frame, &[], |p, grids| one_by_one(p, grids, 0, kinds));
            assert!(one == answer && strengths[95] != 9, "the three before it are not refused");
        }
    }
    let mut kinds = KINDS;
    kinds[3] = Kind::Skip;
    assert_eq!(Made::new().row(0, &kinds), (Answer::Untrue, [9; 256]));
}

/// Not the order of the checks: that of a macroblock goes before the next one's.
#[test]
fn the_first_refusal_is_the_leftmost() {
    let (mut made, mut kinds) = (Made::new(), KINDS);
    kinds[2] = Kind::Skip;
    made.inter[15] = 2;
    assert_eq!(made.row(0, &kinds), (Answer::Untrue, [9; 256]));
    made.inter[0] = 2;
    assert_eq!(made.row(0, &kinds), (Answer::NotABool, [9; 256]));
}

#[test]
fn kinds_of_other_rows_are_not_read() {
    let made = Made::new();
    let row =
        |y, numbers: &[u8]| made.asked(Part::Frame, &[], |p, g| Answer::of(wire::strengths_row(p, 0, g, y, numbers)));
    assert_eq!(row(1, &[255, 255, 255, 255, 3, 3, 1, 0]), made.row(1, &KINDS));
    assert_eq!(row(0, &[0, 1, 2, 3, 255, 255, 255, 255]), made.row(0, &KINDS));
    for number in 4..=255 {
        assert_eq!(row(0, &[0, 1, 2, number, 3, 3, 1, 0]), (Answer::Untrue, [9; 256]));
    }
}

#[test]
fn kinds_of_a_wrong_length_are_refused() {
    for len in 1..20 {
        let kinds: Vec<Kind> = KINDS.into_iter().cycle().take(len).collect();
        let (answer, strengths) = Made::new().row(0, &kinds);
        assert_eq!(answer, if len == 8 { Answer::Done } else { Answer::MacroblockGridLength }, "{len} kinds");
        assert_eq!(strengths == [9; 256], len != 8);
    }
}

/// Each line mends what the one before it was refused for; the last spoils flags, which come before grids.
#[test]
fn sizes_rows_kinds_and_grids_are_asked_in_this_order() {
    let short = &KINDS[..7];
    let mut strengths = [9; 256];
    let mut p = Picture::default();
    let none = Grids::default();
    assert_eq!(p.derive_row(none, 2, short), Answer::BadSize);
    p.size = SIZE;
    assert_eq!(p.derive_row(none, 2, short), Answer::Outside);
    assert_eq!(p.derive_row(none, usize::MAX, &KINDS), Answer::Outside);
    p.strengths = &mut strengths;
    assert_eq!(p.derive_row(none, 1, short), Answer::MacroblockGridLength);
    assert_eq!([p.derive_row(none, 1, &KINDS), p.derive_row(none, 1, &[])], [Answer::BlockGridLength; 2]);
    p.t8s = &[0; 7];
    assert_eq!([p.derive_row(none, 1, &KINDS), p.derive_row(none, 1, &[])], [Answer::MacroblockGridLength; 2]);
}
