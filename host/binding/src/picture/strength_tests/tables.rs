//! The strength calls with reference tables.

use super::*;

/// A lone macroblock whose block 0 has other references than the rest, of list 0 and of list 1; list 1 is not
/// lent where nobody uses it. All vectors are alike.
struct Odd {
    refs: [Vec<i8>; 2],
}

impl Odd {
    fn new(block_0: [i8; 2], rest: [i8; 2]) -> Odd {
        let list = |l: usize| (0..16).map(|block| if block == 0 { block_0[l] } else { rest[l] }).collect();
        Odd { refs: [list(0), list(1)] }
    }

    fn lent<'a>(&'a self, pictures0: &'a [i32], pictures1: &'a [i32]) -> Grids<'a> {
        let [ref0, ref1] = &self.refs;
        let (ref1, mv1): (&[i8], &[i16]) = if ref1 == &[-1; 16] { (&[], &[]) } else { (ref1, &[7; 32]) };
        Grids { inter: &[1; 16], nnz: &[0; 16], ref0, mv0: &[7; 32], ref1, mv1, pictures0, pictures1 }
    }

    /// What the calls answer, and whether those that are told flat agree that it is.
    fn asked(&self, pictures0: &[i32], pictures1: &[i32]) -> (Answer, [u8; 32], bool) {
        let grids = self.lent(pictures0, pictures1);
        let outcomes = ASKS.map(|ask| last(LONE, &[], grids, ask));
        assert_eq!(outcomes, [outcomes[0]; 5]);
        let flat = FLAT_ASKS.map(|ask| last(LONE, &[], grids, ask));
        let (answer, strengths) = outcomes[0];
        let is_flat = flat == [outcomes[0]; 3];
        assert!(is_flat || flat == [(Answer::Untrue, [9; 32]); 3]);
        (answer, strengths, is_flat)
    }
}

/// 1 between block 0 and its neighbours.
fn apart() -> (Answer, [u8; 32], bool) {
    (Answer::Done, std::array::from_fn(|i| if i == 4 || i == 20 { 1 } else { 0 }), false)
}

/// 0 throughout, and flat.
const ALIKE: (Answer, [u8; 32], bool) = (Answer::Done, [0; 32], true);

#[test]
fn indices_are_compared_as_pictures() {
    let odd = Odd::new([1, -1], [0, -1]);
    assert_eq!([odd.asked(&[], &[]), odd.asked(&[7, 9], &[])], [apart(); 2]);
    assert_eq!([odd.asked(&[7, 7], &[]), odd.asked(&[65535, 65535], &[0])], [ALIKE; 2]);
}

/// Index 1 of list 0, and index 2 of list 1.
#[test]
fn a_picture_is_one_whichever_list_names_it() {
    let odd = Odd::new([1, -1], [-1, 2]);
    let strengths = |pictures0: &[i32], pictures1: &[i32]| odd.asked(pictures0, pictures1).1;
    assert_eq!(strengths(&[4, 9], &[4, 5, 9]), [0; 32]);
    assert_eq!([strengths(&[9, 4], &[4, 5, 9]), strengths(&[], &[])], [apart().1; 2]);
}

/// As -1 is: also to what is flat.
#[test]
fn an_index_past_its_table_names_no_picture() {
    let odd = Odd::new([2, -1], [-1, -1]);
    assert_eq!([odd.asked(&[7], &[]), odd.asked(&[7, 7], &[])], [ALIKE; 2]);
    assert_eq!([odd.asked(&[7, 7, 7], &[]), odd.asked(&[], &[])], [apart(); 2]);
    assert_eq!(Odd::new([2, 0], [-1, 0]).asked(&[7, 7], &[7]), ALIKE);
    assert_eq!(Odd::new([0, 2], [0, -1]).asked(&[7], &[7, 7]), ALIKE);
    assert_eq!(Odd::new([2, 0], [127, 0]).asked(&[7, 7], &[7]), ALIKE);
}

#[test]
fn just_one_table_is_refused() {
    let refused = (Answer::BlockGridLength, [9; 32]);
    let answers = |odd: Odd, pictures0: &[i32], pictures1: &[i32]| {
        ASKS.map(|ask| last(LONE, &[], odd.lent(pictures0, pictures1), ask))
    };
    let one_list = || Odd::new([0, -1], [0, -1]);
    let two_lists = || Odd::new([0, 0], [0, 0]);
    assert_eq!([answers(one_list(), &[], &[3]), answers(two_lists(), &[], &[3])], [[refused; 5]; 2]);
    assert_eq!(answers(two_lists(), &[3], &[]), [refused; 5]);
    let done = (Answer::Done, [0; 32]);
    assert_eq!([answers(one_list(), &[3], &[]), answers(two_lists(), &[3], &[3])], [[done; 5]; 2]);
}

/// Of every entry, used or not; after a bad reference, and before blocks that disagree.
#[test]
fn picture_numbers_are_0_to_65535() {
    let odd = Odd::new([0, -1], [0, -1]);
    let mut long = [65535; 300];
    long[299] = 65536;
    for (pictures0, pictures1) in [(&[0, -1][..], &[][..]), (&long, &[]), (&[0], &[i32::MIN]), (&[0], &[0, i32::MAX])] {
        let grids = odd.lent(pictures0, pictures1);
        let answer = |grids| ASKS.map(|ask| last(LONE, &[], grids, ask));
        assert_eq!(answer(grids), [(Answer::BadPictureNumber, [9; 32]); 5]);
        let mixed: Vec<u8> = (0..16).map(|block| block % 2).collect();
        assert_eq!(answer(Grids { inter: &mixed, ..grids }), [(Answer::BadPictureNumber, [9; 32]); 5]);
        assert_eq!(answer(Grids { ref0: &[-2; 16], ..grids }), [(Answer::BadReference, [9; 32]); 5]);
    }
    assert_eq!(odd.asked(&long[..299], &[]), ALIKE);
}
