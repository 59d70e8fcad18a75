//! Of rows of strengths.

use super::*;

/// The lower row of 2 by 2, all inter, by kinds; of the upper row the kinds are true of nothing.
fn row() -> Request {
    Request { kinds: vec![4, 255, 3, 3].into(), ..strengths(Call::StrengthsRow) }
}

#[test]
fn kinds_of_a_row() {
    assert_eq!(answer(&row()), 0);
    assert_eq!([0, 1, 2, 3, 5, 8].map(|n| after(row(), |q| q.kinds.resize(n, 3))), [0, 4, 4, 4, 4, 4]);
    let second = |kind, change: fn(&mut Request)| {
        after(row(), |q| {
            q.kinds[3] = kind;
            change(q);
        })
    };
    assert_eq!([0, 1, 2, 3, 4, 255].map(|k| second(k, |_| ())), [12, 0, 0, 0, 12, 12]);
    assert_eq!([0, 1, 2, 3].map(|k| second(k, |q| q.nnz[63] = 1)), [12, 12, 0, 0]);
    assert_eq!(after(row(), |q| q.y = 0), 12);
    assert_eq!(after(row(), |q| (q.y, q.kinds) = (0, vec![3, 2, 9, 9].into())), 0, "the row below is not read");
    assert_eq!(after(row(), |q| q.x = usize::MAX), 0, "it is told of no column");
    assert_eq!([2, usize::MAX].map(|y| after(row(), |q| (q.y, q.kinds) = (y, vec![3].into()))), [2; 2], "before 4");
    assert_eq!(after(row(), |q| (q.h, q.y) = (257, 300)), 1);
}

/// The first macroblock that is refused answers, whatever the next one is refused with.
#[test]
fn a_row_from_the_left() {
    let mut q = row();
    q.inter[63] = 2;
    assert_eq!(answer(&q), 7, "of the second");
    q.kinds[2] = 0;
    assert_eq!(answer(&q), 12, "of the first, before 7 of the second");
    q.inter[33] = 0;
    assert_eq!(answer(&q), 11);
    (q.pictures0, q.pictures1) = (vec![7].into(), vec![-1].into());
    assert_eq!(answer(&q), 22);
    q.ref0[40] = -2;
    assert_eq!(answer(&q), 10);
    q.t8s = vec![2, 0, 0, 0].into();
    assert_eq!(answer(&q), 7, "of the flag above the first");
    q.mv0.resize(127, 0);
    assert_eq!(answer(&q), 5);
    q.strengths.resize(127, 0);
    assert_eq!(answer(&q), 4);
}

/// The row's own blocks and the line above it, the flags of both rows, and counts behind that line.
#[test]
fn a_row_reads() {
    let mut q = row();
    q.t8s = vec![0, 1, 1, 1].into();
    assert_eq!(blocks_read(&q), [(32..64).collect(), Vec::new(), (24..32).collect::<Vec<usize>>()]);
    assert_eq!(counts_read(&q)[40..], [20, 21, 22, 23]);
    assert_eq!((flags_read(&q), macroblocks_written(&q)), (vec![0, 1, 2, 3], 2..4));
    q.y = 0;
    assert_eq!(blocks_read(&q), [(0..32).collect::<Vec<usize>>(), Vec::new(), Vec::new()]);
    assert_eq!((flags_read(&q), macroblocks_written(&q)), (vec![0, 1], 0..2));
}
