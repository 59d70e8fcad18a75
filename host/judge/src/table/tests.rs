//! The table by cases that are worked by hand.

mod rows;

use super::*;
use crate::request::{FILTER_CALLS, SINGLE_CALLS, STRENGTH_CALLS};
use deblock::SliceRecord;

/// A visit of (1, 1) in 3 by 2, ready, to which nothing applies.
fn visit() -> Request {
    let mut q = Request::new(Call::Visit, 3, 2);
    (q.x, q.y) = (1, 1);
    q.luma = vec![0; 256 * 6].into();
    q.u = vec![0; 64 * 6].into();
    q.v = vec![0; 64 * 6].into();
    q.strengths = vec![4; 32 * 6].into();
    q.qps = vec![51; 6].into();
    q.t8s = vec![1; 6].into();
    q.marks = vec![1, 1, 1, 1, 0, 0].into();
    q
}

/// The strengths of (1, 1) in 2 by 2, all inter.
fn strengths(call: Call) -> Request {
    let mut q = Request::new(call, 2, 2);
    (q.x, q.y, q.kind) = (1, 1, 3);
    q.inter = vec![1; 64].into();
    q.nnz = vec![0; 64].into();
    q.ref0 = vec![-1; 64].into();
    q.mv0 = vec![0; 128].into();
    q.strengths = vec![255; 128].into();
    q
}

fn after(mut q: Request, change: impl Fn(&mut Request)) -> u32 {
    change(&mut q);
    answer(&q)
}

#[test]
fn p12_of_the_rules() {
    let mut q = Request::new(Call::Visit, 2, 2);
    q.y = 1;
    q.luma = vec![0; 1024].into();
    q.u = vec![0; 256].into();
    q.v = vec![0; 256].into();
    q.strengths = vec![0; 128].into();
    q.qps = vec![0; 4].into();
    q.marks = vec![1, 0, 0, 0].into();
    assert_eq!(answer(&q), 14);
    q.w = 1;
    q.luma.resize(512, 0);
    q.u.resize(128, 0);
    q.v.resize(128, 0);
    q.strengths.resize(64, 0);
    q.qps.resize(2, 0);
    q.marks.resize(2, 0);
    assert_eq!(answer(&q), 0);
}

#[test]
fn each_check_of_a_visit_in_its_order() {
    // each change is made on top of all before it: the check that is asked earlier wins
    let mut q = visit();
    assert_eq!(answer(&q), 0);
    q.marks[2] = 0;
    assert_eq!(answer(&q), 14, "upper right");
    q.marks[4] = 1;
    assert_eq!(answer(&q), 13);
    q.strengths[32 * 4 + 31] = 5;
    assert_eq!(answer(&q), 9);
    q.qps[3] = 52;
    assert_eq!(answer(&q), 8, "left");
    q.t8s[4] = 2;
    assert_eq!(answer(&q), 7);
    for i in 0..4 {
        q.offsets = [0; 4];
        q.offsets[i] = 13;
        assert_eq!(answer(&q), 6, "each of the four");
    }
    q.marks.resize(5, 0);
    assert_eq!(answer(&q), 4);
    q.v.resize(0, 0);
    assert_eq!(answer(&q), 3);
    q.part = 3;
    assert_eq!(answer(&q), 19);
    q.x = 3;
    assert_eq!(answer(&q), 2);
    q.w = 257;
    assert_eq!(answer(&q), 1);
}

#[test]
fn each_offset_is_12_at_most_either_way() {
    for (call, i) in FILTER_CALLS.into_iter().flat_map(|call| (0..4).map(move |i| (call, i))) {
        let values = [i32::MIN, -13, -12, 12, 13, i32::MAX];
        let answers = values.map(|value| after(visit(), |q| (q.call, q.offsets[i]) = (call, value)));
        assert_eq!(answers, [6, 6, 0, 0, 6, 6]);
    }
    for call in STRENGTH_CALLS {
        assert_eq!(after(strengths(call), |q| q.offsets = [13; 4]), 0, "it takes none");
    }
}

fn record(mode: u8, a: i8, b: i8) -> SliceRecord {
    SliceRecord { mode, a, b }
}

/// The same visit over three slices, the macroblocks of which are 0 1 0 above 1 0 1.
fn by_slices(call: Call) -> Request {
    let mut q = visit();
    (q.call, q.last, q.sliced) = (call, 2, true);
    q.slices = vec![record(0, 0, 0), record(1, 12, -12), record(2, -12, 12)].into();
    q.numbers = vec![0, 1, 0, 1, 0, 1].into();
    q
}

#[test]
fn each_check_of_slices_in_its_order() {
    for call in FILTER_CALLS {
        // each change is made on top of all before it: the check that is asked earlier wins
        let mut q = by_slices(call);
        assert_eq!(answer(&q), 0);
        q.marks[4] = 1;
        assert_eq!(answer(&q), if call == Call::Visit { 13 } else { 0 });
        q.slices[2].mode = 3;
        assert_eq!(answer(&q), 21, "of a record that no number names");
        q.numbers[4] = 3;
        assert_eq!(answer(&q), 20);
        q.strengths[32 * 4 + 31] = 5;
        assert_eq!(answer(&q), 9);
        q.qps[3] = 52;
        assert_eq!(answer(&q), 8);
        q.t8s[4] = 2;
        assert_eq!(answer(&q), 7);
        q.slices[2].b = 13;
        assert_eq!(answer(&q), 6, "of a record that no number names");
        q.numbers.resize(5, 0);
        assert_eq!(answer(&q), 4);
        q.v.resize(0, 0);
        assert_eq!(answer(&q), 3);
    }
}

#[test]
fn records_and_numbers_have_limits() {
    for call in FILTER_CALLS {
        let with = |change: fn(&mut Request)| after(by_slices(call), change);
        assert_eq!([with(|q| q.slices[0].a = -12), with(|q| q.slices[0].b = 12)], [0; 2]);
        assert_eq!([with(|q| q.slices[0].a = 13), with(|q| q.slices[1].a = -13)], [6; 2]);
        assert_eq!([with(|q| q.slices[0].b = -128), with(|q| q.slices[2].b = 127)], [6; 2]);
        assert_eq!([with(|q| q.numbers[4] = 2), with(|q| q.numbers[4] = 65_535)], [0, 20]);
        assert_eq!([with(|q| q.slices.resize(2, record(0, 0, 0))), with(|q| q.slices = Vec::new().into())], [0, 20]);
        assert_eq!([with(|q| q.numbers = Vec::new().into()), with(|q| q.numbers.resize(7, 0))], [4; 2]);
        assert_eq!(with(|q| q.offsets = [13, -13, 0, 0]), 0, "A and B of the picture are not lent");
        assert_eq!([with(|q| q.offsets[2] = 13), with(|q| q.offsets[3] = -13)], [6; 2]);
        let plain = |change: fn(&mut Request)| {
            after(by_slices(call), |q| {
                change(q);
                q.sliced = false;
            })
        };
        assert_eq!([plain(|q| q.slices[0] = record(9, 99, 99)), plain(|q| q.numbers.fill(9))], [0; 2], "not lent");
    }
}

#[test]
fn slice_numbers_are_read_where_qps_are() {
    let bad = |q: &Request| [0, 1, 2, 3, 4, 5].map(|m| after(q.clone(), |q| q.numbers[m] = 3));
    let rows = |first, last| bad(&Request { first, last, ..by_slices(Call::Rows) });
    assert_eq!(bad(&by_slices(Call::Whole)), [20; 6]);
    assert_eq!(bad(&by_slices(Call::Visit)), [0, 20, 0, 20, 20, 0]);
    assert_eq!([rows(0, 1), rows(1, 2), rows(1, 1)], [[20, 20, 20, 0, 0, 0], [20; 6], [0; 6]]);
    let empty = |change: fn(&mut Request)| after(Request { first: 1, last: 1, ..by_slices(Call::Rows) }, change);
    assert_eq!([empty(|q| q.slices[2].mode = 3), empty(|q| q.slices[2].a = 13)], [21, 6]);
    assert_eq!([empty(|q| q.slices = Vec::new().into()), empty(|q| q.numbers = Vec::new().into())], [0, 4]);
}

#[test]
fn a_field_is_lent_the_planes_of_a_frame() {
    let double = |q: &mut Request| {
        q.luma.resize(512 * 6, 0);
        q.u.resize(128 * 6, 0);
        q.v.resize(128 * 6, 0);
    };
    for call in FILTER_CALLS {
        let parts = [0, 1, 2, 3, 255];
        let single = parts.map(|part| after(visit(), |q| (q.call, q.part) = (call, part)));
        assert_eq!(single, [0, 3, 3, 19, 19]);
        let doubled = |q: &mut Request, part: u8| {
            double(q);
            (q.call, q.part) = (call, part);
        };
        assert_eq!(parts.map(|part| after(visit(), |q| doubled(q, part))), [3, 0, 0, 19, 19]);
    }
    for call in STRENGTH_CALLS {
        assert_eq!(after(strengths(call), |q| q.part = 255), 0, "a field, and no matter which");
    }
}

#[test]
fn what_is_not_read_does_not_count() {
    assert_eq!(after(visit(), |q| q.marks[5] = 9), 0);
    assert_eq!(after(visit(), |q| q.marks[0] = 9), 0, "the upper left mark is not read");
    assert_eq!(after(visit(), |q| q.qps[2] = 99), 0, "the upper right QP is not read");
    assert_eq!(after(visit(), |q| q.t8s[3] = 9), 0);
    assert_eq!(after(visit(), |q| q.strengths[0] = 9), 0);
    assert_eq!(after(visit(), |q| q.t8s = Vec::new().into()), 0);
    assert_eq!(after(strengths(Call::Flagless), |q| q.inter[0] = 9), 0);
    for call in SINGLE_CALLS {
        assert_eq!(after(strengths(call), |q| q.t8s = vec![9, 1, 1, 1].into()), 0, "upper left");
        assert_eq!(after(strengths(call), |q| (q.x, q.t8s) = (0, vec![1, 9, 1, 9].into())), 0, "to the right");
        assert_eq!(after(strengths(call), |q| (q.y, q.t8s) = (0, vec![1, 1, 9, 9].into())), 0, "below");
        assert_eq!(after(strengths(call), |q| (q.t8s, q.inter[34]) = (vec![1; 4].into(), 9)), 0, "behind the four");
        assert_eq!(after(strengths(call), |q| (q.t8s, q.ref0[20]) = (vec![1; 4].into(), -9)), 0, "behind the four");
    }
    let rows = |first, last| {
        let mut q = visit();
        q.call = Call::Rows;
        (q.first, q.last) = (first, last);
        q.qps[0] = 52;
        answer(&q)
    };
    assert_eq!([rows(0, 1), rows(1, 2), rows(1, 1), rows(2, 2), rows(2, 1), rows(0, 3)], [8, 8, 0, 0, 2, 2]);
}

#[test]
fn each_check_of_a_strength_call() {
    for call in STRENGTH_CALLS {
        assert_eq!(answer(&strengths(call)), 0);
        assert_eq!(after(strengths(call), |q| q.w = usize::MAX), 1);
        assert_eq!(after(strengths(call), |q| q.y = usize::MAX), 2);
        assert_eq!(after(strengths(call), |q| q.strengths.resize(127, 0)), 4);
        assert_eq!([0, 1, 3, 4, 5].map(|n| after(strengths(call), |q| q.t8s.resize(n, 1))), [0, 4, 4, 0, 4]);
        assert_eq!(after(strengths(call), |q| q.mv0.resize(64, 0)), 5);
        assert_eq!(after(strengths(call), |q| q.ref1.resize(64, 0)), 5, "just one list 1 grid");
        assert_eq!(after(strengths(call), |q| q.inter[63] = 2), 7);
        for read in 1..4 {
            let flags = |value| (0..4).map(|m| if m == read { value } else { 1 }).collect::<Vec<u8>>();
            assert_eq!([1, 2, 255].map(|value| after(strengths(call), |q| q.t8s = flags(value).into())), [0, 7, 7]);
        }
        assert_eq!(after(strengths(call), |q| q.ref0[63] = -2), 10);
        assert_eq!(after(strengths(call), |q| q.inter[63] = 0), 11);
        assert_eq!(after(strengths(call), |q| q.inter[35] = 0), 11, "one of the four to the left");
        assert_eq!(after(strengths(call), |q| q.inter[28] = 0), 11, "one of the four above");
    }
}

/// The tables with the references of all blocks in each list; list 1 is lent where it has some.
fn listed(call: Call, tables: [&[i32]; 2], refs: [Option<i8>; 2]) -> Request {
    let mut q = strengths(call);
    q.tables().into_iter().zip(tables).for_each(|(own, table)| *own = table.to_vec().into());
    q.ref0.fill(refs[0].expect("list 0 is lent"));
    if let Some(reference) = refs[1] {
        (q.ref1, q.mv1) = (vec![reference; 64].into(), vec![0; 128].into());
    }
    q
}

#[test]
fn just_one_table() {
    for call in STRENGTH_CALLS {
        let lent = |tables, refs| answer(&listed(call, tables, refs));
        let sets: [[&[i32]; 2]; 4] = [[&[], &[]], [&[7], &[]], [&[], &[7]], [&[7], &[7, 9]]];
        assert_eq!(sets.map(|tables| lent(tables, [Some(0), None])), [0, 0, 5, 0]);
        assert_eq!(sets.map(|tables| lent(tables, [Some(0), Some(-1)])), [0, 5, 5, 0]);
    }
}

#[test]
fn picture_numbers() {
    for call in SINGLE_CALLS {
        for refs in [[Some(0), None], [Some(-1), None], [Some(0), Some(0)], [Some(5), Some(-1)]] {
            let entry = |value| {
                let long: Vec<i32> = (0..300).map(|i| if i == 299 { value } else { 7 }).collect();
                let tables = [[&[value][..], &[7]], [&[7], &[7, value]], [&long, &[7]]];
                let [first, second, last] = tables.map(|tables| answer(&listed(call, tables, refs)));
                assert!(first == second && first == last);
                first
            };
            assert_eq!([0, 65_535, -1, 65_536, i32::MIN, i32::MAX].map(entry), [0, 0, 22, 22, 22, 22]);
        }
        let mut q = listed(call, [&[7], &[65_536]], [Some(0), None]);
        q.inter[63] = 0;
        assert_eq!(answer(&q), 22, "before 11");
        q.ref0[63] = -2;
        assert_eq!(answer(&q), 10, "after 10");
    }
    for call in FILTER_CALLS {
        assert_eq!(after(visit(), |q| (q.call, q.pictures1) = (call, vec![-1].into())), 0, "it takes none");
    }
}

/// One block with another index: of the same picture, of another one, past the table; and with a vector.
#[test]
fn uniform_by_pictures() {
    let kind = |tables, own, other, vector| {
        [1, 2].map(|kind| {
            after(listed(Call::Kind, tables, [Some(own), None]), |q| {
                (q.kind, q.ref0[63], q.mv0[127]) = (kind, other, vector);
            })
        })
    };
    let table: [&[i32]; 2] = [&[7, 9, 7], &[]];
    assert_eq!([kind(table, 0, 2, 0), kind(table, 0, 1, 0), kind([&[], &[]], 0, 2, 0)], [[0; 2], [12; 2], [12; 2]]);
    assert_eq!([kind(table, -1, 3, 0), kind(table, 127, 3, 0), kind(table, 0, 3, 0)], [[0; 2], [0; 2], [12; 2]]);
    assert_eq!([kind(table, 0, 2, 1), kind(table, -1, 3, 1)], [[12; 2]; 2], "unused vectors count");
    let second = |other| {
        after(listed(Call::Kind, [&[7], &[9, 9, 7]], [Some(0), Some(0)]), |q| (q.kind, q.ref1[63]) = (1, other))
    };
    assert_eq!([1, 2, 3, -1].map(second), [0, 12, 12, 12]);
}

/// Of (1, 1) in 2 by 2, where the other macroblocks' blocks have other references.
#[test]
fn entries() {
    let mut q = listed(Call::Kind, [&[7, 9], &[7]], [Some(1), None]);
    q.ref0[35] = 5;
    q.ref0[28] = -1;
    q.ref0[34] = 100;
    let [first, second] = entries_read(&q);
    assert_eq!((first.iter().max(), first.iter().min(), second), (Some(&5), Some(&1), Vec::new()));
}

/// Of (1, 1) in 2 by 2: 16 of its own, then four of each neighbour, or eight where the flag is set.
#[test]
fn counts() {
    let read = |t8s: &[u8]| {
        let mut q = strengths(Call::Kind);
        q.t8s = t8s.to_vec().into();
        let [_, left, above] = blocks_read(&q);
        let behind = counts_read(&q).split_off(16 + left.len() + above.len());
        assert_eq!((left, above), (vec![35, 43, 51, 59], vec![28, 29, 30, 31]));
        behind
    };
    let (left, above) = (vec![34, 42, 50, 58], vec![20, 21, 22, 23]);
    assert_eq!([read(&[]), read(&[0; 4]), read(&[1, 0, 0, 1])], [const { Vec::new() }; 3]);
    assert_eq!([read(&[0, 0, 1, 0]), read(&[0, 1, 0, 0])], [left.clone(), above.clone()]);
    assert_eq!(read(&[1; 4]), [left, above].concat());
}

#[test]
fn kinds_and_flags() {
    let kind = |kind, change: fn(&mut Request)| {
        after(strengths(Call::Kind), |q| {
            q.kind = kind;
            change(q);
        })
    };
    assert_eq!([0, 1, 2, 3, 4, 255].map(|k| kind(k, |_| ())), [12, 0, 0, 0, 12, 12]);
    assert_eq!([0, 1, 2, 3].map(|k| kind(k, |q| q.nnz[63] = 1)), [12, 12, 0, 0]);
    assert_eq!([0, 1, 2, 3].map(|k| kind(k, |q| q.mv0[127] = 1)), [12, 12, 12, 0], "unused vectors count");
    assert_eq!([0, 1, 2, 3].map(|k| kind(k, |q| q.inter.fill(0))), [0, 12, 12, 12]);
    let flags = |flat, uniform| {
        after(strengths(Call::Flags), |q| {
            (q.flat, q.uniform) = (flat, uniform);
            q.nnz[63] = 1;
        })
    };
    assert_eq!([flags(0, 0), flags(1, 0), flags(0, 1), flags(1, 1), flags(0, 255)], [0, 12, 0, 12, 0]);
    assert_eq!(after(strengths(Call::Flags), |q| q.flat = 1), 0, "flat alone is judged alone");
}

/// As include/deblock.h has them.
#[test]
fn what_calls_answer() {
    let answers = |call, sliced| numbers().filter(|number| can_give(call, sliced, *number)).collect::<Vec<u32>>();
    assert_eq!(answers(Call::Flagless, false), [0, 1, 2, 4, 5, 7, 10, 22, 11]);
    for call in [Call::Kind, Call::Flags, Call::StrengthsRow] {
        assert_eq!(answers(call, false), [0, 1, 2, 4, 5, 7, 10, 22, 11, 12]);
    }
    assert_eq!(answers(Call::Whole, false), [0, 1, 19, 3, 4, 6, 7, 8, 9]);
    assert_eq!(answers(Call::Rows, true), [0, 1, 2, 19, 3, 4, 6, 7, 8, 9, 20, 21]);
    assert_eq!(answers(Call::Visit, true), [0, 1, 2, 19, 3, 4, 6, 7, 8, 9, 20, 21, 13, 14]);
}

#[test]
fn sizes() {
    let size = |w: usize, h: usize| size_out_of_range(&Request::new(Call::Whole, w, h));
    assert!(!size(1, 1) && !size(256, 144) && !size(192, 192) && !size(1, 256));
    assert!(size(0, 1) && size(1, 0) && size(257, 1) && size(256, 145) && size(usize::MAX, usize::MAX));
    assert!(size(1 << 32, 1 << 32), "the product wraps to 0");
}
