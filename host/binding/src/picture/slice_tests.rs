//! The calls with slices in cases that are worked by hand.

use super::*;

const PARTS: [Part; 3] = [Part::Frame, Part::TopField, Part::BottomField];
const SIZE: Size = Size { w: 2, h: 2 };

fn record(mode: u8, a: i8, b: i8) -> SliceRecord {
    SliceRecord { mode, a, b }
}

/// Memory for 2 by 2 macroblocks: levels that step by 6 every four samples, both ways.
#[derive(Clone, PartialEq, Debug)]
struct Memory {
    part: Part,
    planes: [Vec<u8>; 3],
    strengths: Vec<u8>,
    marks: Vec<u8>,
}

impl Memory {
    fn new(part: Part) -> Memory {
        let lines = if part == Part::Frame { 1 } else { 2 };
        let level = |x: usize, y: usize| 90 + 6 * ((x / 4 + y / 4) % 2) as u8;
        let plane = |side: usize| {
            let line = 2 * side;
            (0..line * line * lines).map(|i| level(i % line, i / line / lines)).collect()
        };
        Memory { part, planes: [plane(16), plane(8), plane(8)], strengths: vec![3; 128], marks: vec![0; 4] }
    }

    fn lent<'a>(&'a mut self, slices: &'a [SliceRecord], slice_numbers: &'a [u16]) -> Picture<'a> {
        let Memory { part, planes: [luma, u, v], strengths, marks } = self;
        let (part, qps) = (*part, &[40; 4]);
        Picture { size: SIZE, part, luma, u, v, strengths, qps, marks, slices, slice_numbers, ..Picture::default() }
    }
}

/// Three ways over the whole picture.
const WAYS: [fn(&mut Picture) -> Answer; 3] = [
    |p| p.whole_slices(),
    |p| p.rows_slices(0..1).ok().err().unwrap_or_else(|| p.rows_slices(1..2)),
    |p| SIZE.places().map(|at| p.visit_slices(at)).find(|answer| !answer.is_done()).unwrap_or(Answer::Done),
];

/// The planes that all three ways leave.
fn by_slices(part: Part, slices: &[SliceRecord], numbers: [u16; 4]) -> [Vec<u8>; 3] {
    let [whole, rows, visits] = WAYS.map(|way| {
        let mut memory = Memory::new(part);
        assert!(way(&mut memory.lent(slices, &numbers)).is_done());
        memory.planes
    });
    assert!(whole == rows && whole == visits);
    whole
}

/// Those of the plain call with strength 0 on these edges of these macroblocks: 0 to 3 vertical ones, 4 to 7
/// horizontal ones.
fn without(part: Part, edges: &[(usize, usize)]) -> [Vec<u8>; 3] {
    let mut memory = Memory::new(part);
    edges.iter().for_each(|(m, edge)| memory.strengths[32 * m + 4 * edge..][..4].fill(0));
    assert!(memory.lent(&[], &[]).whole().is_done());
    memory.planes
}

#[test]
fn modes_leave_a_macroblocks_own_edges() {
    let (on, all, borders) = (record(0, 0, 0), record(1, 0, 0), record(2, 0, 0));
    let whole = |m: usize| (0..8).map(|edge| (m, edge)).collect::<Vec<_>>();
    for part in PARTS {
        let with = |mode, numbers| by_slices(part, &[on, mode], numbers);
        assert_eq!(with(on, [0, 1, 1, 0]), without(part, &[]));
        assert_eq!(with(all, [1, 0, 0, 0]), without(part, &whole(0)), "its neighbours' edges stay");
        assert_eq!(with(all, [0, 0, 1, 1]), without(part, &[whole(2), whole(3)].concat()));
        assert_eq!(with(borders, [1, 0, 0, 0]), without(part, &[]), "the picture's border is none of a slice");
        assert_eq!(with(borders, [0, 1, 0, 0]), without(part, &[(1, 0)]));
        assert_eq!(with(borders, [0, 0, 1, 0]), without(part, &[(2, 4)]));
        assert_eq!(with(borders, [0, 0, 0, 1]), without(part, &[(3, 0), (3, 4)]));
        assert_eq!(with(borders, [0, 0, 1, 1]), without(part, &[(2, 4), (3, 4)]));
        // numbers tell slices apart, and not records
        let edges = [(1, 0), (2, 4), (3, 0), (3, 4)];
        assert_eq!(by_slices(part, &[borders; 4], [3, 0, 2, 1]), without(part, &edges));
        assert_eq!(by_slices(part, &[borders; 4], [3; 4]), without(part, &[]));
    }
}

/// At QP 40 with A -12 alpha is 20 and with A -10 it is 25: a step of 22 is filtered with the latter alone,
/// on the edges of the macroblock whose slice has it.
#[test]
fn offsets_are_those_of_the_own_slice() {
    let filtered = |first: i8, second: i8| {
        let slices = [record(0, first, 0), record(0, second, 0)];
        let luma = &mut (0..512).map(|i| 60 + 22 * (i / 4 % 2) as u8).collect::<Vec<u8>>();
        let before = luma.clone();
        let mut p = Picture {
            size: Size { w: 2, h: 1 },
            luma,
            u: &mut [60; 128],
            v: &mut [60; 128],
            strengths: &mut [1; 64],
            qps: &[40; 2],
            slices: &slices,
            slice_numbers: &[0, 1],
            ..Picture::default()
        };
        assert!(p.whole_slices().is_done());
        (1..8).filter(|edge| luma[4 * edge] != before[4 * edge]).collect::<Vec<usize>>()
    };
    assert_eq!([filtered(-12, -12), filtered(-10, -10)], [vec![], vec![1, 2, 3, 4, 5, 6, 7]]);
    assert_eq!([filtered(-10, -12), filtered(-12, -10)], [vec![1, 2, 3], vec![4, 5, 6, 7]]);
}

#[test]
fn one_slice_of_mode_0_is_the_plain_call() {
    for (part, a, b) in PARTS.into_iter().flat_map(|part| [(part, 0, 0), (part, -12, 12), (part, 5, -7)]) {
        let mut plain = Memory::new(part);
        let offsets = Offsets { a: a.into(), b: b.into(), ..Offsets::default() };
        assert!(Picture { offsets, ..plain.lent(&[], &[]) }.whole().is_done());
        assert_eq!(by_slices(part, &[record(0, a, b)], [0; 4]), plain.planes);
    }
}

/// The picture's own A and B are not lent.
#[test]
fn offsets_of_the_picture_do_not_count() {
    let mut memory = Memory::new(Part::Frame);
    let offsets = Offsets { a: 99, b: -99, ..Offsets::default() };
    assert!(Picture { offsets, ..memory.lent(&[record(0, 0, 0)], &[0; 4]) }.whole_slices().is_done());
    assert_eq!(memory.planes, without(Part::Frame, &[]));
}

/// A visit of mode 1 waits and is marked as any other.
#[test]
fn a_mode_changes_nothing_of_readiness() {
    let mut memory = Memory::new(Part::Frame);
    let slices = [record(1, 0, 0)];
    let mut p = memory.lent(&slices, &[0; 4]);
    let answers = [(0, 0), (0, 1), (0, 0), (1, 0), (0, 1)].map(|(x, y)| p.visit_slices(Place { x, y }));
    use Answer::{Done, MarkedAlready, NotReady};
    assert_eq!(answers, [Done, NotReady, MarkedAlready, Done, Done]);
    assert_eq!(memory, Memory { marks: vec![1, 1, 1, 0], ..Memory::new(Part::Frame) });
}

/// All is wrong at first; each line mends what was refused before.
#[test]
fn refusals_have_an_order() {
    let asks: [fn(&mut Picture) -> Answer; 3] =
        [|p| p.whole_slices(), |p| p.rows_slices(1..2), |p| p.visit_slices(Place { x: 1, y: 1 })];
    for (ask, part) in asks.into_iter().flat_map(|ask| PARTS.map(|part| (ask, part))) {
        let mut memory = Memory { marks: vec![1, 1, 1, 0], ..Memory::new(part) };
        memory.strengths[127] = 5;
        let (good, odd, far) = (record(0, 12, -12), record(3, 0, 0), record(0, 0, 13));
        let mut answer = |slices: &[SliceRecord], numbers: &[u16]| {
            let before = memory.clone();
            let answer = ask(&mut memory.lent(slices, numbers));
            assert!(answer.is_done() || memory == before);
            memory.strengths[127] = if answer == Answer::BadStrength { 0 } else { memory.strengths[127] };
            answer
        };
        assert_eq!(answer(&[odd, far], &[2; 3]), Answer::MacroblockGridLength);
        assert_eq!(answer(&[odd, far], &[2; 4]), Answer::BadOffset, "of a record that no number names");
        assert_eq!(answer(&[odd, good], &[2; 4]), Answer::BadStrength);
        assert_eq!(answer(&[odd, good], &[2; 4]), Answer::BadSliceNumber);
        assert_eq!(answer(&[odd, good], &[1; 4]), Answer::BadSliceMode, "of a record that no number names");
        assert_eq!(answer(&[good], &[0; 4]), Answer::Done);
    }
}

#[test]
fn numbers_are_read_where_qps_are() {
    let slices = [record(0, 0, 0); 2];
    let bad = |ask: fn(&mut Picture) -> Answer| {
        [0, 1, 2, 3].map(|m| {
            let mut memory = Memory { marks: vec![1, 1, 1, 0], ..Memory::new(Part::Frame) };
            let numbers: [u16; 4] = std::array::from_fn(|i| if i == m { 2 } else { 1 });
            ask(&mut memory.lent(&slices, &numbers)).number()
        })
    };
    assert_eq!(bad(|p| p.whole_slices()), [20; 4]);
    assert_eq!(bad(|p| p.rows_slices(0..1)), [20, 20, 0, 0]);
    assert_eq!(bad(|p| p.rows_slices(1..2)), [20; 4]);
    assert_eq!(bad(|p| p.rows_slices(1..1)), [0; 4]);
    assert_eq!(bad(|p| p.visit_slices(Place { x: 1, y: 1 })), [0, 20, 20, 20]);
}

/// An empty range of rows asks about every record, and reads no number; an empty table has none.
#[test]
fn empty_tables_and_empty_ranges() {
    let mut memory = Memory::new(Part::Frame);
    let mut rows =
        |rows, slices: &[SliceRecord], numbers: &[u16]| memory.lent(slices, numbers).rows_slices(rows).number();
    assert_eq!([rows(1..1, &[], &[9; 4]), rows(0..1, &[], &[0; 4]), rows(0..2, &[], &[0; 4])], [0, 20, 20]);
    assert_eq!([rows(1..1, &[record(3, 0, 0)], &[9; 4]), rows(2..2, &[record(3, 13, 0)], &[9; 4])], [21, 6]);
    assert_eq!([rows(1..1, &[], &[]), rows(1..1, &[record(0, 0, 0)], &[])], [4, 4], "no numbers are no grid");
}
