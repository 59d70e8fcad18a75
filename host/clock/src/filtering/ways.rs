//! The ways to filter a picture that are timed.

use super::picture::Picture;
use crate::cpu_time::timed;
use crate::{H, SIZE, W};
use deblock::{Offsets, Part, Place, Size, SliceRecord};

#[derive(Clone, Copy, Debug)]
pub enum Way {
    /// The Rust original's whole-picture call.
    Original,
    /// The archive's.
    Whole,
    /// The archive's visits, one a macroblock, in raster order.
    Raster,
    /// .. and by diagonals on which all are ready at once.
    Wavefront,
    /// Those in raster order, and after each the question what it has made final.
    Asked,
    /// The archive's whole-picture call on each field of a frame of the same samples, which gives other
    /// samples. The top field has the upper half's strengths, QPs and flags, the bottom field the lower's.
    Fields,
    /// The archive's whole-picture call by one slice, which a table of one record has.
    WholeByOne,
    /// .. and by one slice a row, 36 of them.
    WholeByRows,
    /// The archive's visits in raster order by one slice.
    RasterByOne,
    /// .. and by one a row.
    RasterByRows,
    /// .. which stand in a table of 300 records.
    RasterByMany,
}

impl Way {
    pub const ALL: [Way; 11] = [
        Way::Original,
        Way::Whole,
        Way::Raster,
        Way::Wavefront,
        Way::Asked,
        Way::Fields,
        Way::WholeByOne,
        Way::WholeByRows,
        Way::RasterByOne,
        Way::RasterByRows,
        Way::RasterByMany,
    ];

    /// The seconds that filtering takes. What it needs beside the planes is made before the clock starts.
    pub fn seconds(self, picture: &Picture, planes: &mut [Vec<u8>; 3]) -> f64 {
        match self {
            Way::Original => original(picture, planes),
            Way::Whole => whole(picture, planes, [0; 2]),
            Way::Raster => visits(picture, planes, SIZE.places().collect(), |_, _| ()),
            Way::Wavefront => {
                let mut order: Vec<Place> = SIZE.places().collect();
                order.sort_by_key(|p| p.x + 2 * p.y);
                visits(picture, planes, order, |_, _| ())
            }
            Way::Asked => visits(picture, planes, SIZE.places().collect(), ask),
            Way::Fields => fields(picture, planes),
            Way::WholeByOne => by_slices(picture, planes, 1, whole_slices),
            Way::WholeByRows => by_slices(picture, planes, H, whole_slices),
            Way::RasterByOne => by_slices(picture, planes, 1, visit_slices),
            Way::RasterByRows => by_slices(picture, planes, H, visit_slices),
            Way::RasterByMany => by_slices(picture, planes, 300, visit_slices),
        }
    }
}

fn original(picture: &Picture, [luma, u, v]: &mut [Vec<u8>; 3]) -> f64 {
    let stored = oracle::Stored::new(W, H, &picture.strengths, &picture.qps, &picture.t8s);
    let offsets = oracle::Offsets { a: 0, b: 0, chroma: 0 };
    timed(|| stored.filter_frame(oracle::Planes { luma, u, v }, offsets))
}

/// The archive's whole-picture call with U's and V's chroma offsets.
pub fn whole(picture: &Picture, planes: &mut [Vec<u8>; 3], [chroma_u, chroma_v]: [i32; 2]) -> f64 {
    archive(picture, planes, |lent| {
        lent.offsets = Offsets { chroma_u, chroma_v, ..Offsets::default() };
        assert!(lent.whole().is_done());
    })
}

/// Visits in this order, with `then` after each.
fn visits(
    picture: &Picture,
    planes: &mut [Vec<u8>; 3],
    order: Vec<Place>,
    then: impl Fn(&deblock::Picture, Place),
) -> f64 {
    archive(picture, planes, |lent| {
        for at in order {
            assert!(lent.visit(at).is_done());
            then(lent, at);
        }
    })
}

fn ask(lent: &deblock::Picture, at: Place) {
    assert!(lent.made_final(at).is_ok());
}

fn fields(picture: &Picture, [luma, u, v]: &mut [Vec<u8>; 3]) -> f64 {
    let size = Size { h: H / 2, ..SIZE };
    let n = size.macroblocks();
    let mut strengths = picture.strengths.clone();
    let halves = strengths.chunks_mut(32 * n).zip(picture.qps.chunks(n).zip(picture.t8s.chunks(n)));
    timed(|| {
        for (part, (strengths, (qps, t8s))) in [Part::TopField, Part::BottomField].into_iter().zip(halves) {
            let mut lent = deblock::Picture { size, part, luma, u, v, strengths, qps, t8s, ..Default::default() };
            assert!(lent.whole().is_done());
        }
    })
}

fn whole_slices(lent: &mut deblock::Picture) {
    assert!(lent.whole_slices().is_done());
}

fn visit_slices(lent: &mut deblock::Picture) {
    for at in SIZE.places() {
        assert!(lent.visit_slices(at).is_done());
    }
}

fn archive(picture: &Picture, planes: &mut [Vec<u8>; 3], work: impl FnOnce(&mut deblock::Picture)) -> f64 {
    by_slices(picture, planes, 0, work)
}

/// With a table of so many records, all of mode 0 with offsets 0, so that calls with slices give the plain
/// calls' samples: all macroblocks are of one slice, or, where there are records for that, each row is one.
fn by_slices(
    picture: &Picture,
    [luma, u, v]: &mut [Vec<u8>; 3],
    records: usize,
    work: impl FnOnce(&mut deblock::Picture),
) -> f64 {
    let number = |m: usize| if records < H { 0 } else { (m / W) as u16 };
    let numbered = if records == 0 { 0 } else { W * H };
    let mut lent = deblock::Picture {
        size: SIZE,
        luma,
        u,
        v,
        strengths: &mut picture.strengths.clone(),
        qps: &picture.qps,
        t8s: &picture.t8s,
        marks: &mut vec![0; W * H],
        slices: &vec![SliceRecord::default(); records],
        slice_numbers: &(0..numbered).map(number).collect::<Vec<u16>>(),
        ..deblock::Picture::default()
    };
    timed(|| work(&mut lent))
}
