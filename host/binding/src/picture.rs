//! A picture and the twelve calls on it.

use crate::{wire, Answer, Finals, Flags, Grids, Kind, Offsets, Part, Place, Size, SliceRecord};
use std::ops::Range;

/// What stays the same throughout a picture, and the memory that its calls are lent.
///
/// A call is lent only what it reads and writes. A member that none of the calls made needs may be left out:
/// `..Picture::default()` leaves it empty, which means that it is not lent. Written so, a caller's source
/// stays good when a later version adds a member; where all are set, clippy's `needless_update` is to be
/// allowed.
///
/// Between the visits of a picture its size, part and offsets stay, and the calls alone write marks. What
/// belongs to a macroblock, its samples, QP, flag, strengths and slice number, may be written until its own
/// visit and not after it; so may the record of a slice until the first visit of a macroblock of it. Before
/// that let QPs, flags and strengths be 0, slice numbers inside the table and its records legal ones: a visit
/// also looks at QPs and slice numbers to the left and above, and at every record.
/// To write them the caller drops the `Picture`, which is only borrows, and makes another over the same
/// buffers.
///
/// Lengths are checked by each call, and a wrong one is refused; with n macroblocks they are as said below.
#[derive(Debug, Default)]
pub struct Picture<'a> {
    /// Width and height in macroblocks, of a field those of the field.
    pub size: Size,
    /// Frame, top field or bottom field. The two fields of a frame are two pictures, which are lent the same
    /// planes, one after the other, and each its own strengths, QPs, flags and marks.
    pub part: Part,
    /// The offsets that filtering adds.
    pub offsets: Offsets,
    /// 256 n samples in lines of 16 * W, which filtering writes. A field is lent its frame's, 512 n; every
    /// second line is read and written.
    pub luma: &'a mut [u8],
    /// 64 n samples in lines of 8 * W, for a field 128 n, which filtering writes.
    pub u: &'a mut [u8],
    /// The same for V.
    pub v: &'a mut [u8],
    /// 32 n, each 0 to 4. The strength calls write those of a macroblock or of a row; filtering reads them.
    pub strengths: &'a mut [u8],
    /// n luma QPs, 0 to 51.
    pub qps: &'a [u8],
    /// n 8x8 flags, 0 or 1, which all calls read. If it is empty, no flag is set.
    pub t8s: &'a [u8],
    /// n marks, 1 where a macroblock was visited, all 0 at the start. Visits write them.
    pub marks: &'a mut [u8],
    /// A record for each slice, for the calls with slices alone. They look at every record, used or not.
    pub slices: &'a [SliceRecord],
    /// n slice numbers: of each macroblock, where in `slices` its slice's record stands. Two slices have two
    /// numbers, also where their records are equal.
    pub slice_numbers: &'a [u16],
}

impl Picture<'_> {
    /// Filters the whole picture, once: it neither reads nor sets marks, and called again it filters again.
    pub fn whole(&mut self) -> Answer {
        Answer::of(wire::whole(self, self.part as u8))
    }

    /// Filters the macroblock rows from `rows.start` on and before `rows.end`. Each row is filtered once,
    /// from the top; that gives the planes of [`Picture::whole`], and another order may not. No mark is read
    /// or set.
    pub fn rows(&mut self, rows: Range<usize>) -> Answer {
        Answer::of(wire::rows(self, self.part as u8, rows.start, rows.end))
    }

    /// Filters one macroblock and sets its mark, once its left, upper and upper right neighbours are marked;
    /// until then it answers [`Answer::NotReady`].
    pub fn visit(&mut self, at: Place) -> Answer {
        Answer::of(wire::visit(self, self.part as u8, at))
    }

    /// Filters the whole picture as [`Picture::whole`] does, each macroblock as the record of its slice says.
    pub fn whole_slices(&mut self) -> Answer {
        Answer::of(wire::whole_slices(self, self.part as u8))
    }

    /// Filters rows as [`Picture::rows`] does, each macroblock as the record of its slice says.
    pub fn rows_slices(&mut self, rows: Range<usize>) -> Answer {
        Answer::of(wire::rows_slices(self, self.part as u8, rows.start, rows.end))
    }

    /// Filters one macroblock as the record of its slice says, and sets its mark. It waits for the neighbours
    /// that [`Picture::visit`] waits for, whatever the record's mode.
    pub fn visit_slices(&mut self, at: Place) -> Answer {
        Answer::of(wire::visit_slices(self, self.part as u8, at))
    }

    /// Whether a macroblock is final, which means that it and its right and lower neighbours, as far as they
    /// exist, are marked. No later visit changes a sample of it, so it may be shown. This reads `size` and
    /// `marks` alone. It asks, in this order, for [`Answer::BadSize`], [`Answer::Outside`],
    /// [`Answer::MacroblockGridLength`] and [`Answer::NotABool`].
    pub fn is_final(&self, at: Place) -> Result<bool, Answer> {
        let told = wire::is_final(self.size, at, self.marks);
        Answer::of(told.answer).ok()?;
        Ok(told.yes != 0)
    }

    /// Asks what [`Picture::is_final`] does, of a macroblock and of its left and upper neighbours, as far as
    /// they exist: no others can become final with a visit of it, and before it none of them was. The first
    /// refusal of the three is the error. Asked after each visit that is done, this tells each macroblock of
    /// the picture once:
    ///
    /// ```
    /// use deblock::{Answer, Finals, Picture, Place, Size};
    ///
    /// let mut picture = Picture {
    ///     size: Size { w: 2, h: 1 },
    ///     luma: &mut [90; 512],
    ///     u: &mut [90; 128],
    ///     v: &mut [90; 128],
    ///     strengths: &mut [3; 64],
    ///     qps: &[40; 2],
    ///     marks: &mut [0; 2],
    ///     ..Picture::default()
    /// };
    /// let [first, second] = [0, 1].map(|x| Place { x, y: 0 });
    /// picture.visit(first).ok()?;
    /// assert_eq!(picture.made_final(first)?, Finals::default()); // the next visit may change it
    /// picture.visit(second).ok()?;
    /// assert_eq!(picture.made_final(second)?.places(second).collect::<Vec<_>>(), [first, second]);
    /// # Ok::<(), Answer>(())
    /// ```
    pub fn made_final(&self, at: Place) -> Result<Finals, Answer> {
        Finals::of(wire::made_final(self.size, at, self.marks))
    }

    /// Writes the 32 strengths of a macroblock of which nothing is known. It reads the grids of the
    /// macroblock, the nearest blocks of its left and upper neighbours and the 8x8 flags of all three, so
    /// these have to be there: it cannot tell a block that has not arrived from one that has.
    pub fn derive(&mut self, grids: Grids, at: Place) -> Answer {
        Answer::of(wire::strengths(self, self.field(), grids, at))
    }

    /// The same for a macroblock that may be known to be flat or uniform.
    pub fn derive_by_flags(&mut self, grids: Grids, at: Place, flags: Flags) -> Answer {
        let flags = [flags.flat, flags.uniform].map(u8::from);
        Answer::of(wire::strengths_flags(self, self.field(), grids, at, flags))
    }

    /// The same for a macroblock whose kind is known.
    pub fn derive_by_kind(&mut self, grids: Grids, at: Place, kind: Kind) -> Answer {
        Answer::of(wire::strengths_kind(self, self.field(), grids, at, kind as u8))
    }

    /// The same for all macroblocks of row `y`, in one call: `kinds` has the kind of each macroblock of the
    /// picture, in raster order, or is empty where nothing is known. Of the kinds it reads those of the row.
    ///
    /// It asks for [`Answer::BadSize`], for [`Answer::Outside`] and for [`Answer::MacroblockGridLength`] of
    /// the kinds; then it answers the first refusal of [`Picture::derive_by_kind`] or [`Picture::derive`]
    /// from left to right, and writes no strength of the row where there is one.
    pub fn derive_row(&mut self, grids: Grids, y: usize, kinds: &[Kind]) -> Answer {
        Answer::of(wire::strengths_row(self, self.field(), grids, y, wire::kind_bytes(kinds)))
    }

    fn field(&self) -> u8 {
        (self.part != Part::Frame).into()
    }
}

#[cfg(test)]
mod slice_tests;
#[cfg(test)]
mod strength_tests;

#[cfg(test)]
mod tests {
    use super::*;

    /// docs/RULES.md, P12: readiness in a picture of 2 by 2, and of width 1.
    #[test]
    fn visits_wait_for_the_upper_right() {
        for (w, second) in [(2, Answer::NotReady), (1, Answer::Done)] {
            let n = 2 * w;
            let mut p = Picture {
                size: Size { w, h: 2 },
                luma: &mut vec![90; 256 * n],
                u: &mut vec![90; 64 * n],
                v: &mut vec![90; 64 * n],
                strengths: &mut vec![3; 32 * n],
                qps: &vec![40; n],
                marks: &mut vec![0; n],
                ..Picture::default()
            };
            let answers = [(0, 0), (0, 1), (w, 0)].map(|(x, y)| p.visit(Place { x, y }));
            assert_eq!(answers, [Answer::Done, second, Answer::Outside]);
        }
    }

    const AT: Place = Place { x: 0, y: 0 };

    /// The three calls that filter a lone macroblock.
    const ASKS: [fn(&mut Picture) -> Answer; 3] = [|p| p.whole(), |p| p.rows(0..1), |p| p.visit(AT)];

    /// Strength 4 between 60 and 70, in one macroblock.
    struct Step {
        luma: Vec<u8>,
        chroma: [Vec<u8>; 2],
        strengths: [u8; 32],
    }

    impl Step {
        fn new() -> Step {
            let luma = (0..256).map(|i| if i % 16 < 8 { 60 } else { 70 }).collect();
            let strengths = std::array::from_fn(|i| if i / 4 == 2 { 4 } else { 0 });
            Step { luma, chroma: [vec![60; 64], vec![60; 64]], strengths }
        }

        /// The same in the lines of one parity; the others hold 200.
        fn of_field(parity: usize) -> Step {
            let Step { luma, strengths, .. } = Step::new();
            let other = [200; 16];
            let lines = luma.chunks(16).flat_map(|own| if parity == 0 { [own, &other] } else { [&other, own] });
            Step { luma: lines.flatten().copied().collect(), chroma: [vec![60; 128], vec![60; 128]], strengths }
        }

        fn lent<'a>(&'a mut self, qps: &'a [u8]) -> Picture<'a> {
            let Step { luma, chroma: [u, v], strengths } = self;
            Picture { size: Size { w: 1, h: 1 }, luma, u, v, strengths, qps, ..Picture::default() }
        }

        fn is_filtered(&self) -> bool {
            self.luma[244..252] == [60, 60, 60, 63, 68, 70, 70, 70]
        }
    }

    /// docs/RULES.md, P4, through whole pictures and row ranges, at QP 30.
    #[test]
    fn a_strong_edge() {
        for ask in [|p: &mut Picture| p.whole(), |p: &mut Picture| p.rows(0..1)] {
            let mut step = Step::new();
            assert!(ask(&mut step.lent(&[30])).is_done() && step.is_filtered());
        }
        let mut step = Step::new();
        assert_eq!(step.lent(&[52]).whole(), Answer::BadQp);
        assert!(!step.is_filtered());
    }

    /// The same in every second line of a frame.
    #[test]
    fn a_strong_edge_in_a_field() {
        for (part, parity) in [(Part::TopField, 0), (Part::BottomField, 1)] {
            for ask in ASKS {
                let mut step = Step::of_field(parity);
                let mut p = Picture { part, marks: &mut [0], ..step.lent(&[30]) };
                assert!(ask(&mut p).is_done());
                assert!(step.luma.chunks(16).enumerate().all(|(line, samples)| match line % 2 == parity {
                    true => samples[4..12] == [60, 60, 60, 63, 68, 70, 70, 70],
                    false => samples == [200; 16],
                }));
            }
        }
    }

    /// A step from 60 to 82 in U and V: at QP 30 alpha is 22 with chroma offset 0, which leaves it, and 25
    /// with 1, which makes 60 66 77 82 of 60 60 82 82.
    #[test]
    fn chroma_offsets_reach_their_own_plane_alone() {
        for (part, parity) in [(Part::Frame, 0), (Part::TopField, 0), (Part::BottomField, 1)] {
            for (ask, chroma) in ASKS.into_iter().flat_map(|ask| [(ask, [0, 0]), (ask, [1, 0]), (ask, [0, 1])]) {
                let mut step = if part == Part::Frame { Step::new() } else { Step::of_field(parity) };
                step.chroma.iter_mut().flatten().enumerate().for_each(|(i, s)| *s = if i % 8 < 4 { 60 } else { 82 });
                let [chroma_u, chroma_v] = chroma;
                let offsets = Offsets { chroma_u, chroma_v, ..Offsets::default() };
                assert!(ask(&mut Picture { part, offsets, marks: &mut [0], ..step.lent(&[30]) }).is_done());
                let own = 8 * parity;
                let line = step.chroma.map(|plane| plane[own + 2..own + 6].to_vec());
                assert_eq!(line, chroma.map(|offset| if offset == 1 { [60, 66, 77, 82] } else { [60, 60, 82, 82] }));
            }
        }
    }

    /// With 8x8 flags that are refused later; without QPs, which is refused before.
    #[test]
    fn each_of_the_four_offsets_is_asked_about() {
        let of: [fn(i32) -> Offsets; 4] = [
            |a| Offsets { a, ..Offsets::default() },
            |b| Offsets { b, ..Offsets::default() },
            |chroma_u| Offsets { chroma_u, ..Offsets::default() },
            |chroma_v| Offsets { chroma_v, ..Offsets::default() },
        ];
        let values = [(-13, false), (-12, true), (12, true), (13, false), (i32::MIN, false), (i32::MAX, false)];
        for (ask, of) in ASKS.into_iter().flat_map(|ask| of.map(|of| (ask, of))) {
            for (offsets, good) in values.map(|(value, good)| (of(value), good)) {
                let mut step = Step::new();
                let mut answer = |qps, t8s| ask(&mut Picture { offsets, t8s, marks: &mut [0], ..step.lent(qps) });
                let later = if good { Answer::NotABool } else { Answer::BadOffset };
                assert_eq!([answer(&[30], &[2]), answer(&[], &[2])], [later, Answer::MacroblockGridLength]);
                let answer = answer(&[30], &[]);
                assert_eq!(answer, if good { Answer::Done } else { Answer::BadOffset }, "{offsets:?}");
                assert!(good || (step.luma, step.chroma) == (Step::new().luma, Step::new().chroma));
            }
        }
    }

    fn is_shared<T: Send + Sync>(_: &T) {}

    #[test]
    fn two_pictures_on_two_threads() {
        is_shared(&Picture::default());
        let (mut one, mut other) = (Step::new(), Step::new());
        std::thread::scope(|threads| {
            for mut picture in [one.lent(&[30]), other.lent(&[30])] {
                threads.spawn(move || assert!(picture.whole().is_done()));
            }
        });
        assert!(one.is_filtered() && other.is_filtered());
    }

    #[test]
    fn nothing_lent_is_refused() {
        assert_eq!(Picture::default().whole(), Answer::BadSize);
        let mut p = Picture { size: Size { w: 1, h: 1 }, ..Picture::default() };
        assert_eq!([p.whole(), p.derive(Grids::default(), AT)], {
            [Answer::PlaneLength, Answer::MacroblockGridLength]
        });
    }
}
