//! The deblocking filter of the survey station: a safe binding over the archive of the proved code.
//!
//! A [`Picture`] holds what stays the same throughout a picture and borrows its memory. Its twelve methods
//! are the calls of the archive that derive strengths and filter, each of which answers an [`Answer`], and
//! those that tell which macroblocks are final, where the answer is the error. What goes into the buffers
//! stands in docs/RULES.md, "Sizes and layouts". The module [`y4m`] has the other four calls, which read and
//! write pictures kept as YUV4MPEG2 streams.
//!
//! # From grids to planes
//!
//! Four macroblocks that moved apart. Macroblock (0, 1) is asked for before its upper right neighbour, and is
//! refused; after that neighbour it is visited.
//!
//! ```
//! use deblock::{Answer, Grids, Picture, Place, Size};
//!
//! let size = Size { w: 2, h: 2 };
//! let n = size.macroblocks();
//! let (inter, nnz, ref0) = (vec![1; 16 * n], vec![0; 16 * n], vec![0; 16 * n]);
//! // the right column moves one sample to the right, the lower row one down
//! let mv0: Vec<i16> = (0..16 * n as i16).flat_map(|b| [b % 8 / 4 * 4, b / 32 * 4]).collect();
//! let grids = Grids { inter: &inter, nnz: &nnz, ref0: &ref0, mv0: &mv0, ..Grids::default() };
//!
//! let level = |i: usize| [100, 103, 105, 104][i / 512 * 2 + i % 32 / 16];
//! let mut luma: Vec<u8> = (0..256 * n).map(level).collect();
//! let mut picture = Picture {
//!     size,
//!     luma: &mut luma,
//!     u: &mut vec![128; 64 * n],
//!     v: &mut vec![128; 64 * n],
//!     strengths: &mut vec![0; 32 * n],
//!     qps: &vec![40; n],
//!     marks: &mut vec![0; n],
//!     ..Picture::default()
//! };
//! for at in size.places() {
//!     picture.derive(grids, at).ok()?;
//! }
//! assert!(picture.visit(Place { x: 0, y: 0 }).is_done());
//! let early = picture.visit(Place { x: 0, y: 1 });
//! assert_eq!(early, Answer::NotReady);
//! assert_eq!(early.to_string(), "its left, upper or upper right neighbour is not visited yet");
//! for (x, y) in [(1, 0), (0, 1), (1, 1)] {
//!     picture.visit(Place { x, y }).ok()?;
//! }
//! assert_eq!(picture.marks, [1; 4]);
//! assert_eq!(luma[15 * 32 + 15], 103); // the order that was refused would have left 102
//! # Ok::<(), Answer>(())
//! ```
//!
//! # Visits as slices arrive
//!
//! What is not ready waits, and is asked for again once another was visited. In whatever order all
//! macroblocks arrive, this ends with the whole picture, and with the samples of raster order. A macroblock
//! may be shown once no later visit changes it; after a visit [`Picture::made_final`] tells of which
//! macroblocks that has become true. A whole station, which stores slices, derives strengths and shows what
//! is final, is `host/binding/examples/slices`.
//!
//! ```
//! use deblock::{Answer, Picture, Place, Size};
//!
//! /// Visits what has arrived as far as it is ready; the rest goes on waiting.
//! fn visit_ready(picture: &mut Picture, waiting: &mut Vec<Place>) -> Result<(), Answer> {
//!     let mut before = usize::MAX;
//!     while waiting.len() < before {
//!         before = waiting.len();
//!         for at in std::mem::take(waiting) {
//!             match picture.visit(at) {
//!                 Answer::NotReady => waiting.push(at),
//!                 Answer::MarkedAlready => {} // its slice has come twice: its samples are not stored again
//!                 answer => answer.ok()?,
//!             }
//!         }
//!     }
//!     Ok(())
//! }
//!
//! let size = Size { w: 3, h: 2 };
//! let n = size.macroblocks();
//! let luma: Vec<u8> = (0..256 * n).map(|i| 60 + (i / 4 % 8) as u8).collect();
//! let (mut by_visits, mut whole) = (luma.clone(), luma);
//! let mut picture = Picture {
//!     size,
//!     luma: &mut by_visits,
//!     u: &mut vec![90; 64 * n],
//!     v: &mut vec![90; 64 * n],
//!     strengths: &mut vec![3; 32 * n],
//!     qps: &vec![40; n],
//!     marks: &mut vec![0; n],
//!     ..Picture::default()
//! };
//! let (upper, lower): (Vec<Place>, Vec<Place>) = size.places().partition(|at| at.y == 0);
//! let mut waiting = lower.clone(); // the slice of the lower row comes first
//! visit_ready(&mut picture, &mut waiting)?;
//! assert_eq!(waiting, lower);
//! waiting.extend([upper, lower].concat());
//! visit_ready(&mut picture, &mut waiting)?;
//! assert!(waiting.is_empty());
//!
//! picture.luma = &mut whole;
//! picture.whole().ok()?;
//! assert!(by_visits == whole);
//! # Ok::<(), Answer>(())
//! ```
//!
//! # Fields
//!
//! A field is a picture of its own on every second line of the frame's planes. `size` is that of the field,
//! so the planes, which are the frame's, have twice the usual lengths; strengths, QPs, flags and marks are
//! lent per field, and in its grids a reference names a field. The two fields of a frame share planes and
//! nothing else, so their macroblocks may arrive mixed.
//!
//! ```
//! use deblock::{Answer, Part, Picture, Place, Size};
//!
//! struct Field {
//!     part: Part,
//!     strengths: Vec<u8>,
//!     qps: Vec<u8>,
//!     marks: Vec<u8>,
//! }
//!
//! let size = Size { w: 1, h: 2 }; // of a field: the frame has 64 lines of 16 samples
//! let n = size.macroblocks();
//! let [mut luma, mut u, mut v] = [512 * n, 128 * n, 128 * n].map(|len| vec![90; len]);
//! luma[32 * 16..].fill(96); // a step above line 32, which is line 16 of the top field
//! let field = |part, qp| Field { part, strengths: vec![3; 32 * n], qps: vec![qp; n], marks: vec![0; n] };
//! let mut fields = [field(Part::TopField, 40), field(Part::BottomField, 10)];
//! for (f, y) in [(1, 0), (0, 0), (0, 1), (1, 1)] {
//!     let Field { part, strengths, qps, marks } = &mut fields[f];
//!     let (part, luma, u, v) = (*part, &mut luma, &mut u, &mut v);
//!     let mut picture = Picture { size, part, luma, u, v, strengths, qps, marks, ..Picture::default() };
//!     picture.visit(Place { x: 0, y }).ok()?;
//! }
//! let column: Vec<u8> = luma.chunks(16).map(|line| line[0]).collect();
//! // the top field's lines 28, 30 | 32, 34 are smoothed; those of the bottom field, at QP 10, stay
//! assert_eq!(column[28..36], [91, 90, 92, 90, 94, 96, 94, 96]);
//! # Ok::<(), Answer>(())
//! ```
//!
//! # Slices with settings of their own
//!
//! Where slices switch the filter off, or have offsets A and B of their own, a picture is lent a table with a
//! record of each slice and for each macroblock the number of its slice, and is filtered by `whole_slices`,
//! `rows_slices` and `visit_slices`. `offsets.a` and `offsets.b` do not count there. An edge is filtered as
//! the macroblock to its right or below it says. An empty table does not mean one slice: every number is
//! outside it.
//!
//! ```
//! use deblock::{Answer, Picture, Size, SliceRecord};
//!
//! let [on, off, within] = [0, 1, 2].map(|mode| SliceRecord { mode, a: 0, b: 0 });
//! let size = Size { w: 3, h: 1 };
//! let level = |x: usize| 90 + 6 * (x / 8 % 2) as u8; // a step every eight samples
//! let filtered = |slices: &[SliceRecord]| -> Result<Vec<usize>, Answer> {
//!     let mut luma: Vec<u8> = (0..768).map(|i| level(i % 48)).collect();
//!     let mut picture = Picture {
//!         size,
//!         luma: &mut luma,
//!         u: &mut [90; 192],
//!         v: &mut [90; 192],
//!         strengths: &mut [3; 96],
//!         qps: &[40; 3],
//!         slices,
//!         slice_numbers: &[0, 1, 2],
//!         ..Picture::default()
//!     };
//!     picture.whole_slices().ok()?;
//!     Ok((4..48).step_by(4).filter(|&x| luma[x] != level(x)).collect())
//! };
//! assert_eq!(filtered(&[on, on, on])?, [8, 16, 24, 32, 40]);
//! assert_eq!(filtered(&[on, off, on])?, [8, 32, 40]); // the edge at 32 is the third macroblock's
//! assert_eq!(filtered(&[on, within, within])?, [8, 24, 40]);
//! assert_eq!(filtered(&[on, within]), Err(Answer::BadSliceNumber));
//! # Ok::<(), Answer>(())
//! ```
//!
//! # What holds of every call
//!
//! - A refused call has changed nothing that it was lent. Whatever the buffers hold and however long they
//!   are, a call ends and answers.
//! - No call allocates, waits, takes a lock, or keeps what it was lent. The archive has no state of its own.
//! - So the calls are re-entrant, and pictures on several threads may be filtered at the same time; a
//!   `Picture` is `Send` and `Sync`. No call is made on a picture while another writes it, since what writes
//!   borrows the picture mutably.
//!
//! # How to link
//!
//! Name this folder as a dependency: `deblock = { path = "../deblock/host/binding" }`. The archive is
//! `target/staticlib/libdeblock.a` of the repository, which `host/native-staticlib deblock_c
//! target/staticlib/libdeblock.a` writes there. `DEBLOCK_ARCHIVE=FILE` in the environment of cargo names
//! another, by its whole path. No other library is needed.

#![deny(missing_docs)]

mod answer;
mod finals;
mod lent;
mod picture;
pub mod y4m;
// One line a grid, as in the C declarations, is easier to check by eye.
#[rustfmt::skip]
pub mod wire;

pub use answer::Answer;
pub use finals::Finals;
pub use lent::{Flags, Grids, Kind, Offsets, Part, Place, Size, SliceRecord};
pub use picture::Picture;
