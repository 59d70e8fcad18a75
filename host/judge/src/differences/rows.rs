//! A row of the table by refusal number, and what its entries share: claims and requests.

use super::{edge, inter, original, picture, strengths, Claim, Seen};
use crate::original::lent;
use crate::request::{Call, Request};
use crate::table;
use deblock::SliceRecord;
use oracle::Blocks;

/// Inputs that are refused with the number `no`: each is `base`, which is taken, after one of `spoils`.
pub struct Row {
    pub no: u32,
    pub input: &'static str,
    pub base: fn() -> Request,
    pub spoils: &'static [fn(&mut Request)],
    pub rust: Rust,
}

pub enum Rust {
    /// No value of the original's types is this input, or it has no such call; why.
    CannotBeLent(&'static str),
    Does(&'static [Claim]),
    /// In a build without debug assertions; one with them panics.
    DoesInRelease(&'static [Claim]),
}

pub const NO_VISITS: Rust = Rust::CannotBeLent("it has no visits");
pub const NO_ROWS: Rust = Rust::CannotBeLent("it has no call for the strengths of a row");
pub const NO_FIELDS: Rust = Rust::CannotBeLent("it has no field pictures");
pub const NO_SLICES: Rust = Rust::CannotBeLent("it has no slices");
pub const NOTHING: Claim = ("does nothing", Seen::nothing);
pub const PANICS: Claim = ("panics", Seen::panics);
pub const ALL_0: Claim = ("all 0", |seen| seen.own == Some([0; 32]));
pub const INNER_3: Claim = ("0 on the outer and 3 on the inner edges", |seen| seen.own == Some(strengths(0, 3)));
pub const EACH_ALONE: Claim = ("filters each macroblock as a lone one", each_alone);

/// One entry of the table, in the order in which it is read.
pub const fn row(
    no: u32,
    input: &'static str,
    base: fn() -> Request,
    spoils: &'static [fn(&mut Request)],
    rust: Rust,
) -> Row {
    Row { no, input, base, spoils, rust }
}

pub fn with(mut q: Request, change: impl FnOnce(&mut Request)) -> Request {
    change(&mut q);
    q
}

pub fn frame() -> Request {
    picture(1, 1)
}

pub fn two() -> Request {
    picture(2, 1)
}

/// The picture on its side, with this strength on horizontal edge 2.
pub fn turned(strength: u8) -> Request {
    let turn = |plane: &[u8], side: usize| -> Vec<u8> {
        (0..side * side).map(|i| plane[i % side * side + i / side]).collect()
    };
    with(frame(), |q| {
        (q.luma, q.u, q.v) = (turn(&q.luma, 16).into(), turn(&q.u, 8).into(), turn(&q.v, 8).into());
        q.strengths = edge(6, strength).to_vec().into();
    })
}

pub fn rows() -> Request {
    with(frame(), |q| (q.call, q.last) = (Call::Rows, 1))
}

/// The picture by one slice of mode 0.
pub fn one_slice() -> Request {
    with(frame(), |q| {
        (q.sliced, q.slices, q.numbers) = (true, vec![SliceRecord::default()].into(), vec![0].into());
    })
}

pub fn visit() -> Request {
    with(frame(), |q| (q.call, q.marks) = (Call::Visit, vec![0].into()))
}

pub fn flagless() -> Request {
    inter(Call::Flagless, 1, 1)
}

pub fn flags() -> Request {
    inter(Call::Flags, 1, 1)
}

pub fn kind(kind: u8) -> Request {
    with(inter(Call::Kind, 1, 1), |q| q.kind = kind)
}

/// The strengths of the row of two macroblocks, by kind.
pub fn strengths_row() -> Request {
    with(inter(Call::StrengthsRow, 2, 1), |q| q.kinds = vec![3; 2].into())
}

/// The macroblock to the right of another one.
pub fn beside() -> Request {
    inter(Call::Flagless, 2, 1)
}

/// The macroblock under another one.
pub fn below() -> Request {
    inter(Call::Flagless, 1, 2)
}

/// References 0 and vectors (4, 4) in both lists.
pub fn two_lists() -> Request {
    with(flagless(), |q| {
        (q.ref1, q.mv0, q.mv1) = (vec![0; 16].into(), vec![4; 32].into(), vec![4; 32].into());
    })
}

/// Both lists there, no reference used.
pub fn no_references() -> Request {
    with(two_lists(), |q| [&mut q.ref0, &mut q.ref1].into_iter().for_each(|list| list.fill(-1)))
}

/// Index 0 in block 0 and 1 elsewhere, both picture 7; with no list 1 and no table for it.
pub fn two_indices() -> Request {
    with(flagless(), |q| {
        q.ref0[1..].fill(1);
        q.pictures0 = vec![7; 2].into();
    })
}

/// Of two lists indices 0 and 1 in block 0 and 1 and 0 elsewhere, by two tables 1, 0: pictures 0 and 1
/// everywhere.
pub fn crossed_indices() -> Request {
    with(two_lists(), |q| {
        q.ref0[1..].fill(1);
        q.ref1[0] = 1;
        q.tables().into_iter().for_each(|table| *table = vec![1, 0].into());
    })
}

/// Both lists and their tables there, no reference used, and in block 0 other vectors than elsewhere.
pub fn unused_tables() -> Request {
    with(no_references(), |q| {
        [&mut q.mv0, &mut q.mv1].into_iter().for_each(|list| list[..2].fill(0));
        q.tables().into_iter().for_each(|table| *table = vec![7].into());
    })
}

/// Cuts or fills the lists to 16 blocks; a missing last one gets this reference and this motion.
pub fn whole_lists(q: &mut Request, reference: i8, motion: i16) {
    [&mut q.ref0, &mut q.ref1].into_iter().for_each(|list| list.resize(16, reference));
    [&mut q.mv0, &mut q.mv1].into_iter().for_each(|list| list.resize(32, motion));
}

pub fn whole_chroma(q: &mut Request) {
    [&mut q.u, &mut q.v].into_iter().for_each(|plane| plane.resize(64, 60));
}

/// The inter bytes of the blocks that are read to the left and above.
pub fn neighbours(q: &mut Request, value: u8) {
    let [_, left, above] = table::blocks_read(q);
    left.into_iter().chain(above).for_each(|i| q.inter[i] = value);
}

/// The two segments between block 0 and the blocks to its right and below; all other strengths are 0.
pub fn around_block_0(s: u8) -> [u8; 32] {
    std::array::from_fn(|i| if i == 4 || i == 20 { s } else { 0 })
}

/// The original's flagless strengths without `poc0` and `poc1`.
pub fn unlisted(q: &Request) -> [u8; 32] {
    Blocks::new(q.w, lent(q)).without_lists().flagless(q.x, q.y, false)
}

/// Every macroblock of a picture of equal ones is as the original leaves a lone one.
pub fn each_alone(seen: &Seen) -> bool {
    let lone = original(&frame()).after;
    let pairs = [(&seen.after.luma, &lone.luma, 16), (&seen.after.u, &lone.u, 8), (&seen.after.v, &lone.v, 8)];
    let wide = seen.before.w;
    let alike = pairs.into_iter().all(|(all, one, side)| {
        all.iter().enumerate().all(|(i, &s)| s == one[i / (side * wide) % side * side + i % side])
    });
    seen.ended && !seen.luma_stays() && alike
}
