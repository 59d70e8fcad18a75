//! The strength calls, the archive's and the original's, over all macroblocks of a picture. The original has
//! none of a row: beside ours it is asked for each macroblock.

use super::grids::{is_8x8, Grids};
use crate::cpu_time::timed;
use crate::{H, SIZE, W};
use deblock::{Flags, Kind, Place};
use oracle::probed::probe::{derive_flags_into, Edges};
use oracle::probed::{derive_mb, derive_mb_kind, BlockInfo, MbBs, MbKind};
use std::hint::black_box;

/// How often a picture is passed over within a clock: once, the quickest call takes a few microseconds.
const PASSES: usize = 8;

#[derive(Clone, Copy, Debug)]
pub enum Call {
    Kind,
    Flags,
    /// Nothing is known.
    Plain,
    /// A row by kinds.
    RowByKinds,
    /// A row of which nothing is known.
    Row,
}

/// A picture as both sides are lent it, and what the calls are told of its macroblocks.
pub struct Lent {
    grids: Grids,
    flags: Vec<Flags>,
    blocks: oracle::Blocks,
    kinds: Vec<MbKind>,
    t8s: Vec<bool>,
}

impl Lent {
    pub fn new(grids: Grids) -> Lent {
        Lent {
            flags: grids.kinds.iter().map(|&kind| flags(kind)).collect(),
            blocks: grids.converted(),
            kinds: grids.kinds.iter().map(|&kind| MbKind::from_u8(kind as u8).expect("the same four")).collect(),
            t8s: (0..W * H).map(|m| is_8x8(&grids.t8s, m)).collect(),
            grids,
        }
    }
}

/// The flags that are true of a macroblock of which no kind that says more is true.
fn flags(kind: Kind) -> Flags {
    Flags { flat: kind == Kind::Skip, uniform: matches!(kind, Kind::Skip | Kind::InterUniform) }
}

impl Call {
    pub const ALL: [Call; 5] = [Call::Kind, Call::Flags, Call::Plain, Call::RowByKinds, Call::Row];

    /// The seconds a macroblock of the archive and of the original; `turn` says which comes first.
    pub fn times(self, lent: &Lent, turn: usize) -> [f64; 2] {
        let sides: [Side; 2] = [archive, original];
        let mut outcomes = [(0.0, Vec::new()), (0.0, Vec::new())];
        for i in [turn % 2, (turn + 1) % 2] {
            outcomes[i] = sides[i](self, lent);
        }
        let [(archive, ours), (original, theirs)] = outcomes;
        assert!(ours == theirs, "{self:?} differs: run the judge");
        [archive, original]
    }
}

/// Answers the seconds a macroblock, and the strengths of all, which are written over bytes that are none.
type Side = fn(Call, &Lent) -> (f64, Vec<u8>);

fn archive(call: Call, lent: &Lent) -> (f64, Vec<u8>) {
    let mut strengths = vec![9; 32 * W * H];
    let Lent { grids: Grids { kinds, t8s, .. }, flags, .. } = lent;
    let mut p = deblock::Picture { size: SIZE, strengths: &mut strengths, t8s, ..deblock::Picture::default() };
    let grids = lent.grids.lent();
    let time = match call {
        Call::Kind => passes(|m, at| assert!(p.derive_by_kind(grids, at, kinds[m]).is_done())),
        Call::Flags => passes(|m, at| assert!(p.derive_by_flags(grids, at, flags[m]).is_done())),
        Call::Plain => passes(|_, at| assert!(p.derive(grids, at).is_done())),
        Call::RowByKinds => row_passes(|y| assert!(p.derive_row(grids, y, kinds).is_done())),
        Call::Row => row_passes(|y| assert!(p.derive_row(grids, y, &[]).is_done())),
    };
    (time, strengths)
}

/// The original writes its own types. It is called by pointers of which the compiler knows nothing, so that
/// no function is inlined and made for what it is lent here, and no pass is left out.
fn original(call: Call, lent: &Lent) -> (f64, Vec<u8>) {
    let Lent { blocks, flags, kinds, t8s, .. } = lent;
    let info = &blocks.info();
    let mut packed = vec![MbBs::UNSET; W * H];
    let mut edges: Vec<Edges> = vec![[[[9; 4]; 4]; 2]; W * H];
    match call {
        Call::Kind | Call::RowByKinds => {
            let derive = black_box::<fn(&BlockInfo, usize, usize, MbKind) -> MbBs>(derive_mb_kind);
            let time = passes(|m, at| packed[m] = derive(info, at.x, at.y, kinds[m]));
            packed.iter_mut().zip(t8s).filter(|(_, t8)| **t8).for_each(|(own, _)| without_4x4_edges(own));
            (time, bytes(&packed))
        }
        Call::Flags => {
            let derive = black_box::<fn(&BlockInfo, usize, usize, [bool; 2], bool, &mut Edges)>(derive_flags_into);
            let told = |m: usize| [flags[m].flat, flags[m].uniform];
            let time = passes(|m, at| derive(info, at.x, at.y, told(m), t8s[m], &mut edges[m]));
            let strengths = edges.into_iter().flatten().flatten().flatten();
            (time, strengths.map(|strength| strength.try_into().expect("at most 4")).collect())
        }
        Call::Plain | Call::Row => {
            let derive = black_box::<fn(&BlockInfo, usize, usize, bool) -> MbBs>(derive_mb);
            let time = passes(|m, at| packed[m] = derive(info, at.x, at.y, t8s[m]));
            (time, bytes(&packed))
        }
    }
}

/// As the rules have it under an 8x8 flag, which the original's call by kind does not take.
fn without_4x4_edges(own: &mut MbBs) {
    [own.v[1], own.v[3], own.h[1], own.h[3]] = [[0; 4]; 4];
}

fn bytes(packed: &[MbBs]) -> Vec<u8> {
    packed.iter().flat_map(|m| [m.v, m.h]).flatten().flatten().collect()
}

/// The seconds a macroblock, in raster order, of which `derive` is told index and place.
fn passes(mut derive: impl FnMut(usize, Place)) -> f64 {
    row_passes(|y| (0..W).for_each(|x| derive(y * W + x, Place { x, y })))
}

/// The same, of which `derive` is told the row.
fn row_passes(mut derive: impl FnMut(usize)) -> f64 {
    timed(|| (0..PASSES).for_each(|_| (0..H).for_each(&mut derive))) / (PASSES * W * H) as f64
}

#[cfg(test)]
mod tests;
