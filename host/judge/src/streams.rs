//! YUV4MPEG2 streams: the archive's reader and writer beside an independent reading of what was asked for,
//! every answer and every lent byte.

mod ask;
mod damages;
mod edits;
mod mistakes;
mod model;
mod pieces;
mod refusals;
mod scanner;
mod scanner_lines;
mod scanner_writing;
mod session;
mod shrink;
mod sizes;
mod subject;
mod writes;

pub use mistakes::all_caught;
pub use session::Session;

use crate::make;
use crate::rounds::Depth;
use crate::session::Outcome;
use inputs::Rng;
use std::sync::LazyLock;

/// All numbers that a call about streams may answer, 0 first.
pub const NUMBERS: [u32; 7] = [0, 1, 3, 15, 16, 17, 18];

/// The numbers of macroblocks at the limits, and the station's own.
const LIMITS: [(usize, usize); 6] = [(256, 144), (1, 256), (256, 1), (144, 256), (192, 192), (45, 36)];

/// Samples, enough for the largest picture and some more.
static POOL: LazyLock<Vec<u8>> = LazyLock::new(|| {
    let mut r = Rng::new(4);
    (0..384 * 36_864 / 8 + 1024).flat_map(|_| r.bits().to_le_bytes()).collect()
});

/// All the exhaustive runs, which are the same each time.
pub fn small(s: &mut Session) -> Outcome {
    edits::run(s)?;
    sizes::run(s)?;
    let mut r = Rng::new(5);
    for _ in 0..16 {
        refusals::every_pair(s, &mut r)?;
        writes::every_pair(s, &mut r)?;
    }
    LIMITS.into_iter().try_for_each(|size| writes::again(s, "limits", &mut r, size))
}

/// The part of a round that is about streams: about a fifth of a second of random work, all of it fixed by
/// one seed. Every eighth round has a large picture.
pub fn round(s: &mut Session, seed: u64, depth: Depth) -> Outcome {
    let times = |n: usize| if depth == Depth::Full { n } else { n / 8 };
    let mut r = Rng::new(seed ^ u64::from_be_bytes(*b"streams."));
    for _ in 0..times(40_000) {
        refusals::spoiled(s, &mut r)?;
    }
    refusals::every_pair(s, &mut r)?;
    for _ in 0..times(16) {
        writes::every_pair(s, &mut r)?;
        let size = make::size(&mut r, 30);
        writes::again(s, "again", &mut r, size)?;
    }
    if depth == Depth::Full && seed.is_multiple_of(8) {
        writes::again(s, "limits", &mut r, LIMITS[(seed / 8) as usize % LIMITS.len()])?;
    }
    Ok(())
}
