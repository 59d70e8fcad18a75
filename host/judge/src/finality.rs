//! What is final: the archive's two calls beside the rule written down on its own, every answer and every
//! lent byte, and in the course of visits beside the samples themselves.

mod ask;
mod cases;
mod mistakes;
mod model;
mod refusals;
mod rule;
mod session;
mod shrink;
mod subject;
mod watch;

pub use mistakes::all_caught;
pub use rule::Rule;
pub use session::Session;
pub use subject::Finality;
pub use watch::Watch;

use crate::rounds::Depth;
use crate::session::Outcome;
use inputs::Rng;

/// All numbers that a call about what is final may answer, 0 first.
pub const NUMBERS: [u32; 5] = [0, 1, 2, 4, 7];

/// All the exhaustive runs, which are the same each time.
pub fn small(s: &mut Session) -> Outcome {
    cases::run(s)
}

/// The part of a round that is about what is final, beside its visits: all of it fixed by one seed.
pub fn round(s: &mut Session, seed: u64, depth: Depth) -> Outcome {
    let times = |n: usize| if depth == Depth::Full { n } else { n / 8 };
    let mut r = Rng::new(seed ^ u64::from_be_bytes(*b"finality"));
    for _ in 0..times(8) {
        refusals::every_pair(s, &mut r)?;
    }
    for _ in 0..times(8000) {
        refusals::spoiled(s, &mut r)?;
    }
    for _ in 0..times(2000) {
        refusals::unread(s, &mut r, 12)?;
    }
    for _ in 0..times(16) {
        refusals::unread(s, &mut r, 4000)?;
    }
    Ok(())
}
