//! From a stream that fails to one that a person can read: fewer bytes, then plainer ones, as long as it
//! fails.

use super::ask::{Ask, Call};
use std::time::{Duration, Instant};

/// How long to look for a smaller case.
const PATIENCE: Duration = Duration::from_secs(10);

/// The smallest case found that still fails.
pub fn smallest(a: &Ask, fails: impl Fn(&Ask) -> bool) -> Ask {
    let mut search = Search { best: a.clone(), fails, end: Instant::now() + PATIENCE };
    if matches!(a.call, Call::Look | Call::Read) {
        search.fewer_bytes();
        search.plainer_bytes();
    }
    for i in 0..3 {
        search.attempt(|a| a.planes()[i].resize(0, 0));
        search.attempt(|a| a.planes()[i].fill(0));
    }
    search.best
}

struct Search<F> {
    best: Ask,
    fails: F,
    end: Instant,
}

impl<F: Fn(&Ask) -> bool> Search<F> {
    /// Leaves out runs of bytes: halves, quarters, down to single ones.
    fn fewer_bytes(&mut self) {
        let mut run = self.best.stream.len();
        while run > 0 {
            let mut from = 0;
            while from < self.best.stream.len() {
                let to = self.best.stream.len().min(from + run);
                if !self.attempt(|a| a.stream = [&a.stream[..from], &a.stream[to..]].concat().into()) {
                    from = to;
                }
            }
            run /= 2;
        }
    }

    /// A dot for each byte that need not be what it is.
    fn plainer_bytes(&mut self) {
        for i in 0..self.best.stream.len() {
            self.attempt(|a| a.stream[i] = b'.');
        }
    }

    fn attempt(&mut self, change: impl FnOnce(&mut Ask)) -> bool {
        if Instant::now() > self.end {
            return false;
        }
        let mut tried = self.best.clone();
        change(&mut tried);
        let fails = (self.fails)(&tried);
        if fails {
            self.best = tried;
        }
        fails
    }
}

#[cfg(test)]
mod tests {
    use super::*;

    /// A case that fails as long as a W stands well before a newline comes down to just these.
    #[test]
    fn shrinks_to_what_matters() {
        let a = Ask::of(b"YUV4MPEG2 W16 H16\nFRAME\n?????????".to_vec(), [256, 64, 64]);
        let fails = |a: &Ask| {
            let place = |byte| a.stream.iter().position(|b| *b == byte);
            place(b'W').zip(place(b'\n')).is_some_and(|(w, end)| w + 3 < end)
        };
        let small = smallest(&a, fails);
        assert_eq!(small.stream[..], *b"W...\n");
        assert_eq!(small.describe(), "Look w 0 h 0, luma 0, u 0, v 0 bytes, stream of 5 bytes: \"W...\\n\"");
    }
}
