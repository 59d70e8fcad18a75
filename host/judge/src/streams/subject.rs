//! What is judged: the archive's four calls about streams, or a reader and writer that stand in their place.

use super::ask::{Ask, Call, Reply};
use crate::subject::Archive;
use deblock::{wire, Size};

pub trait Streams {
    /// Makes the call on the memory that is lent, and gives what it answers.
    fn call(&self, a: &mut Ask) -> Reply;
}

/// Between guard elements and fences in turn, as the calls on pictures are made.
impl Streams for Archive {
    fn call(&self, a: &mut Ask) -> Reply {
        let side = self.next_side();
        let mut fences = self.fences();
        let [f0, f1, f2, f3, ..] = &mut *fences;
        let mut stream = f0.lend(&mut a.stream, side);
        let mut luma = f1.lend(&mut a.luma, side);
        let (mut u, mut v) = (f2.lend(&mut a.u, side), f3.lend(&mut a.v, side));
        let size = Size { w: a.w, h: a.h };
        let found = |y: wire::Y4m| Reply { number: y.answer, w: y.w as usize, h: y.h as usize, length: 0 };
        match a.call {
            Call::Look => found(wire::y4m_look(&stream)),
            Call::Read => found(wire::y4m_read(&stream, &mut luma, &mut u, &mut v)),
            Call::Length => Reply::length(wire::y4m_length(size)),
            Call::Write => Reply::refused(wire::y4m_write(size, &luma, &u, &v, &mut stream)),
        }
    }
}
