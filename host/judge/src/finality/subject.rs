//! What is judged: the archive's two calls about what is final, or a rule that stands in their place.

use super::ask::{Ask, Call, Reply};
use crate::subject::Archive;
use deblock::{wire, Place, Size};

pub trait Finality {
    /// Makes the call on the memory that is lent, and gives what it answers.
    fn call(&self, a: &mut Ask) -> Reply;
}

/// Between guard elements and fences in turn, as the calls on pictures are made.
impl Finality for Archive {
    fn call(&self, a: &mut Ask) -> Reply {
        let side = self.next_side();
        let (size, at) = (Size { w: a.w, h: a.h }, Place { x: a.x, y: a.y });
        let mut fences = self.fences();
        let marks = fences[0].lend(&mut a.marks, side);
        match a.call {
            Call::IsFinal => {
                let wire::Finality { answer, yes } = wire::is_final(size, at, &marks);
                Reply { number: answer, finals: [yes, 0, 0] }
            }
            Call::MadeFinal => {
                let wire::Finals { answer, own, left, upper } = wire::made_final(size, at, &marks);
                Reply { number: answer, finals: [own, left, upper] }
            }
        }
    }
}
