//! Of 8x8 flags in strength calls: everything, where everything is few.

use crate::session::{Outcome, Session};
use crate::small::{ask_everywhere, kinds_picture, Thin, SIZES};

/// Every grid of flags of the four smallest sizes, and the empty one.
pub fn run(s: &mut Session, thin: &mut Thin, part: u8) -> Outcome {
    for (w, h) in SIZES {
        for code in 0..1 << (w * h) {
            let t8s: Vec<u8> = (0..w * h).map(|m| (code >> m & 1) as u8).collect();
            every_count(s, thin, (part, w, h), &t8s)?;
        }
        every_count(s, thin, (part, w, h), &[])?;
    }
    Ok(())
}

/// Of a picture of one motion, with a count in each block alone, in none and in all.
fn every_count(s: &mut Session, thin: &mut Thin, (part, w, h): (u8, usize, usize), t8s: &[u8]) -> Outcome {
    let flat = vec![2; w * h];
    let blocks = 16 * w * h;
    for counted in 0..blocks + 2 {
        if thin.takes() {
            let mut q = kinds_picture(part, w, h, &flat);
            q.t8s = t8s.to_vec().into();
            let all = counted == blocks + 1;
            q.nnz.iter_mut().enumerate().for_each(|(block, count)| *count = u8::from(all || block == counted));
            ask_everywhere(s, &mut q)?;
        }
    }
    Ok(())
}
