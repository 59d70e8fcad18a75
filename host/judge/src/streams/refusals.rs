//! Spoiled streams: every check alone, in pairs, and at random.

use super::damages::DAMAGES;
use super::pieces::{other, Pieces};
use super::session::Session;
use crate::session::Outcome;
use inputs::Rng;

/// One good stream, spoiled once and twice in every combination, in both orders.
pub fn every_pair(s: &mut Session, r: &mut Rng) -> Outcome {
    let good = Pieces::good(r, 3);
    s.look_and_read("refusals", good.ask())?;
    for (_, first) in DAMAGES {
        let mut once = good.clone();
        first(r, &mut once);
        s.look_and_read("refusals", once.ask())?;
        for (_, second) in DAMAGES {
            let mut twice = once.clone();
            second(r, &mut twice);
            s.look_and_read("refusals", twice.ask())?;
        }
    }
    Ok(())
}

/// A random stream, spoiled up to three times: quick, so that there are many.
pub fn spoiled(s: &mut Session, r: &mut Rng) -> Outcome {
    let mut p = Pieces::good(r, 2);
    for _ in 0..r.pick(&[0, 1, 1, 1, 2, 3]) {
        r.pick(&DAMAGES).1(r, &mut p);
    }
    if r.once_in(8) {
        p.header.push(other(r));
    }
    s.look_and_read("random", p.ask())
}

#[cfg(test)]
mod tests {
    use super::*;
    use crate::damage_tests::{each_calls_its_number_forth, every_pair_meets};
    use crate::streams::ask::{Ask, Call};
    use crate::streams::damages::Damage;
    use crate::streams::model;

    /// The order in which a reader asks.
    const ORDER: [u32; 5] = [15, 16, 17, 18, 3];

    fn number(p: &Pieces) -> u32 {
        model::answer(&mut Ask { call: Call::Read, ..p.ask() }).number
    }

    fn answer(r: &mut Rng, damages: &[Damage]) -> u32 {
        let mut p = Pieces::good(r, 3);
        assert_eq!(number(&p), 0);
        damages.iter().for_each(|damage| damage(r, &mut p));
        number(&p)
    }

    #[test]
    fn damages_call_their_numbers_forth() {
        let mut r = Rng::new(2);
        each_calls_its_number_forth(&DAMAGES, |damages| answer(&mut r, damages));
        every_pair_meets(&DAMAGES, &ORDER, |damages| answer(&mut r, damages));
    }
}
