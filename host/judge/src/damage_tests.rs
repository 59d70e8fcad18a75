//! What must hold of damages, each with the number that it calls forth: shared by the tests of those modules
//! that have some. `answer` spoils something good in these ways, one after the other, and tells the number.

pub fn each_calls_its_number_forth<D: Copy>(damages: &[(u32, D)], mut answer: impl FnMut(&[D]) -> u32) {
    for (i, &(forth, damage)) in damages.iter().enumerate() {
        let mut hits = |_| answer(&[damage]) == forth;
        assert!((0..200).any(&mut hits), "damage {i} never gives {forth}");
    }
}

/// Of two damages the one that is asked first is the answer, made before the other or after it.
pub fn every_pair_meets<D: Copy>(damages: &[(u32, D)], order: &[u32], mut answer: impl FnMut(&[D]) -> u32) {
    let rank = |number: u32| order.iter().position(|n| *n == number);
    for &(a, one) in damages {
        for &(b, two) in damages {
            let first = if rank(a) <= rank(b) { a } else { b };
            let mut hits = |_| [[one, two], [two, one]].iter().any(|both| answer(both) == first);
            assert!((0..200).any(&mut hits), "{a} and {b} never give {first}");
        }
    }
}
