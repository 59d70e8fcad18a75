//! What a recorder keeps of a residual: 4x4 blocks, transformed and rounded to multiples of a step.

/// The cosine transform of four samples; its rows have length 1.
const COSINES: [[f64; 4]; 4] = [
    [0.5, 0.5, 0.5, 0.5],
    [0.653_281_482_438_188_3, 0.270_598_050_073_098_5, -0.270_598_050_073_098_5, -0.653_281_482_438_188_3],
    [0.5, -0.5, -0.5, 0.5],
    [0.270_598_050_073_098_5, -0.653_281_482_438_188_3, 0.653_281_482_438_188_3, -0.270_598_050_073_098_5],
];

/// Coefficients this far below the next multiple still reach it, as encoders have it: a third for intra
/// pictures, and for predicted ones less; one choice here.
const ROUNDING: f64 = 1.0 / 3.0;

type Block = [f64; 16];

/// The residual of a plane as it can be sent at a QP, and for each 4x4 block whether any of it is left.
pub fn keep(residual: &[i16], width: usize, qp: u8) -> (Vec<i16>, Vec<bool>) {
    let mut kept = vec![0; residual.len()];
    let columns = width / 4;
    let blocks = residual.len() / 16;
    let mut coded = Vec::with_capacity(blocks);
    for block in 0..blocks {
        let corner = block / columns * 4 * width + block % columns * 4;
        let at = |i: usize| corner + i / 4 * width + i % 4;
        let coefficients =
            turn(std::array::from_fn(|i| f64::from(residual[at(i)])), false).map(|c| rounded(c, step(qp)));
        coded.push(coefficients.iter().any(|&c| c != 0.0));
        for (i, sample) in turn(coefficients, true).into_iter().enumerate() {
            kept[at(i)] = (sample + 0.5).floor() as i16;
        }
    }
    (kept, coded)
}

/// The step of a QP: it doubles every six (ITU-T H.264, clause 8.5).
fn step(qp: u8) -> f64 {
    let first = [0.625, 0.6875, 0.8125, 0.875, 1.0, 1.125];
    first[usize::from(qp % 6)] * f64::from(1 << (qp / 6))
}

fn rounded(coefficient: f64, step: f64) -> f64 {
    let multiple = (coefficient.abs() / step + ROUNDING).floor() * step;
    if coefficient < 0.0 {
        -multiple
    } else {
        multiple
    }
}

/// The transform of a block, or its inverse: of its columns, then of its rows.
fn turn(block: Block, back: bool) -> Block {
    let cosine = |i: usize, k: usize| if back { COSINES[k][i] } else { COSINES[i][k] };
    let columns: Block = std::array::from_fn(|n| (0..4).map(|k| cosine(n / 4, k) * block[4 * k + n % 4]).sum());
    std::array::from_fn(|n| (0..4).map(|k| columns[n / 4 * 4 + k] * cosine(n % 4, k)).sum())
}

#[cfg(test)]
mod tests {
    use super::*;

    #[test]
    fn the_inverse_turns_back() {
        let block: Block = std::array::from_fn(|i| ((i * 37) % 23) as f64);
        let again = turn(turn(block, false), true);
        assert!(block.iter().zip(again).all(|(a, b)| (a - b).abs() < 1e-9));
    }

    /// A level of 10 is a first coefficient of 40. At QP 28 the step is 16 and 40 lies just half way to 48:
    /// it falls to 32, a level of 8. One of 3 is 12, which reaches 16, a level of 4; one of 2 is lost.
    #[test]
    fn levels_in_steps() {
        let level = |n: i16| (keep(&[n; 16], 4, 28).0[5], keep(&[n; 16], 4, 28).1[0]);
        assert_eq!(step(28), 16.0);
        assert_eq!([level(10), level(3), level(2), level(-3)], [(8, true), (4, true), (0, false), (-4, true)]);
    }
}
