//! The times of many pictures: which of them count, and what they come to.

/// The first pictures warm the caches up and do not count.
const WARM: usize = 4;

/// What `time` finds for each picture that counts; it is told the picture's turn.
pub fn counted<T>(pictures: usize, time: impl FnMut(usize) -> T) -> Vec<T> {
    (0..pictures + WARM).map(time).skip(WARM).collect()
}

pub fn median(mut values: Vec<f64>) -> f64 {
    values.sort_by(f64::total_cmp);
    values[values.len() / 2]
}

#[cfg(test)]
mod tests {
    use super::*;

    /// A pace that drifts a hundredfold moves no ratio, and one picture that was disturbed moves no median.
    #[test]
    fn a_median_of_ratios() {
        let times = [[1.0, 4.0], [10.0, 40.0], [900.0, 400.0]];
        assert_eq!(median(times.map(|[a, b]| a / b).to_vec()), 0.25);
    }

    #[test]
    fn the_first_pictures_are_timed_and_do_not_count() {
        let mut turns = Vec::new();
        let counted = counted(3, |turn| turns.push(turn));
        assert_eq!((counted.len(), turns), (3, (0..3 + WARM).collect()));
    }
}
