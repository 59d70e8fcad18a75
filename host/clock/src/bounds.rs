//! Bounds on ratios: how often what is above its own is timed again, and the exit status.

use std::process::ExitCode;

/// How often a content may be timed until it is within its bounds. A machine that others disturb can be above
/// them for some seconds; code that is too slow stays above.
const TRIES: usize = 3;

/// Whether all contents are within their bounds. `time` times one and tells; the next is timed in any case,
/// so that a run shows all that is above.
pub fn are_within<T>(contents: &[T], mut time: impl FnMut(&T) -> bool) -> bool {
    let within: Vec<bool> = contents.iter().map(|content| (0..TRIES).any(|_| time(content))).collect();
    within.iter().all(|&within| within)
}

/// Prints it, and answers the exit status that says so.
pub fn told(within: bool) -> ExitCode {
    println!("{}", if within { "every ratio within its bound" } else { "a ratio ABOVE its bound" });
    if within {
        ExitCode::SUCCESS
    } else {
        ExitCode::FAILURE
    }
}

#[cfg(test)]
mod tests {
    use super::*;

    /// The outcome for contents that are within their bounds from a try on, and how often each is timed.
    fn outcome<const N: usize>(first_within: [usize; N]) -> (bool, [usize; N]) {
        let mut timed = [0; N];
        let contents: [usize; N] = std::array::from_fn(|i| i);
        let within = are_within(&contents, |&i| {
            timed[i] += 1;
            timed[i] >= first_within[i]
        });
        (within, timed)
    }

    #[test]
    fn above_is_timed_three_times_at_most() {
        assert_eq!(outcome([1, 1]), (true, [1, 1]));
        assert_eq!(outcome([2, 1, 3]), (true, [2, 1, 3]));
        assert_eq!(outcome([4]), (false, [3]));
    }

    #[test]
    fn one_that_stays_above_fails_and_the_others_are_timed() {
        assert_eq!(outcome([1, usize::MAX, 2]), (false, [1, 3, 2]));
    }

    /// An ExitCode is not to be compared but by what it shows.
    #[test]
    fn above_is_exit_status_1() {
        let shown = [told(true), told(false)].map(|status| format!("{status:?}"));
        assert_eq!(shown, [ExitCode::from(0), ExitCode::from(1)].map(|status| format!("{status:?}")));
    }
}
