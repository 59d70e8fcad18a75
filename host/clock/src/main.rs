//! The clock: the proved archive beside the Rust original, in filtering and in deriving strengths.

mod bounds;
mod cpu_time;
mod filtering;
mod samples;
mod strengths;

use deblock::Size;
use std::process::ExitCode;

/// 720 by 576 in macroblocks.
const W: usize = 45;
const H: usize = 36;
const SIZE: Size = Size { w: W, h: H };

const HELP: &str = "clock [PICTURES]: the proved archive against the Rust original on pictures of 720 by 576
with stored strengths, PICTURES of each content (300 or more; 300 without). Ratios are medians over the
pictures, each of two times on one picture. Exit status 0: every ratio to the original is within its bound;
a content that is above is timed again, up to three times, since other machines may disturb this one.
That of two fields, to the original's whole frame of the same samples, has none, nor has that of visits in
raster order with the question after each what it has made final, to these visits alone, nor that of two
chroma offsets, to the archive's own whole picture with one, nor those of calls with slices of mode 0.

clock strengths [PICTURES]: the four strength calls likewise, on every macroblock of such pictures, PICTURES
of each content (20 or more; 100 without), with a bound for each call, and tries and exit status as above. The
row call is timed by kinds and with nothing known, beside the original's call of each macroblock of the row.
Calls by kind on intra macroblocks, of which the original copies a constant, have no bound. Where 8x8 flags
are lent the original's call by kind, which takes no flag, is timed without.";

/// What is run, of how many pictures without a word, and of how many at least.
struct Clock {
    run: fn(usize) -> ExitCode,
    usual: usize,
    least: usize,
}

const FILTERING: Clock = Clock { run: filtering::clock, usual: 300, least: 300 };
const STRENGTHS: Clock = Clock { run: strengths::clock, usual: 100, least: 20 };

fn main() -> ExitCode {
    let words: Vec<String> = std::env::args().skip(1).collect();
    let (Clock { run, usual, least }, words) = match &words[..] {
        [first, rest @ ..] if first == "strengths" => (STRENGTHS, rest),
        all => (FILTERING, all),
    };
    let pictures = match words {
        [] => Some(usual),
        [n] => n.parse().ok().filter(|&n| n >= least),
        _ => None,
    };
    let Some(pictures) = pictures else {
        eprintln!("{HELP}");
        return ExitCode::from(2);
    };
    run(pictures)
}
