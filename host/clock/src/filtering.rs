//! The clock of filtering: whole pictures of 720 by 576 through the archive and through the Rust original.
//!
//! Both are optimised builds. Each picture is filtered in every way, one after the other, in turn first; its
//! planes are copied and strengths converted before the clock starts; the clock is the thread's CPU time,
//! which other programs on the machine do not add to. What counts is the ratio of two times on the SAME
//! picture, and its median over all pictures: a machine whose pace drifts during the run moves both times of
//! a picture and hardly their ratio. The filtered planes are compared as well. A frame as two fields, which
//! the original cannot filter, is timed beside the original's whole frame, without a bound. So are visits
//! with the question after each what it has made final, beside visits alone, the archive's whole picture with
//! two chroma offsets, beside its own with one for both planes, and its calls with slices, beside its plain
//! ones: slices of mode 0 with offsets 0, so that what is filtered is the same.

mod picture;
mod ways;

use crate::bounds::{are_within, told};
use crate::samples::{counted, median};
use crate::{H, W};
use inputs::{Content, Rng, Texture};
use picture::Picture;
use std::process::ExitCode;
use ways::Way;

/// What is timed, and the most that the whole-picture call and visits to all its macroblocks may take of the
/// original's time. docs/SPEED.md, "As quick as hand-written assembler", says how they were set.
const SUBJECTS: [Subject; 4] = [
    Subject { name: "intra", content: Content::Intra, look: CODED, bound: 0.22, visits: 0.28 },
    Subject { name: "mixed", content: Content::Mixed, look: CODED, bound: 0.23, visits: 0.29 },
    Subject { name: "still", content: Content::Still, look: CODED, bound: 0.38, visits: 0.62 },
    Subject { name: "noisy", content: Content::Intra, look: NOISY, bound: 0.22, visits: 0.28 },
];

/// Levels of 4x4 blocks up to 4 off either way, as quantising leaves them; and noise, of which no branch can
/// foresee which lines pass the thresholds. Each picture gets a base of its own.
const CODED: Texture = Texture { step: 4, noise: 1, base: 0 };
const NOISY: Texture = Texture { step: 10, noise: 20, base: 0 };

struct Subject {
    name: &'static str,
    content: Content,
    look: Texture,
    bound: f64,
    visits: f64,
}

/// Times all of them; whether every ratio is within its bound is the exit status.
pub fn clock(pictures: usize) -> ExitCode {
    println!("{pictures} pictures of {} by {} of each content, CPU time in microseconds a picture", 16 * W, 16 * H);
    println!(
        "                 whole    of the Rust's time, bound   visits, of the Rust's, bound   of the whole's      two fields,  raster, asked,"
    );
    println!(
        "          Rust  picture      whole picture           raster   wavefront           raster  wavefront  of the Rust's     of raster's"
    );
    let within = are_within(&SUBJECTS, |subject| subject.clock(pictures));
    println!("mixed, whole picture, chroma offsets 1 and -1: {:.3} of its time with 0 and 0", two_offsets(pictures));
    told(within)
}

impl Subject {
    /// Times it; whether all is within the bounds.
    fn clock(&self, pictures: usize) -> bool {
        let mut r = Rng::new(13 + self.content as u64);
        let times = counted(pictures, |turn| Picture::new(&mut r, self.content, self.look).times(turn));
        let over = |a: Way, b: Way| median(times.iter().map(|t| t[a as usize] / t[b as usize]).collect());
        let micros = |a: Way| 1e6 * median(times.iter().map(|t| t[a as usize]).collect());
        let [whole, raster, wavefront] = [Way::Whole, Way::Raster, Way::Wavefront].map(|way| over(way, Way::Original));
        println!(
            "{:<6}{:>8.0}{:>9.0}{whole:>12.3}{:>8.2}{raster:>17.3}{wavefront:>12.3}{:>7.2}{:>10.2}{:>11.2}{:>15.3}{:>16.3}",
            self.name,
            micros(Way::Original),
            micros(Way::Whole),
            self.bound,
            self.visits,
            over(Way::Raster, Way::Whole),
            over(Way::Wavefront, Way::Whole),
            over(Way::Fields, Way::Original),
            over(Way::Asked, Way::Raster),
        );
        let whole_by = [Way::WholeByOne, Way::WholeByRows];
        let [one, rows] = whole_by.map(|way| over(way, Way::Original));
        let [one_plain, rows_plain] = whole_by.map(|way| over(way, Way::Whole));
        let visits = [Way::RasterByOne, Way::RasterByRows, Way::RasterByMany].map(|way| over(way, Way::Raster));
        println!(
            "      by 1 and by 36 slices, whole picture: {one:.3} and {rows:.3} of the Rust's, \
             {one_plain:.3} and {rows_plain:.3} of the plain call's"
        );
        println!(
            "      by tables of 1, 36 and 300 records, raster: {:.3}, {:.3} and {:.3} of the plain visits'",
            visits[0], visits[1], visits[2]
        );
        whole <= self.bound && raster.max(wavefront) <= self.visits
    }
}

/// The archive's whole picture with two chroma offsets, over that with one: about as much is filtered.
fn two_offsets(pictures: usize) -> f64 {
    let mut r = Rng::new(13);
    let times = |turn| Picture::new(&mut r, Content::Mixed, CODED).chroma_times([[1, -1], [0, 0]], turn);
    median(counted(pictures, times).into_iter().map(|[two, one]| two / one).collect())
}
