//! The clock of the strength calls: every macroblock of pictures of 720 by 576 through the archive and
//! through the Rust original.
//!
//! As in filtering the clock is the thread's CPU time, both sides take the SAME picture, in turn first, and
//! what counts is the median of the ratios. Each call is told what is true of a macroblock. Conversions are
//! made before the clock starts, and memory is allocated: the original writes its own types, which become
//! bytes and are compared after the clock has stopped.
//!
//! The original's call by kind takes no 8x8 flag. Where one is set it is timed as without, and what it leaves
//! on edges 1 and 3, where the rules have 0, is not compared.

mod calls;
mod contents;
mod grids;
mod motion;

use crate::bounds::{are_within, told};
use crate::samples::{counted, median};
use crate::{H, W};
use calls::{Call, Lent};
use contents::{Content, CONTENTS};
use grids::Grids;
use inputs::Rng;
use std::process::ExitCode;

/// Times all contents; whether every ratio is within its bound is the exit status.
pub fn clock(pictures: usize) -> ExitCode {
    println!("{pictures} pictures of {} by {} of each content, CPU time in nanoseconds a macroblock", 16 * W, 16 * H);
    println!("kinds, row: by the row call with kinds and with nothing known, beside the Rust's of each macroblock");
    let heads = ["the Rust's", "the archive's", "of the Rust's time", "bound"];
    line("", heads.map(|head| format!("{head:>35}")));
    line("", [(); 4].map(|()| cells(["kind", "flags", "plain", "kinds", "row"].map(String::from))));
    told(are_within(&CONTENTS, |content| row(content, pictures)))
}

/// Times a content; whether all is within the bounds.
fn row(content: &Content, pictures: usize) -> bool {
    let mut r = Rng::new(13);
    let times = counted(pictures, |turn| {
        let lent = Lent::new(Grids::new(&mut r, content));
        Call::ALL.map(|call| call.times(&lent, turn))
    });
    let of_calls = |what: fn([f64; 2]) -> f64| {
        Call::ALL.map(|call| median(times.iter().map(|calls| what(calls[call as usize])).collect()))
    };
    let theirs = of_calls(|[_, original]| 1e9 * original).map(|time| format!("{time:.1}"));
    let ours = of_calls(|[archive, _]| 1e9 * archive).map(|time| format!("{time:.1}"));
    let ratios = of_calls(|[archive, original]| archive / original);
    let [ratios_shown, bounds] = [ratios, content.bounds].map(|of_calls| of_calls.map(|ratio| format!("{ratio:.2}")));
    line(content.name, [theirs, ours, ratios_shown, bounds].map(cells));
    content.is_within(ratios)
}

/// One for each call.
fn cells(of_calls: [String; 5]) -> String {
    of_calls.map(|cell| format!("{cell:>7}")).concat()
}

fn line(name: &str, [theirs, ours, ratios, bounds]: [String; 4]) {
    println!("{name:<21}{theirs} {ours}{ratios}{bounds}");
}
