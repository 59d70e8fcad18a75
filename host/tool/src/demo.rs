//! The demonstration: a film of a pipe joint, filtered by its recorder in raster order, by the library in
//! arrival orders, and as the old release did.

mod canvas;
mod drawing;
mod films;
mod recorder;
mod transform;
mod wall;

use crate::trouble::{self, Trouble};
use crate::y4m;
use deblock::Offsets;
use films::{Drift, Films, ORDERS, PICTURES};
use std::path::Path;

/// The strongest filter that a stream may ask for: slice_alpha_c0_offset_div2 and slice_beta_offset_div2 6.
const STRONGEST: Offsets = Offsets { a: 12, b: 12, chroma_u: 0, chroma_v: 0 };

/// Returns whether all arrival orders gave the recorder's pictures.
pub fn run(folder: &Path) -> Result<bool, Trouble> {
    let (w, h) = (wall::SIZE.w, wall::SIZE.h);
    println!(
        "A crawler passes a pipe joint with a fine crack: {PICTURES} pictures of {w} by {h} macroblocks. The first is
intra. Each other one is the last filtered picture, moved on, plus the residual that the recorder sent, which
was made against its own pictures. So an error stays until the next intra picture, and can grow.
"
    );
    let films = Films::new(STRONGEST);
    let drift = films.drift();
    let all = ORDERS * PICTURES as u64;
    println!(
        "The library visited each picture in {ORDERS} arrival orders, {} visits refused as not ready and made again
later: {} of {all} pictures are equal to the recorder's, sample for sample.
",
        films.refused, films.equal
    );
    tell(&drift);
    write(folder, &films, &drift)?;
    Ok(films.equal == all)
}

/// Prints how the old release's film goes away from the recorder's.
fn tell(drift: &[Drift]) {
    println!(
        "The old release did not wait for the upper right neighbour, and could go down the columns:
  picture   samples that differ   by at most"
    );
    for (n, d) in drift.iter().enumerate().step_by(6) {
        println!("  {n:7}   {:19}   {:10}", d.samples, d.largest);
    }
    let mild = Films::new(Offsets::default()).drift();
    println!(
        "That is with the strongest filter that a stream may ask for, offsets A and B 12. With both 0 the same
film differs by at most {}.
",
        mild.iter().map(|d| d.largest).max().unwrap_or(0)
    );
}

/// Writes the drawings and the films.
fn write(folder: &Path, films: &Films, drift: &[Drift]) -> Result<(), Trouble> {
    std::fs::create_dir_all(folder).map_err(|e| Trouble::in_file(folder, e))?;
    let last = PICTURES - 1;
    let lost = drawing::lost(&films.recorder[last], &films.old[last], last, &drift[last]);
    trouble::write(&folder.join("lost.png"), &lost)?;
    trouble::write(&folder.join("drift.png"), &drawing::plot(drift))?;
    for (name, film) in [("recorder", &films.recorder), ("library", &films.library), ("old-rule", &films.old)] {
        trouble::write(&folder.join(format!("{name}.y4m")), &y4m::film(film))?;
    }
    println!(
        "In {}: lost.png, the last picture, right and old side by side; drift.png, the difference by
picture number; recorder.y4m, library.y4m and old-rule.y4m, the films, which players show and
`deblock compare A B` tells apart.",
        folder.display()
    );
    Ok(())
}
