//! The two drawings of the demonstration: what was lost, side by side, and how it grew.

use super::canvas::{width, Canvas, Colour, BLACK, LINE};
use super::films::Drift;
use crate::picture::Picture;

const ZOOM: usize = 3;
const MARGIN: usize = 12;
const TITLE: usize = 2 * LINE + 2;
/// Areas of this many samples a side are framed where a sample differs by so many grey levels.
const FRAMED: usize = 8;
const NOTABLE: u8 = 48;
/// Macroblock lines are dotted, so that they hide nothing.
const DOTS: usize = 4;

const FRAME: Colour = [255, 140, 0];
const GRID: Colour = [60, 130, 220];
const RIGHT: Colour = [0, 90, 170];

/// The right picture and the old release's side by side.
pub fn lost(right: &Picture, old: &Picture, number: usize, drift: &Drift) -> Vec<u8> {
    let (w, h) = (ZOOM * right.width(), ZOOM * right.height());
    let mut canvas = Canvas::new(2 * w + 3 * MARGIN, h + 2 * TITLE + 2 * MARGIN + 2 * LINE + 4);
    let panels = [
        (MARGIN, "as it must be (recorder; library, any order)", right),
        (w + 2 * MARGIN, "as the old release showed it", old),
    ];
    for (x, title, picture) in panels {
        canvas.words(x, MARGIN / 2, title, BLACK);
        canvas.samples(x, TITLE, picture.width(), &picture.luma, ZOOM);
        macroblock_lines(&mut canvas, x, picture);
    }
    frames(&mut canvas, w + 2 * MARGIN, right, old);
    let below = TITLE + h + MARGIN;
    scale(&mut canvas, MARGIN, below);
    let caption = [
        format!("picture {number} of the film that ./demo makes, luma; dotted lines: macroblocks"),
        format!("framed: areas where a sample differs by {NOTABLE} grey levels or more; largest: {}", drift.largest),
    ];
    for (i, words) in caption.iter().enumerate() {
        canvas.words(MARGIN, below + (i + 1) * (2 * LINE), words, BLACK);
    }
    canvas.png()
}

fn macroblock_lines(canvas: &mut Canvas, x: usize, picture: &Picture) {
    let (w, h) = (ZOOM * picture.width(), ZOOM * picture.height());
    for column in 1..picture.size.w {
        (0..h).step_by(DOTS).for_each(|y| canvas.area(x + 16 * ZOOM * column, TITLE + y, 1, 1, GRID));
    }
    for row in 1..picture.size.h {
        (0..w).step_by(DOTS).for_each(|dot| canvas.area(x + dot, TITLE + 16 * ZOOM * row, 1, 1, GRID));
    }
}

/// A line around the areas that differ much, along each side where the next area does not.
fn frames(canvas: &mut Canvas, x0: usize, right: &Picture, old: &Picture) {
    let (columns, rows) = (right.width() / FRAMED, right.height() / FRAMED);
    let notable = |column: usize, row: usize| {
        let far = |i: usize| {
            let at = (FRAMED * row + i / FRAMED) * right.width() + FRAMED * column + i % FRAMED;
            right.luma[at].abs_diff(old.luma[at]) >= NOTABLE
        };
        column < columns && row < rows && (0..FRAMED * FRAMED).any(far)
    };
    let side = ZOOM * FRAMED;
    for (column, row) in (0..columns * rows).map(|i| (i % columns, i / columns)).filter(|&(c, r)| notable(c, r)) {
        let (x, y) = (x0 + side * column, TITLE + side * row);
        let sides = [
            (column.wrapping_sub(1), row, (x, y, 1, side)),
            (column + 1, row, (x + side - 1, y, 1, side)),
            (column, row.wrapping_sub(1), (x, y, side, 1)),
            (column, row + 1, (x, y + side - 1, side, 1)),
        ];
        for (_, _, (x, y, w, h)) in sides.into_iter().filter(|&(c, r, _)| !notable(c, r)) {
            canvas.area(x, y, w, h, FRAME);
        }
    }
}

/// A bar as long as a macroblock.
fn scale(canvas: &mut Canvas, x: usize, y: usize) {
    let long = 16 * ZOOM;
    canvas.area(x, y + 6, long, 2, BLACK);
    canvas.area(x, y + 2, 2, 10, BLACK);
    canvas.area(x + long - 2, y + 2, 2, 10, BLACK);
    canvas.words(x + long + MARGIN, y, "16 samples", BLACK);
}

/// Pixels from a bar of the plot to the next, and from a grey level to the next.
const BAR: usize = 20;
const LEVEL: usize = 2;
/// The highest level of the plot, and its row.
const HIGHEST: usize = 128;
const TOP: usize = 3 * LINE + MARGIN;
const BOTTOM: usize = TOP + LEVEL * HIGHEST;

/// The largest difference from the recorder's picture, by picture number.
pub fn plot(drift: &[Drift]) -> Vec<u8> {
    let left = width("128 ") + MARGIN;
    let mut canvas = Canvas::new(left + BAR * drift.len() + MARGIN, BOTTOM + 4 * LINE + MARGIN);
    canvas.words(MARGIN, MARGIN / 2, "largest difference from the recorder", BLACK);
    for level in (0..=HIGHEST).step_by(32) {
        let y = BOTTOM - LEVEL * level;
        canvas.area(left, y, BAR * drift.len(), 1, GRID);
        canvas.words(MARGIN, y - LINE / 2 - 2, &format!("{level:3}"), BLACK);
    }
    bars(&mut canvas, left, drift);
    let below = BOTTOM + 2 * LINE + MARGIN;
    let second = MARGIN + width("   old release  ");
    for (x, colour, words) in [(MARGIN, FRAME, "old release"), (second, RIGHT, "library: 0")] {
        canvas.area(x, below + 2, 12, 10, colour);
        canvas.words(x + 20, below, words, BLACK);
    }
    canvas.png()
}

/// A bar for each picture, with the library's, of no height, at its foot.
fn bars(canvas: &mut Canvas, left: usize, drift: &[Drift]) {
    for (n, d) in drift.iter().enumerate() {
        let x = left + BAR * n;
        let high = LEVEL * usize::from(d.largest).min(HIGHEST);
        canvas.area(x + 4, BOTTOM - high, BAR - 8, high, FRAME);
        canvas.area(x + 4, BOTTOM - 1, BAR - 8, 3, RIGHT);
        if n % 6 == 0 {
            canvas.words(x + 2, BOTTOM + 6, &n.to_string(), BLACK);
        }
    }
}
