//! A coloured drawing: areas, lines, and words in a small font.

use crate::png;

pub type Colour = [u8; 3];

const WHITE: Colour = [255, 255, 255];
pub const BLACK: Colour = [0, 0, 0];

/// Letters of five by eight points. A line of letters is followed by eight lines that draw them, six columns
/// each.
const FONT: &str = include_str!("font.txt");
/// From a letter to the next, and from a line to the next, in points.
const ADVANCE: usize = 6;
pub const LINE: usize = 11;
/// How many pixels a point of a letter is wide and high.
const POINT: usize = 2;

pub struct Canvas {
    w: usize,
    h: usize,
    pixels: Vec<Colour>,
}

impl Canvas {
    pub fn new(w: usize, h: usize) -> Canvas {
        Canvas { w, h, pixels: vec![WHITE; w * h] }
    }

    pub fn area(&mut self, x: usize, y: usize, w: usize, h: usize, colour: Colour) {
        for row in self.pixels.chunks_mut(self.w).skip(y).take(h) {
            row[x..x + w].fill(colour);
        }
    }

    /// Samples as grey squares of `zoom` pixels.
    pub fn samples(&mut self, x: usize, y: usize, width: usize, samples: &[u8], zoom: usize) {
        for (i, &s) in samples.iter().enumerate() {
            self.area(x + zoom * (i % width), y + zoom * (i / width), zoom, zoom, [s; 3]);
        }
    }

    /// Words from (x, y) on to the right; a letter that the font lacks is left white.
    pub fn words(&mut self, x: usize, y: usize, words: &str, colour: Colour) {
        for (n, letter) in words.chars().enumerate() {
            for (px, py) in points(letter) {
                self.area(x + POINT * (ADVANCE * n + px), y + POINT * py, POINT, POINT, colour);
            }
        }
    }

    /// The bytes of a PNG file.
    pub fn png(&self) -> Vec<u8> {
        png::coloured(self.w, self.h, &self.pixels)
    }
}

/// How many pixels words take.
pub fn width(words: &str) -> usize {
    POINT * ADVANCE * words.chars().count()
}

/// The points of a letter, from its upper left corner.
fn points(letter: char) -> Vec<(usize, usize)> {
    let lines: Vec<&str> = FONT.lines().collect();
    let drawn = lines.chunks(9).find_map(|group| Some((&group[1..], group[0].find(letter)?)));
    let Some((rows, column)) = drawn.filter(|_| letter != ' ') else { return Vec::new() };
    let set = |(px, py): &(usize, usize)| rows[*py].as_bytes().get(column + px) == Some(&b'#');
    (0..40).map(|i| (i % 5, i / 5)).filter(set).collect()
}

#[cfg(test)]
mod tests {
    use super::*;

    #[test]
    fn letters_are_drawn() {
        assert_eq!(points('-'), [(0, 3), (1, 3), (2, 3), (3, 3), (4, 3)]);
        assert_eq!(points('l').len(), 10);
        assert!(points(' ').is_empty());
        let drawn = |c: char| !points(c).is_empty();
        assert!("abcdefghijklmnopqrstuvwxyz0123456789.,:;'()-/".chars().all(drawn));
    }
}
