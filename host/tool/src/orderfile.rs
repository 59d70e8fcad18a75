//! Files of arrival orders (host/tool/ORDERS.md): macroblocks and slices, line by line.

use crate::orders::{Order, Request};
use crate::trouble::{self, Trouble};
use deblock::{Part, Place, Size};
use std::path::{Path, PathBuf};

pub struct OrderFile {
    file: PathBuf,
    lines: Vec<Line>,
}

/// A line that is not empty, with its number.
struct Line {
    number: usize,
    /// The field that it names, or the frame.
    part: Part,
    arrival: Arrival,
}

enum Arrival {
    Macroblock(Place),
    /// So many macroblocks in raster order, from this index on.
    Slice {
        first: usize,
        count: usize,
    },
}

impl OrderFile {
    pub fn read(file: &Path) -> Result<OrderFile, Trouble> {
        let text = String::from_utf8(trouble::read(file)?)
            .map_err(|e| Trouble::at_byte(file, e.utf8_error().valid_up_to(), "this is no text"))?;
        OrderFile::parse(file, &text)
    }

    fn parse(file: &Path, text: &str) -> Result<OrderFile, Trouble> {
        let mut lines = Vec::new();
        for (number, words) in (1..).zip(text.lines()) {
            let Some(meant) = words.split('#').next().filter(|w| !w.trim().is_empty()) else { continue };
            let (part, arrival) = line(meant).ok_or_else(|| Trouble::at_line(file, number, no_line(words)))?;
            lines.push(Line { number, part, arrival });
        }
        Ok(OrderFile { file: file.to_path_buf(), lines })
    }

    /// The order for pictures of a size. A slice must lie within the picture. A macroblock need not: the
    /// library refuses to visit it. Every line must name one of two fields, or none of a frame.
    pub fn order(&self, parts: &[Part], size: Size) -> Result<Order, Trouble> {
        let mut order = Order::new();
        for line in &self.lines {
            if !parts.contains(&line.part) {
                return Err(Trouble::at_line(&self.file, line.number, no_part(line.part)));
            }
            let places = match line.arrival {
                Arrival::Macroblock(place) => vec![place],
                Arrival::Slice { first, count } => self.slice(line.number, size, first, count)?,
            };
            order.extend(places.into_iter().map(|at| Request { part: line.part, at }));
        }
        Ok(order)
    }

    fn slice(&self, line: usize, size: Size, first: usize, count: usize) -> Result<Vec<Place>, Trouble> {
        let Size { w, h } = size;
        match first.checked_add(count) {
            Some(end) if end <= w * h => Ok((first..end).map(|m| Place { x: m % w, y: m / w }).collect()),
            _ => {
                let what = format!("'slice {first} {count}' reaches past a picture of {w} by {h} macroblocks");
                Err(Trouble::at_line(&self.file, line, what))
            }
        }
    }
}

fn line(words: &str) -> Option<(Part, Arrival)> {
    let words: Vec<&str> = words.split_whitespace().collect();
    match words[..] {
        ["top", ref rest @ ..] => Some((Part::TopField, arrival(rest)?)),
        ["bottom", ref rest @ ..] => Some((Part::BottomField, arrival(rest)?)),
        _ => Some((Part::Frame, arrival(&words)?)),
    }
}

fn arrival(words: &[&str]) -> Option<Arrival> {
    let number = |word: &str| word.parse().ok();
    match *words {
        [x, y] => Some(Arrival::Macroblock(Place { x: number(x)?, y: number(y)? })),
        ["slice", first, count] => {
            let (first, count) = (number(first)?, number(count)?);
            (count > 0).then_some(Arrival::Slice { first, count })
        }
        _ => None,
    }
}

fn no_line(words: &str) -> String {
    format!("'x y' or 'slice FIRST COUNT' belongs here, after 'top' or 'bottom' for a field, not {words:?}")
}

/// What is said of a line that names a field of a frame picture, or no field where there are two.
fn no_part(part: Part) -> &'static str {
    match part {
        Part::Frame => "the picture has two fields, so 'top' or 'bottom' must come first",
        _ => "the picture is a frame, so no field can be named",
    }
}

#[cfg(test)]
mod tests {
    use super::*;
    use crate::part::FIELDS;

    fn parse(text: &str) -> Result<OrderFile, String> {
        OrderFile::parse(Path::new("o.txt"), text).map_err(|t| t.to_string())
    }

    const SIZE: Size = Size { w: 2, h: 2 };

    #[test]
    fn macroblocks_and_slices() {
        let file = parse("# a remark\n1 0 # another\n\n  slice 1 3\r\n7 9").expect("a good file");
        let order = file.order(&[Part::Frame], SIZE).expect("the slice fits");
        let places: Vec<_> = order.iter().map(|r| (r.at.x, r.at.y)).collect();
        assert_eq!(places, [(1, 0), (1, 0), (0, 1), (1, 1), (7, 9)]);
        assert_eq!(parse("").expect("an empty file").order(&[Part::Frame], SIZE).expect("fits"), []);
    }

    #[test]
    fn fields_are_named_line_by_line() {
        let file = parse("bottom 1 0\n top slice 2 2 # both of the lower row\nbottom 0 0").expect("a good file");
        let order = file.order(&FIELDS, SIZE).expect("the slice fits");
        let requests: Vec<_> = order.iter().map(|r| (r.part == Part::TopField, r.at.x, r.at.y)).collect();
        assert_eq!(requests, [(false, 1, 0), (true, 0, 1), (true, 1, 1), (false, 0, 0)]);
    }

    /// A field where there is none, and none where there are two.
    #[test]
    fn a_line_fits_the_picture() {
        let said = |text: &str, parts: &[Part]| {
            let order = parse(text).expect("well made").order(parts, SIZE);
            order.err().map(|t| t.to_string()).unwrap_or_default()
        };
        let frame = "o.txt: line 2: the picture is a frame, so no field can be named";
        assert_eq!(said("0 0\nbottom 0 0", &[Part::Frame]), frame);
        let two = "o.txt: line 2: the picture has two fields, so 'top' or 'bottom' must come first";
        assert_eq!(said("top 0 0\nslice 0 1", &FIELDS), two);
        let past = "o.txt: line 1: 'slice 3 2' reaches past a picture of 2 by 2 macroblocks";
        assert_eq!(said("top slice 3 2", &FIELDS), past);
    }

    #[test]
    fn a_line_that_is_neither_is_named() {
        let bad = ["1", "1 2 3", "0 zero", "-1 0", "slice 1", "slice 0 0", "slice a 1", "slice 0 1 2", "Slice 0 1"];
        let of_fields = ["top", "top 1", "top top 0 0", "0 0 top", "slice top 0 1", "Top 0 0", "middle 0 0"];
        for bad in bad.iter().chain(&of_fields) {
            let said = parse(&format!("0 0\n{bad}")).err().unwrap_or_else(|| panic!("{bad} was taken"));
            let meant = "'x y' or 'slice FIRST COUNT' belongs here, after 'top' or 'bottom' for a field";
            assert_eq!(said, format!("o.txt: line 2: {meant}, not {bad:?}"));
        }
    }

    #[test]
    fn a_slice_stays_within_the_picture() {
        for (slice, fits) in
            [("0 4", true), ("3 1", true), ("3 2", false), ("4 1", false), ("1 18446744073709551615", false)]
        {
            let file = parse(&format!("# order\nslice {slice}")).expect("well made");
            let said = file.order(&[Part::Frame], SIZE).map_err(|t| t.to_string());
            let wrong = format!("o.txt: line 2: 'slice {slice}' reaches past a picture of 2 by 2 macroblocks");
            assert_eq!(said.err(), (!fits).then_some(wrong));
        }
    }
}
