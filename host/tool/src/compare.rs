//! Compares two files picture by picture.

use crate::differences::Differences;
use crate::image::{Image, TIMES};
use crate::pictures::Pictures;
use crate::progress::Progress;
use crate::raw::{samples, Extent, Raw};
use crate::say::counted;
use crate::trouble::Trouble;
use crate::Outcome;
use deblock::Part;
use std::path::Path;

/// `extent` is that of raw planes; the first difference goes to `image`.
pub fn run(files: [&Path; 2], extent: Option<Extent>, image: Option<Image>) -> Result<Outcome, Trouble> {
    if let Some(image) = &image {
        image.check(files, extent)?;
    }
    let (mut a, mut b) = (Pictures::open(files[0], extent)?, Pictures::open(files[1], extent)?);
    if extent.is_some() && ![&a, &b].iter().any(|p| matches!(p, Pictures::Raw { .. })) {
        return Err(Trouble::new("--size is of raw planes, and both files say their size themselves"));
    }
    let mut comparison = Comparison { image, drawn: false, equal: 0, different: 0, more: [0; 2], first: None };
    let mut progress = Progress::open("pictures");
    while comparison.step(a.next()?, b.next()?)? {
        progress.step();
    }
    comparison.sum_up(files)
}

struct Comparison {
    image: Option<Image>,
    /// Whether the image is written.
    drawn: bool,
    equal: usize,
    different: usize,
    /// Pictures that only the one or only the other file has.
    more: [usize; 2],
    /// Where the first difference is.
    first: Option<String>,
}

impl Comparison {
    /// Whether there was anything to compare.
    fn step(&mut self, a: Option<Raw>, b: Option<Raw>) -> Result<bool, Trouble> {
        match (a, b) {
            (None, None) => return Ok(false),
            (Some(a), Some(b)) => self.pair(&a, &b)?,
            (a, _) => self.more[usize::from(a.is_none())] += 1,
        }
        Ok(true)
    }

    fn pair(&mut self, a: &Raw, b: &Raw) -> Result<(), Trouble> {
        let number = self.equal + self.different + 1;
        if a.extent != b.extent {
            let [p, q] = [a.extent, b.extent].map(|e| format!("{} by {}", e.width, e.height));
            println!("Picture {number}: the sizes differ: {p} and {q} pixels");
            self.differs(format!("in the size of picture {number}"));
            return Ok(());
        }
        let found = Differences::of(samples(Part::Frame, a.view(), b.view()));
        let Some(macroblock) = found.first() else {
            self.equal += 1;
            return Ok(());
        };
        let lines = if self.first.is_none() { found.at_length() } else { vec![found.in_short()] };
        println!("Picture {number}: {}", lines.join("\n  "));
        self.differs(format!("in picture {number}, macroblock {macroblock:?}"));
        self.draw(number, a, b)
    }

    fn differs(&mut self, place: String) {
        self.different += 1;
        self.first.get_or_insert(place);
    }

    /// Writes the first difference, where it is wanted.
    fn draw(&mut self, number: usize, a: &Raw, b: &Raw) -> Result<(), Trouble> {
        let Some(image) = self.image.as_ref().filter(|_| !self.drawn) else { return Ok(()) };
        image.write(a, b)?;
        self.drawn = true;
        println!("  The difference of picture {number}, {TIMES} times as large: {}", image.file.display());
        println!("  (Y at the left, U above V at the right; grey where equal)");
        Ok(())
    }

    fn sum_up(&self, files: [&Path; 2]) -> Result<Outcome, Trouble> {
        let compared = counted(self.equal + self.different, "picture");
        let (equal, different) = (self.equal, self.different);
        match &self.first {
            Some(place) => {
                println!("{compared}: {equal} equal, {different} different; the first difference is {place}")
            }
            None => println!("{compared}: all samples of Y, U and V are equal"),
        }
        for (file, more) in files.iter().zip(self.more).filter(|(_, more)| *more > 0) {
            println!("{}: {} more than the other file has", file.display(), counted(more, "picture"));
        }
        self.no_stale_image()?;
        Ok(if different + self.more[0] + self.more[1] == 0 { Outcome::Equal } else { Outcome::Different })
    }

    /// A picture of an earlier run goes where this one wrote none.
    fn no_stale_image(&self) -> Result<(), Trouble> {
        match &self.image {
            Some(image) if !self.drawn && image.remove()? => {
                println!("{}: removed, since it is of an earlier run", image.file.display());
            }
            None if self.different > 0 => println!("--png FILE writes the first difference as a picture"),
            _ => (),
        }
        Ok(())
    }
}
