//! The difference of two pictures as a picture: Y at the left, U above V at the right, grey where equal.

use crate::png;
use crate::raw::{Extent, Raw};
use crate::trouble::{self, Trouble};
use std::os::unix::fs::MetadataExt;
use std::path::{Path, PathBuf};

pub const TIMES: i32 = 16;
/// Black samples between the planes.
const GAP: usize = 2;
/// Samples of the largest pictures of which a PNG file is written: it has one part, of less than 2^31 bytes.
const LARGEST: usize = 1 << 30;

/// The file that the difference goes to.
pub struct Image {
    pub file: PathBuf,
    /// Whether a file that is there may go.
    pub force: bool,
}

impl Image {
    /// Complains of what stands in the way, before any work is done. `extent` is that of raw files.
    pub fn check(&self, compared: [&Path; 2], extent: Option<Extent>) -> Result<(), Trouble> {
        let wrong = |what: &str| Err(Trouble::in_file(&self.file, what));
        if extent.is_some_and(|e| e.samples() > LARGEST) {
            return wrong("no PNG file is written of pictures this large; leave --png out");
        }
        if compared.iter().any(|c| same(c, &self.file)) {
            return wrong("this is one of the two files to compare");
        }
        if self.file.is_dir() {
            return wrong("this is a folder, not a file for the difference");
        }
        if !self.force && self.file.symlink_metadata().is_ok() {
            return wrong("there is such a file already, so nothing was compared; --force replaces it");
        }
        Ok(())
    }

    pub fn write(&self, a: &Raw, b: &Raw) -> Result<(), Trouble> {
        let (w, h, samples) = side_by_side(a, b);
        let bytes = png::grey(w, h, &samples);
        if self.force {
            trouble::write(&self.file, &bytes)
        } else {
            trouble::write_new(&self.file, &bytes)
        }
    }

    /// Removes a picture of an earlier run, which may go, and says whether there was one.
    pub fn remove(&self) -> Result<bool, Trouble> {
        if self.force {
            trouble::remove(&self.file)
        } else {
            Ok(false)
        }
    }
}

/// Whether two names are of one file.
pub fn same(a: &Path, b: &Path) -> bool {
    let node = |f: &Path| f.metadata().ok().map(|m| (m.dev(), m.ino()));
    node(a).is_some() && node(a) == node(b)
}

/// Grey where two planes are equal, and the difference made large enough to see.
fn amplified(a: &[u8], b: &[u8]) -> Vec<u8> {
    let level = |(&p, &q): (&u8, &u8)| (128 + TIMES * (i32::from(q) - i32::from(p))).clamp(0, 255) as u8;
    a.iter().zip(b).map(level).collect()
}

/// The differences of the three planes in one picture, its width and its height.
fn side_by_side(a: &Raw, b: &Raw) -> (usize, usize, Vec<u8>) {
    let Extent { width, height } = a.extent;
    let (w, h) = (width + GAP + width / 2, height + GAP);
    let places = [(0, 0, width), (width + GAP, 0, width / 2), (width + GAP, height / 2 + GAP, width / 2)];
    let mut image = vec![0; w * h];
    for (p, (x, y, across)) in places.into_iter().enumerate() {
        let plane = amplified(&a.planes[p], &b.planes[p]);
        let rows = image.chunks_mut(w).skip(y).zip(plane.chunks(across));
        rows.for_each(|(row, samples)| row[x..x + across].copy_from_slice(samples));
    }
    (w, h, image)
}

#[cfg(test)]
mod tests {
    use super::*;

    #[test]
    fn the_three_planes_stand_side_by_side() {
        let extent = Extent { width: 4, height: 2 };
        let a = Raw::from_bytes(extent, vec![100; 12]);
        let b = Raw::from_bytes(extent, vec![100, 101, 100, 90, 100, 100, 100, 120, 99, 100, 100, 102]);
        let (w, h, image) = side_by_side(&a, &b);
        assert_eq!((w, h), (8, 4));
        let rows: Vec<&[u8]> = image.chunks(8).collect();
        assert_eq!(rows[0], [128, 144, 128, 0, 0, 0, 112, 128]);
        assert_eq!(rows[1], [128, 128, 128, 255, 0, 0, 0, 0]);
        assert_eq!(rows[2], [0; 8]);
        assert_eq!(rows[3], [0, 0, 0, 0, 0, 0, 128, 160]);
    }

    #[test]
    fn what_stands_in_the_way_is_named() {
        let own = Path::new("src/image.rs");
        let said = |file: &Path, force: bool, side: usize| {
            let image = Image { file: file.to_path_buf(), force };
            let extent = Extent { width: side, height: side };
            let trouble = image.check([own, Path::new("none.yuv")], Some(extent)).err();
            trouble.map(|t| t.to_string()).unwrap_or_default()
        };
        assert!(said(Path::new("none.png"), false, 65_536).contains("this large"));
        assert!(said(Path::new("src/../src/image.rs"), true, 2).contains("one of the two"));
        assert!(said(Path::new("src"), true, 2).contains("a folder"));
        assert!(said(Path::new("src/main.rs"), false, 2).contains("already"));
        assert_eq!(said(Path::new("src/main.rs"), true, 2), "");
        assert_eq!(said(Path::new("none.png"), false, 2), "");
    }

    #[test]
    fn a_file_that_came_in_between_stays() {
        let raw = Raw::from_bytes(Extent { width: 2, height: 2 }, vec![0; 6]);
        let image = Image { file: PathBuf::from("src/image.rs"), force: false };
        assert!(image.write(&raw, &raw).is_err_and(|t| t.to_string().starts_with("src/image.rs: File exists")));
    }
}
