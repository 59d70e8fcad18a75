//! The pictures of a file to compare: of recordings the planes after the filter, of a film, or raw planes.

use crate::raw::{Extent, Raw};
use crate::recording::MAGIC;
use crate::recordings::Recordings;
use crate::source::Source;
use crate::trouble::Trouble;
use crate::y4m::{self, Film};
use std::path::Path;

pub enum Pictures {
    Recorded(Recordings),
    Film(Film),
    Raw { source: Source, extent: Extent, read: usize },
}

impl Pictures {
    /// `extent` is that of raw planes. What a file is its first bytes tell, not its name.
    pub fn open(file: &Path, extent: Option<Extent>) -> Result<Pictures, Trouble> {
        Pictures::of(Source::open(file)?, extent)
    }

    fn of(mut source: Source, extent: Option<Extent>) -> Result<Pictures, Trouble> {
        if source.comes(MAGIC)? {
            return Ok(Pictures::Recorded(Recordings::new(source)));
        }
        if source.comes(y4m::MAGIC)? {
            return Ok(Pictures::Film(Film::new(source)?));
        }
        let neither = "this is no recording and no YUV4MPEG2 stream; for raw planes give --size WxH in pixels";
        match extent {
            Some(extent) => Ok(Pictures::Raw { source, extent, read: 0 }),
            None => Err(source.trouble(0, neither)),
        }
    }

    /// The next picture; none at the end. A file without any is trouble.
    pub fn next(&mut self) -> Result<Option<Raw>, Trouble> {
        match self {
            Pictures::Recorded(recordings) => Ok(recordings.next().transpose()?.map(|r| r.after.into())),
            Pictures::Film(film) => Ok(film.next()?.map(Raw::from)),
            Pictures::Raw { source, extent, read } => {
                if *read > 0 && source.at_end()? {
                    return Ok(None);
                }
                *read += 1;
                let bytes = source.take(extent.samples(), &format!("picture {read}"))?;
                Ok(Some(Raw::from_bytes(*extent, bytes)))
            }
        }
    }
}

#[cfg(test)]
mod tests {
    use super::*;
    use crate::picture::Picture;
    use crate::recording::tests::good;
    use deblock::Size;

    fn said(bytes: &[u8], extent: Option<Extent>) -> (usize, String) {
        let source = Source::new(Path::new("x"), std::io::Cursor::new(bytes.to_vec()));
        let mut pictures = match Pictures::of(source, extent) {
            Ok(pictures) => pictures,
            Err(trouble) => return (0, trouble.to_string()),
        };
        let mut count = 0;
        loop {
            match pictures.next() {
                Ok(Some(_)) => count += 1,
                Ok(None) => return (count, String::new()),
                Err(trouble) => return (count, trouble.to_string()),
            }
        }
    }

    fn picture() -> Picture {
        Picture::from_planes(Size { w: 1, h: 1 }, &[9; 384])
    }

    #[test]
    fn pictures_are_counted_to_the_end() {
        let extent = Some(Extent { width: 4, height: 2 });
        assert_eq!(said(&[0; 36], extent), (3, String::new()));
        assert_eq!(said(&good().repeat(2), None), (2, String::new()));
        assert_eq!(said(&y4m::film(&[picture(), picture()]), None), (2, String::new()));
        let cut = "x: at byte 24: picture 3: 12 bytes are wanted, the file ends after 11";
        assert_eq!(said(&[0; 35], extent), (2, cut.into()));
        let empty = "x: at byte 0: picture 1: 12 bytes are wanted, the file ends after 0";
        assert_eq!(said(&[], extent), (0, empty.into()));
        assert!(said(&[0; 12], None).1.contains("give --size"));
    }
}
