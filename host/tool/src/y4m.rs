//! Films as YUV4MPEG2 streams: a header line, and for each picture a line FRAME and its planes. The library
//! reads and writes streams of one picture; to it each picture of a film is a stream of its own, the header
//! line with the picture's own FRAME line and planes. It alone tells what the lines mean.

pub mod folder;

use crate::picture::Picture;
use crate::source::Source;
use crate::trouble::Trouble;
use deblock::{y4m, Answer, Size};

pub const MAGIC: &[u8] = b"YUV4MPEG2";
/// Bytes of a line, at most: a film is read line by line and picture by picture, never whole.
const LONGEST: usize = 64 << 10;
/// Bytes of the planes of the largest picture that the library takes.
const LARGEST: usize = 384 * 36_864;
const FRAME: &[u8] = b"FRAME\n";
/// Bytes of a refused line that are shown.
const SHOWN: usize = 60;

/// A film that is read picture by picture.
pub struct Film {
    source: Source,
    header: Vec<u8>,
    /// In macroblocks.
    size: Size,
    read: usize,
}

impl Film {
    /// Reads the header line. The library tells its size where planes follow that are long enough, so it is
    /// lent the line with a picture of zeros that is as large as can be.
    pub fn new(mut source: Source) -> Result<Film, Trouble> {
        let header = source.line(LONGEST, "the header line")?;
        let mut stream = vec![0; header.len() + FRAME.len() + LARGEST];
        stream[..header.len()].copy_from_slice(&header);
        stream[header.len()..][..FRAME.len()].copy_from_slice(FRAME);
        match y4m::look(&stream) {
            Ok(size) => Ok(Film { source, header, size, read: 0 }),
            Err(answer) => Err(source.trouble(0, no_film(&header, answer))),
        }
    }

    /// The next picture; none at the end. A film without any is trouble.
    pub fn next(&mut self) -> Result<Option<Picture>, Trouble> {
        if self.read > 0 && self.source.at_end()? {
            return Ok(None);
        }
        self.read += 1;
        let start = self.source.at();
        let line = self.source.line(LONGEST, &format!("picture {}: its FRAME line", self.read))?;
        let planes = self.source.up_to(384 * self.size.macroblocks())?;
        let mut picture = Picture::from_planes(self.size, &vec![0; 384 * self.size.macroblocks()]);
        let stream = [&self.header[..], &line, &planes].concat();
        match y4m::read(&stream, &mut picture.luma, &mut picture.u, &mut picture.v) {
            Ok(_) => Ok(Some(picture)),
            Err(answer) => Err(self.source.trouble(start, self.no_picture(&line, planes.len(), answer))),
        }
    }

    fn no_picture(&self, line: &[u8], got: usize, answer: Answer) -> String {
        let why = match answer {
            Answer::StreamLength => {
                let wanted = 384 * self.size.macroblocks();
                format!("{wanted} bytes are wanted after its FRAME line, the file ends after {got}")
            }
            _ if line.is_empty() => "the file ends where its FRAME line belongs".into(),
            _ => format!("it starts with '{}'", shown(line)),
        };
        format!("picture {} is refused with {} ({answer}): {why}", self.read, answer.number())
    }
}

/// The header line alone is refused: the FRAME line that it was lent with is good.
fn no_film(header: &[u8], answer: Answer) -> String {
    let way = match answer {
        Answer::BadSides => "; to compare films of such a size, turn them into raw planes and give --size",
        _ => "",
    };
    format!("the header line is refused with {} ({answer}): '{}'{way}", answer.number(), shown(header))
}

/// A line, or its start, in printable characters.
fn shown(line: &[u8]) -> String {
    let line = line.strip_suffix(b"\n").unwrap_or(line);
    let more = if line.len() > SHOWN { " .." } else { "" };
    format!("{}{more}", line[..line.len().min(SHOWN)].escape_ascii())
}

/// The size of a picture's frame in macroblocks: twice as high as the fields that it may be filtered by.
fn frame(picture: &Picture) -> Size {
    Size { w: picture.size.w, h: picture.height() / 16 }
}

/// A picture as a film holds it, with the header line if it is the first.
fn bytes(picture: &Picture, first: bool) -> Result<Vec<u8>, Answer> {
    let size = frame(picture);
    let mut stream = vec![0; y4m::length(size).ok_or(Answer::BadSize)?];
    y4m::write(size, &picture.luma, &picture.u, &picture.v, &mut stream).ok()?;
    let header = stream.len() - 384 * size.macroblocks() - FRAME.len();
    Ok(if first { stream } else { stream.split_off(header) })
}

/// A whole film of pictures of one size, all of which the library takes.
pub fn film(pictures: &[Picture]) -> Vec<u8> {
    let each = pictures.iter().enumerate().map(|(i, picture)| bytes(picture, i == 0));
    each.collect::<Result<Vec<_>, _>>().expect("pictures of a size that the library takes").concat()
}

#[cfg(test)]
mod tests;
