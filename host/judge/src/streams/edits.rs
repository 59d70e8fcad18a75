//! Good streams with every small change, and all of the shortest streams.

use super::ask::{lengths, Ask};
use super::session::Session;
use crate::session::Outcome;
use std::ops::Range;

/// The lines of good streams and the sizes that they tell: as this writer's, as other programs write them,
/// and odd ones.
const LINES: [(&[u8], usize, usize); 7] = [
    (SHORT, 1, 1),
    (b"YUV4MPEG2 W16 H16 C420mpeg2\nFRAME\n", 1, 1),
    (b"YUV4MPEG2 W16 H16 F25:1 Ip A1:1 C420jpeg XYSCSS=420JPEG XCOLORRANGE=LIMITED\nFRAME\n", 1, 1),
    (b"YUV4MPEG2 W32 H16 F30000:1001 Im A10:11 C420paldv\nFRAME Ipp XA\n", 2, 1),
    (b"YUV4MPEG2 C420 X\r\t\0\xC8 H0000000000000000000000016 W0016 w h\nFRAME \r W17 C444 \0\xFF\n", 1, 1),
    (b"YUV4MPEG2 H048 XH W16\nFRAME W H C\n", 1, 3),
    (b"YUV4MPEG2 W016 H16 A1:1 XABCDEFGHIJKLMNOPQRSTUVWXYZ=ABCDEFGHIJKLMNOPQRSTUVWXYZ Xabcdef\nFRAME\n", 1, 1),
];

const SHORT: &[u8] = b"YUV4MPEG2 H16 W16\nFRAME\n";

/// Films of other programs (crates/streams/README.md), all of 3 by 2 macroblocks.
const FILES: [&[u8]; 2] = [
    include_bytes!("../../../../crates/streams/data/ffmpeg.y4m"),
    include_bytes!("../../../../crates/streams/data/mjpegtools.y4m"),
];

/// Bytes that mean something in a stream, and their neighbours.
const TELLING: [u8; 24] = *b"\0\x09\x0A\x0B\x0D\x1F\x20\x21/0123456789:WHC\xFF";

pub fn run(s: &mut Session) -> Outcome {
    shortest(s)?;
    for good in (0..LINES.len()).map(Good::made).chain(FILES.map(Good::file)) {
        good.cut(s)?;
        good.bytes_changed(s)?;
        good.bytes_moved(s)?;
        good.plane_lengths(s)?;
    }
    two_bytes_changed(s)
}

/// What may follow the first picture: another one, cut short.
const SECOND: &[u8] = b"FRAME\nYUV4MPEG2 W32 H32\nFRAME\n????????????????FRAME\n?";

/// All streams of no byte, one byte and two bytes.
fn shortest(s: &mut Session) -> Outcome {
    let one = (0..=255u8).map(|byte| vec![byte]);
    let two = (0..=65_535u16).map(|bytes| bytes.to_be_bytes().to_vec());
    let mut all = std::iter::once(Vec::new()).chain(one).chain(two);
    all.try_for_each(|stream| s.look_and_read("shortest", Ask::of(stream, lengths(1, 1))))
}

/// A good stream, of which so many bytes are its lines.
struct Good {
    run: &'static str,
    stream: Vec<u8>,
    lines: usize,
    lengths: [usize; 3],
}

impl Good {
    fn made(i: usize) -> Good {
        let (lines, w, h) = LINES[i];
        let after: &[u8] = if i.is_multiple_of(2) { &[] } else { SECOND };
        let samples: Vec<u8> = (0..384 * w * h).map(|k| (k * 7 + k / 256 + i) as u8).collect();
        let stream = [lines, &samples, after].concat();
        Good { run: "edits", stream, lines: lines.len(), lengths: lengths(w, h) }
    }

    /// The first picture of a film, and the beginning of the second.
    fn file(bytes: &[u8]) -> Good {
        let lines: usize = bytes.split_inclusive(|byte| *byte == b'\n').take(2).map(<[u8]>::len).sum();
        let stream = bytes[..lines + 384 * 6 + 40].to_vec();
        Good { run: "files", stream, lines, lengths: lengths(3, 2) }
    }

    fn check(&self, s: &mut Session, stream: Vec<u8>) -> Outcome {
        s.look_and_read(self.run, Ask::of(stream, self.lengths))
    }

    /// The stream with other bytes in the place of some.
    fn with(&self, at: Range<usize>, bytes: &[u8]) -> Vec<u8> {
        [&self.stream[..at.start], bytes, &self.stream[at.end..]].concat()
    }

    /// Every beginning of the stream, and every end of it.
    fn cut(&self, s: &mut Session) -> Outcome {
        for at in 0..=self.stream.len() {
            self.check(s, self.stream[..at].to_vec())?;
            self.check(s, self.stream[at..].to_vec())?;
        }
        Ok(())
    }

    /// Every byte of the lines as every other byte, and every byte put in at every place of them. Samples as
    /// telling bytes.
    fn bytes_changed(&self, s: &mut Session) -> Outcome {
        for at in 0..=self.lines {
            for byte in 0..=255 {
                self.check(s, self.with(at..at + 1, &[byte]))?;
                self.check(s, self.with(at..at, &[byte]))?;
            }
        }
        for at in self.lines..self.stream.len() {
            let own = self.stream[at];
            for byte in TELLING.into_iter().chain([b'F', own.wrapping_add(1), own.wrapping_sub(1)]) {
                self.check(s, self.with(at..at + 1, &[byte]))?;
            }
        }
        Ok(())
    }

    /// Every byte removed, every byte twice, every two neighbours exchanged; of the lines every run of bytes
    /// left out.
    fn bytes_moved(&self, s: &mut Session) -> Outcome {
        for (at, &own) in self.stream.iter().enumerate() {
            self.check(s, self.with(at..at + 1, &[]))?;
            self.check(s, self.with(at..at, &[own]))?;
            if let Some(&next) = self.stream.get(at + 1) {
                self.check(s, self.with(at..at + 2, &[next, own]))?;
            }
        }
        for from in 0..self.lines {
            for to in from + 2..=self.lines {
                self.check(s, self.with(from..to, &[]))?;
            }
        }
        Ok(())
    }

    /// Planes one byte longer and shorter, empty and exchanged, in every combination.
    fn plane_lengths(&self, s: &mut Session) -> Outcome {
        let [luma, chroma, _] = self.lengths;
        let near = |own: usize| [own, own - 1, own + 1, 0, luma, chroma, 2 * own, own / 2];
        for luma in near(luma) {
            for u in near(chroma) {
                for v in near(chroma) {
                    s.look_and_read("planes", Ask::of(self.stream.clone(), [luma, u, v]))?;
                }
            }
        }
        Ok(())
    }
}

/// Every two bytes of the shortest good lines as telling bytes.
fn two_bytes_changed(s: &mut Session) -> Outcome {
    let mut stream = [SHORT, &[b' '; 384]].concat();
    for first in 0..SHORT.len() {
        for second in first + 1..SHORT.len() {
            for (a, b) in TELLING.into_iter().flat_map(|a| TELLING.map(|b| (a, b))) {
                (stream[first], stream[second]) = (a, b);
                s.look_and_read("two bytes", Ask::of(stream.clone(), lengths(1, 1)))?;
            }
            stream[..SHORT.len()].copy_from_slice(SHORT);
        }
    }
    Ok(())
}
