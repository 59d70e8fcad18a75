//! Pictures kept as YUV4MPEG2 streams (`.y4m`): a header line, which says the size in pixels, and then for
//! each picture a line `FRAME` and its planes, Y, U and V end to end.
//!
//! [`look`] tells how large the first picture of a stream is, [`read`] places its planes in memory that is
//! lent, and [`write()`] writes a stream of one picture, as many bytes as [`length`] tells. What the lines
//! may hold stands in include/deblock.h. A refused call has changed nothing that was lent.
//!
//! A decoded picture from a stream through the filter to a stream:
//!
//! ```
//! use deblock::{y4m, Answer, Picture};
//!
//! let mut stream = b"YUV4MPEG2 W32 H016 F25:1 Ip C420jpeg\nFRAME\n".to_vec();
//! stream.extend((0..512).map(|i| if i % 32 < 16 { 100 } else { 103 })); // Y: two macroblocks
//! stream.extend([128; 128 + 128]); // U and V
//!
//! let size = y4m::look(&stream)?;
//! let n = size.macroblocks();
//! let [mut luma, mut u, mut v] = [256 * n, 64 * n, 64 * n].map(|len| vec![0; len]);
//! y4m::read(&stream, &mut luma, &mut u, &mut v)?;
//!
//! let (luma, u, v) = (&mut luma[..], &mut u[..], &mut v[..]);
//! let (strengths, qps) = (&mut vec![1; 32 * n], &vec![36; n]);
//! let mut picture = Picture { size, luma, u, v, strengths, qps, ..Picture::default() };
//! picture.whole().ok()?;
//!
//! let mut filtered = vec![0; y4m::length(size).expect("a picture of this size was read")];
//! y4m::write(size, picture.luma, picture.u, picture.v, &mut filtered).ok()?;
//! assert!(filtered.starts_with(b"YUV4MPEG2 W32 H16 C420mpeg2\nFRAME\n"));
//! assert_eq!(picture.luma[12..20], [100, 100, 101, 101, 102, 102, 102, 103]);
//! assert_eq!(y4m::look(&filtered), Ok(size));
//! # Ok::<(), Answer>(())
//! ```
//!
//! A file may hold many pictures, and the calls look at the first. To read another, lend the header line, the
//! picture's own `FRAME` line and its planes end to end.

use crate::{wire, Answer, Size};

/// How large the first picture of a stream is, in macroblocks. It asks, in this order, for
/// [`Answer::BadStreamLine`], [`Answer::OtherPlanes`], [`Answer::BadSides`] and [`Answer::StreamLength`].
///
/// ```
/// use deblock::{y4m, Answer};
///
/// let stream = b"YUV4MPEG2 W720 H570\nFRAME\n";
/// assert_eq!(y4m::look(stream), Err(Answer::BadSides)); // 570 is no multiple of 16
/// ```
pub fn look(stream: &[u8]) -> Result<Size, Answer> {
    found(wire::y4m_look(stream))
}

/// Places the planes of a stream's first picture, and tells its size. With n macroblocks `luma` has 256 n
/// bytes, `u` and `v` have 64 n each. It asks what [`look`] does, then for [`Answer::PlaneLength`].
pub fn read(stream: &[u8], luma: &mut [u8], u: &mut [u8], v: &mut [u8]) -> Result<Size, Answer> {
    found(wire::y4m_read(stream, luma, u, v))
}

/// How many bytes [`write()`] writes; none where it would refuse the size.
pub fn length(size: Size) -> Option<usize> {
    Some(wire::y4m_length(size)).filter(|&bytes| bytes > 0)
}

/// Writes a stream of one picture: the line `YUV4MPEG2 Wn Hn C420mpeg2`, n in pixels, the line `FRAME` and
/// the planes. It asks, in this order, for [`Answer::BadSize`], [`Answer::PlaneLength`] and
/// [`Answer::StreamLength`], which means that `stream` is not just as long as [`length`] tells.
pub fn write(size: Size, luma: &[u8], u: &[u8], v: &[u8], stream: &mut [u8]) -> Answer {
    Answer::of(wire::y4m_write(size, luma, u, v, stream))
}

fn found(told: wire::Y4m) -> Result<Size, Answer> {
    Answer::of(told.answer).ok()?;
    Ok(Size { w: told.w as usize, h: told.h as usize })
}

#[cfg(test)]
mod tests {
    use super::*;

    /// Two lines and the planes of one macroblock, the last of which ends in 9.
    fn stream(lines: &str) -> Vec<u8> {
        [lines.as_bytes(), &[7; 383], &[9]].concat()
    }

    const ONE: Size = Size { w: 1, h: 1 };

    #[test]
    fn lines_that_are_taken() {
        let lines = [
            "YUV4MPEG2 W16 H16\nFRAME\n",
            "YUV4MPEG2 H0000000000000000000000016 W016\nFRAME\n",
            "YUV4MPEG2 W16 H16 F25:1 Ip A1:1 C420 XYSCSS=420\nFRAME Ip XW32\n",
            "YUV4MPEG2 C420jpeg W16 H16\nFRAME\n",
            "YUV4MPEG2 W16 C420mpeg2 H16 X\r\nFRAME X\0\n",
            "YUV4MPEG2 W16 H16 C420paldv YUV4MPEG2 FRAME\nFRAME W H C\n",
        ];
        for lines in lines {
            assert_eq!(look(&stream(lines)), Ok(ONE), "{lines}");
        }
    }

    #[test]
    fn lines_that_are_malformed() {
        let header = [
            "",
            "YUV4MPEG",
            "yuv4mpeg2 W16 H16",
            "YUV4MPEG2W16 H16",
            "YUV4MPEG2  W16 H16",
            "YUV4MPEG2 W16 H16 ",
            "YUV4MPEG2\tW16 H16",
            "YUV4MPEG2 W16",
            "YUV4MPEG2 H16",
            "YUV4MPEG2 W16 H16 W16",
            "YUV4MPEG2 W H16",
            "YUV4MPEG2 W+16 H16",
            "YUV4MPEG2 W-16 H16",
            "YUV4MPEG2 W16 H16\r",
            "YUV4MPEG2 W16 H0x10",
            "YUV4MPEG2 W16 H16 C420 C420",
            "YUV4MPEG2 W16 H16 Ip  C420",
        ];
        for header in header {
            assert_eq!(look(&stream(&format!("{header}\nFRAME\n"))), Err(Answer::BadStreamLine), "{header}");
        }
        for frame in ["", "frame", "FRAM", "FRAMES", "FRAME ", "FRAME  Ip", "FRAME\r", "FRAME\tIp"] {
            let lines = format!("YUV4MPEG2 W16 H16\n{frame}\n");
            assert_eq!(look(&stream(&lines)), Err(Answer::BadStreamLine), "{frame}");
        }
        for lines in ["YUV4MPEG2 W16 H16", "YUV4MPEG2 W16 H16\nFRAME", "YUV4MPEG2 W16 H16\nFRAME Ip"] {
            assert_eq!(look(lines.as_bytes()), Err(Answer::BadStreamLine), "{lines}");
        }
    }

    /// Sides that no picture has, and those of the largest, of which no byte follows here.
    #[test]
    fn sides_are_multiples_of_16_in_range() {
        let at_end = |w: &str, h: &str| look(format!("YUV4MPEG2 W{w} H{h}\nFRAME\n").as_bytes());
        for side in ["0", "8", "15", "17", "24", "4112", "18446744073709551632", "1000000000000000000000000000016"] {
            assert_eq!([at_end(side, "16"), at_end("16", side)], [Err(Answer::BadSides); 2], "{side}");
        }
        assert_eq!(at_end("4096", "2320"), Err(Answer::BadSides));
        for (w, h) in [("4096", "2304"), ("2304", "4096"), ("4096", "16"), ("16", "004096")] {
            assert_eq!(at_end(w, h), Err(Answer::StreamLength), "{w} {h}");
        }
    }

    /// All is wrong at first; each line mends what was refused before. Nothing is written until all is right.
    #[test]
    fn refusals_have_an_order() {
        let (mut luma, mut u, mut v) = ([1; 257], [1; 64], [1; 64]);
        let cut = |lines: &str| stream(lines)[..lines.len() + 383].to_vec();
        let refused = [
            (cut("YUV4MPEG2 W16 H15 C422\nFRAMES\n"), Answer::BadStreamLine),
            (cut("YUV4MPEG2 W16 H15 C422\nFRAME\n"), Answer::OtherPlanes),
            (cut("YUV4MPEG2 W16 H15 C\nFRAME\n"), Answer::OtherPlanes),
            (cut("YUV4MPEG2 W16 H15 C420\nFRAME\n"), Answer::BadSides),
            (cut("YUV4MPEG2 W16 H16 C420\nFRAME\n"), Answer::StreamLength),
            (stream("YUV4MPEG2 W16 H16 C420\nFRAME\n"), Answer::PlaneLength),
        ];
        for (stream, answer) in refused {
            assert_eq!(read(&stream, &mut luma, &mut u, &mut v), Err(answer));
            assert_eq!((luma, u, v), ([1; 257], [1; 64], [1; 64]));
        }
        let more = [&stream("YUV4MPEG2 W16 H16 C420\nFRAME\n")[..], b"what follows is not looked at"].concat();
        assert_eq!(read(&more, &mut luma[..256], &mut u, &mut v), Ok(ONE));
        assert_eq!((luma[0], luma[255], luma[256], u, v[62], v[63]), (7, 7, 1, [7; 64], 7, 9));
    }

    /// The same of the writer.
    #[test]
    fn the_writer_has_an_order_too() {
        let (luma, u, v) = ([7; 256], [7; 64], [7; 64]);
        let bytes = length(ONE).expect("a size");
        let mut to = vec![1; bytes + 1];
        for size in [Size { w: 0, h: 1 }, Size { w: 1, h: 257 }, Size { w: 200, h: 200 }] {
            assert_eq!((length(size), write(size, &luma, &u, &v[1..], &mut to)), (None, Answer::BadSize));
        }
        assert_eq!(write(ONE, &luma, &u, &v[1..], &mut to), Answer::PlaneLength);
        assert_eq!(write(ONE, &luma, &u, &v, &mut to), Answer::StreamLength);
        assert_eq!(write(ONE, &luma, &u, &v, &mut to[2..]), Answer::StreamLength);
        assert_eq!(to, vec![1; bytes + 1]);
        assert!(write(ONE, &luma, &u, &v, &mut to[1..]).is_done());
        assert_eq!(to[1..], [b"YUV4MPEG2 W16 H16 C420mpeg2\nFRAME\n".as_slice(), &[7; 384]].concat());
    }

    #[test]
    fn what_was_written_is_read_again() {
        for (w, h) in [(1, 1), (6, 7), (7, 6), (63, 2), (256, 1), (1, 256)] {
            let (size, n) = (Size { w, h }, w * h);
            let sample = |i: usize| (i * i / 7 % 256) as u8;
            let [luma, u, v] = [(0, 256), (1, 64), (2, 64)]
                .map(|(from, each)| (from..from + each * n).map(sample).collect::<Vec<u8>>());
            let mut stream = vec![0; length(size).expect("a size")];
            assert!(write(size, &luma, &u, &v, &mut stream).is_done());
            let mut again = [luma.len(), u.len(), v.len()].map(|len| vec![0; len]);
            let [a, b, c] = &mut again;
            assert_eq!((look(&stream), read(&stream, a, b, c)), (Ok(size), Ok(size)));
            assert!(again == [luma, u, v], "{w} by {h}");
            assert_eq!(look(&stream[..stream.len() - 1]), Err(Answer::StreamLength));
        }
    }
}
