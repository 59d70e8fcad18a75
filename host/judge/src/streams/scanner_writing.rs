//! Writing a stream, in the right way or with one mistake.

use super::ask::Ask;
use super::mistakes::Mistake;
use super::scanner::Scanner;

impl Scanner {
    /// How long a written stream is; 0 where the size is refused.
    pub fn length(&self, w: usize, h: usize) -> usize {
        let refused = match self.mistake {
            Some(Mistake::LengthWithoutRefusal) => false,
            Some(Mistake::LengthProductWraps) => !(1..=36_864).contains(&w.wrapping_mul(h)),
            _ => self.is_bad_size(w, h),
        };
        let samples = w.wrapping_mul(h).wrapping_mul(384);
        match self.mistake {
            _ if refused => 0,
            Some(Mistake::LengthOfTwoDigits) => 34 + samples,
            Some(Mistake::LengthWithoutLines) => samples,
            _ => samples.wrapping_add(self.lines(w, h).len()),
        }
    }

    pub fn write(&self, a: &mut Ask) -> u32 {
        let n = a.w.wrapping_mul(a.h);
        let lines = self.lines(a.w, a.h);
        let [luma, chroma] = [256, 64].map(|samples| n.wrapping_mul(samples));
        let chroma_bad = a.u.len() != chroma || a.v.len() != chroma;
        let right = n.wrapping_mul(384).wrapping_add(lines.len());
        let checks = [
            (1, self.is_bad_size(a.w, a.h)),
            (3, a.luma.len() != luma || chroma_bad && !self.has(Mistake::WriteLumaLength)),
            (18, self.is_bad_room(a.stream.len(), right)),
        ];
        let moved = match self.mistake {
            Some(Mistake::WriteLengthsFirst) => Some((1, 0)),
            Some(Mistake::WriteRoomBeforeLengths) => Some((2, 1)),
            Some(Mistake::WriteRoomFirst) => Some((2, 0)),
            _ => None,
        };
        let number = self.first(checks, moved);
        let early = number == 18 && self.has(Mistake::WrittenBeforeRoom)
            || number == 3 && self.has(Mistake::WrittenBeforeLengths);
        if number == 0 {
            let chroma = if self.has(Mistake::UvWritten) { [&a.v, &a.u] } else { [&a.u, &a.v] };
            let stream = [&lines[..], &a.luma, chroma[0], chroma[1]].concat();
            put(a, &stream);
        } else if early {
            put(a, &lines);
        }
        if let (Some(last), true) = (a.v.last_mut(), number == 0 && self.has(Mistake::PlaneChanged)) {
            *last ^= 1;
        }
        number
    }

    fn is_bad_size(&self, w: usize, h: usize) -> bool {
        let product_bad = w.wrapping_mul(h) > 36_864 && !self.has(Mistake::WriteAnyProduct);
        w == 0 || h == 0 || w > 256 || h > 256 || product_bad
    }

    fn is_bad_room(&self, room: usize, right: usize) -> bool {
        match self.mistake {
            Some(Mistake::LongerRoom) => room < right,
            Some(Mistake::ShorterRoom) => room > right,
            _ => room != right,
        }
    }

    fn lines(&self, w: usize, h: usize) -> Vec<u8> {
        let (w, h) = if self.has(Mistake::TurnedWritten) { (h, w) } else { (w, h) };
        let each = if self.has(Mistake::MacroblocksWritten) { 1 } else { 16 };
        let [w, h] = [w, h].map(|side| side.wrapping_mul(each));
        let planes = match self.mistake {
            Some(Mistake::JpegWritten) => " C420jpeg",
            Some(Mistake::PaldvWritten) => " C420paldv",
            Some(Mistake::NoPlanesTagWritten) => "",
            _ => " C420mpeg2",
        };
        let frame = match self.mistake {
            Some(Mistake::FrameSpaceWritten) => "FRAME \n",
            Some(Mistake::NoNewlineWritten) => "FRAME",
            _ => "FRAME\n",
        };
        let sides = match self.mistake {
            Some(Mistake::ZerosWritten) => format!("W{w:04} H{h:04}"),
            _ => format!("W{w} H{h}"),
        };
        format!("YUV4MPEG2 {sides}{planes}\n{frame}").into_bytes()
    }
}

/// Puts the bytes at the start of the destination, as far as it goes.
fn put(a: &mut Ask, bytes: &[u8]) {
    let len = bytes.len().min(a.stream.len());
    a.stream[..len].copy_from_slice(&bytes[..len]);
}
