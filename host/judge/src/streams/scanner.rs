//! A reader and writer of streams in the ordinary way, byte by byte, which can be told to make one mistake.
//!
//! Without a mistake it must be equal to the model, which goes about it in another way: `judge mutants` asks
//! that.

use super::ask::{Ask, Call, Reply};
use super::mistakes::Mistake;
use super::scanner_lines::Header;
use super::subject::Streams;

pub struct Scanner {
    pub mistake: Option<Mistake>,
}

impl Streams for Scanner {
    fn call(&self, a: &mut Ask) -> Reply {
        match a.call {
            Call::Look | Call::Read => self.read(a),
            Call::Length => Reply::length(self.length(a.w, a.h)),
            Call::Write => Reply::refused(self.write(a)),
        }
    }
}

/// What a stream holds, as far as its lines say: the macroblocks of its sides and where its samples begin.
struct Found {
    w: usize,
    h: usize,
    from: usize,
}

/// What each check says, in the order in which they are asked.
type Checks<const N: usize> = [(u32, bool); N];

impl Scanner {
    pub fn has(&self, mistake: Mistake) -> bool {
        self.mistake == Some(mistake)
    }

    /// The number of the first check that applies, with one of them asked in another's place; 0 if none does.
    pub fn first<const N: usize>(&self, mut checks: Checks<N>, moved: Option<(usize, usize)>) -> u32 {
        match moved {
            Some((from, to)) if from < to => checks[from..=to].rotate_left(1),
            Some((from, to)) => checks[to..=from].rotate_right(1),
            None => {}
        }
        checks.iter().find(|(_, applies)| *applies).map_or(0, |(number, _)| *number)
    }

    fn read(&self, a: &mut Ask) -> Reply {
        let (number, found) = self.find(a);
        if a.call == Call::Read {
            match number {
                0 => self.place(a, &found),
                _ => self.spoil(a, &found, number),
            }
        }
        let (w, h) = match self.mistake {
            Some(Mistake::SizeTurned) => (found.h, found.w),
            Some(Mistake::SizeInPixels) => (16 * found.w, 16 * found.h),
            _ => (found.w, found.h),
        };
        match number {
            3 | 18 if self.has(Mistake::SizeWithRefusal) => Reply { number, w, h, length: 0 },
            0 => Reply { number, w, h, length: 0 },
            _ => Reply::refused(number),
        }
    }

    /// The answer, and what was found.
    fn find(&self, a: &Ask) -> (u32, Found) {
        let line = self.line(&a.stream, 0, b"YUV4MPEG2");
        let frame = self.line(&a.stream, line.next, b"FRAME");
        let tags = if self.has(Mistake::FrameTagsCount) { [&line.tags[..], &frame.tags].concat() } else { line.tags };
        let header = self.header(&tags);
        let asked = self.has(Mistake::FrameWidthAsked) && self.header(&frame.tags).w.is_none();
        let frame_bad = frame.bad || asked && frame.tags.iter().any(|tag| tag.first() == Some(&b'W'));
        let unframed = frame_bad && self.has(Mistake::NoFrameLine);
        let from = match self.mistake {
            Some(Mistake::FrameAnywhere) => last_frame(&a.stream).unwrap_or(frame.next),
            _ if unframed => line.next,
            _ => frame.next,
        };
        let (w, h) = (self.macroblocks(header.w, true), self.macroblocks(header.h, false));
        let found = Found { w: w.unwrap_or(0), h: h.unwrap_or(0), from };
        let checks = [
            (15, line.bad || header.bad),
            (15, frame_bad && !unframed),
            (16, header.planes == Some(false) || header.planes.is_none() && self.has(Mistake::NoPlanesTag)),
            (17, w.is_none() || h.is_none() || self.is_too_large(found.w, found.h)),
            (18, self.is_cut(a, &header, &found)),
            (3, a.call == Call::Read && self.is_misfit(a, found.w * found.h)),
        ];
        (self.first(checks, self.moved()), found)
    }

    /// Which check of a reader is asked in another's place.
    fn moved(&self) -> Option<(usize, usize)> {
        Some(match self.mistake? {
            Mistake::PlanesTagFirst => (2, 0),
            Mistake::FrameAfterPlanes => (1, 2),
            Mistake::FrameAfterSides => (1, 3),
            Mistake::SidesBeforePlanes => (3, 2),
            Mistake::CutBeforeSides => (4, 3),
            Mistake::CutBeforePlanesTag => (4, 2),
            Mistake::LengthsBeforeCut => (5, 4),
            Mistake::LengthsFirst => (5, 0),
            _ => return None,
        })
    }

    /// The macroblocks of a side in pixels; none where it is refused.
    fn macroblocks(&self, pixels: Option<u128>, is_width: bool) -> Option<usize> {
        let pixels = pixels?;
        let taken = match self.mistake {
            Some(Mistake::RoundsDown | Mistake::RoundsUp) => true,
            Some(Mistake::MultiplesOf8) => pixels % 8 == 0,
            Some(Mistake::OnlyWidthAsked) if !is_width => true,
            _ => pixels % 16 == 0,
        };
        let up = matches!(self.mistake, Some(Mistake::RoundsUp | Mistake::MultiplesOf8));
        let side = if up { pixels.div_ceil(16) } else { pixels / 16 };
        let side = if self.has(Mistake::Wraps8) { side & 255 } else { side };
        let largest = match self.mistake {
            Some(Mistake::SideOf257) => 257,
            Some(Mistake::SideOf256Refused) => 255,
            _ => 256,
        };
        (taken && 0 < side && side <= largest).then_some(side as usize)
    }

    fn is_too_large(&self, w: usize, h: usize) -> bool {
        match self.mistake {
            Some(Mistake::AnyProduct) => false,
            Some(Mistake::LargestRefused) => w * h >= 36_864,
            Some(Mistake::ProductWraps16) => (w * h) as u16 > 36_864,
            _ => w * h > 36_864,
        }
    }

    /// Whether the samples are fewer than the picture has.
    fn is_cut(&self, a: &Ask, header: &Header, found: &Found) -> bool {
        let side = |side: usize, pixels: Option<u128>| match side {
            0 => (pixels.unwrap_or(0) / 16).min(256) as usize,
            _ => side,
        };
        let need = 384 * side(found.w, header.w) * side(found.h, header.h);
        let there = a.stream.len() - found.from;
        match self.mistake {
            Some(Mistake::CutUnasked) if a.call == Call::Look => false,
            Some(Mistake::OneShort) => there + 1 < need,
            Some(Mistake::OneLong) => there <= need,
            Some(Mistake::TrailingBytes) => there != need,
            _ => there < need,
        }
    }

    /// Whether the planes do not fit a picture of so many macroblocks.
    fn is_misfit(&self, a: &Ask, n: usize) -> bool {
        let lengths = [a.luma.len(), a.u.len(), a.v.len()];
        let right = [256 * n, 64 * n, 64 * n];
        match self.mistake {
            Some(Mistake::LumaLengthAlone) => lengths[0] != right[0],
            Some(Mistake::SumOfLengths) => lengths.iter().sum::<usize>() != 384 * n,
            Some(Mistake::LongerPlanes) => lengths.iter().zip(right).any(|(len, right)| *len < right),
            _ => lengths != right,
        }
    }

    /// Places the planes, as far as they and the samples go.
    fn place(&self, a: &mut Ask, found: &Found) {
        let n = found.w * found.h;
        let from = if self.has(Mistake::FromNewline) { found.from - 1 } else { found.from };
        let starts = match self.mistake {
            Some(Mistake::UvRead) => [0, 320 * n, 256 * n],
            _ => [0, 256 * n, 320 * n],
        };
        let stream = a.stream.to_vec();
        for (i, plane) in a.planes().into_iter().enumerate() {
            let len = if i == 0 { 256 * n } else { 64 * n };
            let samples = stream.get(from + starts[i]..).unwrap_or_default();
            let len = match self.mistake {
                Some(Mistake::LumaAlone) if i > 0 => 0,
                Some(Mistake::LastSample) if i == 2 => len - 1,
                _ => len.min(samples.len()).min(plane.len()),
            };
            plane[..len].copy_from_slice(&samples[..len]);
        }
        if self.has(Mistake::StreamChanged) {
            a.stream[0] ^= 1;
        }
    }

    /// Changes what a refused read must not.
    fn spoil(&self, a: &mut Ask, found: &Found, number: u32) {
        let early = number == 3 && self.has(Mistake::PlacedBeforeAsked);
        if early || number == 18 && self.has(Mistake::PlacedBeforeCut) {
            let samples = a.stream[found.from..].to_vec();
            let len = samples.len().min(a.luma.len());
            a.luma[..len].copy_from_slice(&samples[..len]);
        }
        if self.has(Mistake::Emptied) {
            a.planes().into_iter().for_each(|plane| plane.fill(0));
        }
    }
}

/// Where the samples after the stream's last FRAME line begin.
fn last_frame(stream: &[u8]) -> Option<usize> {
    stream.windows(6).rposition(|line| line == b"FRAME\n").map(|at| at + 6)
}
