//! The two lines of a stream, byte by byte, in the right way or with one mistake.

use super::mistakes::Mistake;
use super::scanner::Scanner;

/// A line: its tags, whether it is malformed, and where what follows it begins.
pub struct Line<'a> {
    pub tags: Vec<&'a [u8]>,
    pub bad: bool,
    pub next: usize,
}

/// What the header says: sides in pixels, and whether its C tag is a good one.
#[derive(Default)]
pub struct Header {
    pub bad: bool,
    pub w: Option<u128>,
    pub h: Option<u128>,
    pub planes: Option<bool>,
}

impl Scanner {
    /// Reads the line from there on, which must begin with the word.
    pub fn line<'a>(&self, stream: &'a [u8], from: usize, word: &[u8]) -> Line<'a> {
        let (mut words, mut start, mut at) = (Vec::new(), from, from);
        let newline = loop {
            let byte = stream.get(at).copied();
            let end = byte.is_none_or(|b| self.is_end(b));
            if end || byte.is_some_and(|b| self.is_space(b)) {
                words.push(&stream[start..at]);
                start = at + 1;
            }
            if end {
                break byte.is_some();
            }
            at += 1;
        };
        let in_frame = word == b"FRAME";
        self.forgive(&mut words, in_frame);
        let begins = words.first().is_some_and(|first| self.is_word(first, word));
        let tags = words.split_off(words.len().min(1));
        let odd = |tag: &&[u8]| tag.is_empty() || self.is_odd(tag);
        let ended = newline || in_frame && self.has(Mistake::FrameNewlineMissing);
        let bad = !ended
            || !begins
            || tags.iter().any(odd)
            || in_frame && !tags.is_empty() && self.has(Mistake::NoFrameTags)
            || self.is_too_long(at - from, tags.len());
        Line { tags, bad, next: at + usize::from(newline) }
    }

    fn is_too_long(&self, bytes: usize, tags: usize) -> bool {
        match self.mistake {
            Some(Mistake::LinesOf80) => bytes > 80,
            Some(Mistake::LinesOf65535) => bytes > 65_535,
            Some(Mistake::Tags255) => tags > 255,
            _ => false,
        }
    }

    fn is_end(&self, b: u8) -> bool {
        b == b'\n' || b == b'\r' && self.has(Mistake::CarriageReturnEnds) || b == 0 && self.has(Mistake::ZeroByteEnds)
    }

    fn is_space(&self, b: u8) -> bool {
        b == b' ' || b == b'\t' && self.has(Mistake::Tabs)
    }

    /// Takes out what must not be there.
    fn forgive<'a>(&self, words: &mut Vec<&'a [u8]>, in_frame: bool) {
        let has = |header, frame| self.has(if in_frame { frame } else { header });
        let last: &'a [u8] = words.pop().unwrap_or_default();
        if has(Mistake::TwoSpaces, Mistake::TwoSpacesInFrame) {
            words.dedup_by(|word, _| word.is_empty());
        }
        if has(Mistake::CarriageReturn, Mistake::CarriageReturnInFrame) {
            words.push(last.strip_suffix(b"\r").unwrap_or(last));
        } else if !last.is_empty() || !has(Mistake::SpaceAtEnd, Mistake::SpaceAtEndOfFrame) {
            words.push(last);
        }
    }

    fn is_word(&self, first: &[u8], word: &[u8]) -> bool {
        match self.mistake {
            Some(Mistake::WordIsPrefix) if word != b"FRAME" => first.starts_with(word),
            Some(Mistake::FrameIsPrefix) if word == b"FRAME" => first.starts_with(word),
            Some(Mistake::WordInAnyCase) if word != b"FRAME" => first.eq_ignore_ascii_case(word),
            Some(Mistake::FrameInAnyCase) if word == b"FRAME" => first.eq_ignore_ascii_case(word),
            _ => first == word,
        }
    }

    /// Whether a tag that is not empty is taken as malformed.
    fn is_odd(&self, tag: &[u8]) -> bool {
        match self.mistake {
            Some(Mistake::HighBytes) => tag.iter().any(|b| *b > 127),
            Some(Mistake::ControlBytes) => tag.iter().any(|b| *b < 32),
            Some(Mistake::UnknownTags) => !b"WHCFIAX".contains(&tag[0]),
            _ => false,
        }
    }

    pub fn header(&self, tags: &[&[u8]]) -> Header {
        let mut header = Header::default();
        for tag in tags.iter().filter(|tag| !tag.is_empty()) {
            let within = tag.iter().position(|b| self.has(Mistake::WithinTags) && b"WHC".contains(b));
            let tag = &tag[within.unwrap_or(0)..];
            let letter = if self.has(Mistake::LowerCaseTags) { tag[0].to_ascii_uppercase() } else { tag[0] };
            match letter {
                b'W' => header.bad |= !self.side(&mut header.w, &tag[1..], Mistake::LastWidth),
                b'H' => header.bad |= !self.side(&mut header.h, &tag[1..], Mistake::LastHeight),
                b'C' => header.bad |= !self.planes_tag(&mut header.planes, &tag[1..]),
                _ => {}
            }
        }
        header.bad |= header.h.is_none() || header.w.is_none() && !self.has(Mistake::NoWidth);
        header
    }

    /// Takes a side's number; false where it is none, or not the first.
    fn side(&self, side: &mut Option<u128>, word: &[u8], last: Mistake) -> bool {
        let Some(number) = self.number(word) else { return false };
        let before = side.replace(number);
        let is_width = last == Mistake::LastWidth;
        match self.mistake {
            Some(Mistake::FirstWidth) if is_width && before.is_some() => {
                *side = before;
                true
            }
            Some(Mistake::EqualWidths) if is_width => before.is_none_or(|before| before == number),
            _ => before.is_none() || self.has(last),
        }
    }

    /// The number in decimal; none where it is malformed. What 128 bits do not hold is as large as can be.
    fn number(&self, word: &[u8]) -> Option<u128> {
        let digits = match word {
            [b'+', rest @ ..] if self.has(Mistake::Signs) => rest,
            [b'-', rest @ ..] if self.has(Mistake::MinusSigns) => return self.number(rest).and(Some(1)),
            _ => word,
        };
        if digits.is_empty() {
            return self.has(Mistake::BareWidth).then_some(0);
        }
        let base = if digits[0] == b'0' && self.has(Mistake::Octal) { 8 } else { 10 };
        let mut value: u128 = 0;
        for &b in digits {
            let digit = match b {
                b'0'..=b'9' => u128::from(b - b'0'),
                b':'.. if self.has(Mistake::AnyCharacter) => u128::from(b - b'0'),
                _ if self.has(Mistake::Letters) => break,
                _ => return None,
            };
            value = match self.wraps() {
                true => value.wrapping_mul(10).wrapping_add(digit),
                false => value.saturating_mul(base).saturating_add(digit),
            };
        }
        self.spoiled(value, digits)
    }

    fn wraps(&self) -> bool {
        use Mistake::{Wraps128, Wraps16, Wraps32, Wraps64};
        matches!(self.mistake, Some(Wraps16 | Wraps32 | Wraps64 | Wraps128))
    }

    /// The number as a mistake makes it.
    fn spoiled(&self, value: u128, digits: &[u8]) -> Option<u128> {
        match self.mistake {
            Some(Mistake::Wraps16) => Some((value as u16).into()),
            Some(Mistake::Wraps32) => Some((value as u32).into()),
            Some(Mistake::Wraps64) => Some((value as u64).into()),
            Some(Mistake::Capped) => Some(value.min(4096)),
            Some(Mistake::LongIsMalformed) => (value <= u32::MAX.into()).then_some(value),
            Some(Mistake::LongerIsMalformed) => (value <= u64::MAX.into()).then_some(value),
            Some(Mistake::ZeroIsMalformed) => (value > 0).then_some(value),
            Some(Mistake::NoLeadingZeros) => (digits.len() == 1 || digits[0] != b'0').then_some(value),
            Some(Mistake::FewLeadingZeros) => Some(if digits.len() > 20 { 0 } else { value }),
            _ => Some(value),
        }
    }

    /// Takes a C tag; false where it is not the first.
    fn planes_tag(&self, planes: &mut Option<bool>, value: &[u8]) -> bool {
        let before = planes.replace(self.is_420(value));
        match self.mistake {
            Some(Mistake::BarePlanesTag) if value.is_empty() => false,
            Some(Mistake::FirstPlanesTag) if before.is_some() => {
                *planes = before;
                true
            }
            _ => before.is_none() || self.has(Mistake::LastPlanesTag),
        }
    }

    fn is_420(&self, value: &[u8]) -> bool {
        const GOOD: [(&[u8], Mistake); 4] = [
            (b"420", Mistake::No420),
            (b"420jpeg", Mistake::NoJpeg),
            (b"420mpeg2", Mistake::NoMpeg2),
            (b"420paldv", Mistake::NoPaldv),
        ];
        match self.mistake {
            Some(Mistake::BarePlanesTagTaken) if value.is_empty() => true,
            Some(Mistake::StartsWith420) => value.starts_with(b"420"),
            Some(Mistake::AnyCase) => GOOD.iter().any(|(good, _)| value.eq_ignore_ascii_case(good)),
            _ => GOOD.iter().any(|(good, without)| value == *good && !self.has(*without)),
        }
    }
}
