//! The rule of what is final by indices, which can be told to make one mistake.
//!
//! Without a mistake it must be equal to the model, which goes by lists of places: `judge mutants` asks that.

use super::ask::{Ask, Call, Reply};
use super::mistakes::Mistake;
use super::subject::Finality;

pub struct Rule {
    pub mistake: Option<Mistake>,
}

impl Finality for Rule {
    fn call(&self, a: &mut Ask) -> Reply {
        let found = match a.call {
            Call::IsFinal => self.one(a, a.x, a.y).map(|own| [own, false, false]),
            Call::MadeFinal => self.made(a),
        };
        if let (Ok(_), Some(Mistake::MarkTaken)) = (found, self.mistake) {
            a.marks[a.y * a.w + a.x] = 0;
        }
        let yes = if self.has(Mistake::YesIs255) { 255 } else { 1 };
        match found {
            Ok(finals) => Reply { number: 0, finals: finals.map(|is_final| yes * u8::from(is_final)) },
            Err(number) if self.has(Mistake::ToldWithRefusal) => Reply { number, finals: [1, 0, 0] },
            Err(number) => Reply::refused(number),
        }
    }
}

impl Rule {
    fn has(&self, mistake: Mistake) -> bool {
        self.mistake == Some(mistake)
    }

    /// What is final of a macroblock, its left and its upper neighbour, or the first refusal.
    fn made(&self, a: &Ask) -> Result<[bool; 3], u32> {
        let own = self.one(a, a.x, a.y)?;
        if self.has(Mistake::AskedOnceMarked) && self.mark(a, a.x, a.y) == 0 {
            return Ok([own, false, false]);
        }
        let left = match self.left(a) {
            Err(_) if self.has(Mistake::LeftRefusalForgotten) => false,
            left => left?,
        };
        let upper = match self.upper(a) {
            Err(_) if self.has(Mistake::UpperRefusalForgotten) => false,
            upper => upper?,
        };
        Ok(match self.mistake {
            Some(Mistake::LeftUpperExchanged) => [own, upper, left],
            Some(Mistake::OwnUntold) => [false, left, upper],
            Some(Mistake::NeighboursAfterOwn) => [own, own && left, own && upper],
            _ => [own, left, upper],
        })
    }

    fn left(&self, a: &Ask) -> Result<bool, u32> {
        match self.mistake {
            Some(Mistake::NoLeft) => Ok(false),
            Some(Mistake::RightForLeft) if a.x + 1 < a.w => self.one(a, a.x + 1, a.y),
            Some(Mistake::RightForLeft) => Ok(false),
            Some(Mistake::LeftWraps) if a.x == 0 && a.y > 0 => self.one(a, a.w - 1, a.y - 1),
            _ if a.x > 0 => self.one(a, a.x - 1, a.y),
            _ => Ok(false),
        }
    }

    fn upper(&self, a: &Ask) -> Result<bool, u32> {
        match self.mistake {
            Some(Mistake::NoUpper) => Ok(false),
            Some(Mistake::LowerForUpper) if a.y + 1 < a.h => self.one(a, a.x, a.y + 1),
            Some(Mistake::LowerForUpper) => Ok(false),
            Some(Mistake::UpperLeftForUpper) if a.x > 0 && a.y > 0 => self.one(a, a.x - 1, a.y - 1),
            Some(Mistake::UpperLeftForUpper) => Ok(false),
            _ if a.y > 0 => self.one(a, a.x, a.y - 1),
            _ => Ok(false),
        }
    }

    /// Whether macroblock (x, y) is final, or the number of the first check that applies.
    fn one(&self, a: &Ask, x: usize, y: usize) -> Result<bool, u32> {
        let mut checks = [
            (1, self.is_bad_size(a.w, a.h)),
            (2, self.is_outside(a, x, y)),
            (4, self.is_bad_length(a)),
            (7, self.is_bad_mark(a, x, y)),
        ];
        match self.mistake {
            Some(Mistake::PlaceBeforeSize) => checks.swap(0, 1),
            Some(Mistake::LengthBeforePlace) => checks.swap(1, 2),
            Some(Mistake::LengthFirst) => checks[..3].rotate_right(1),
            Some(Mistake::MarksBeforeLength) => checks.swap(2, 3),
            _ => {}
        }
        match checks.iter().find(|(_, applies)| *applies) {
            Some((number, _)) => Err(*number),
            None => Ok(self.is_final(a, x, y)),
        }
    }

    fn is_bad_size(&self, w: usize, h: usize) -> bool {
        let n = w.wrapping_mul(h);
        match self.mistake {
            Some(Mistake::SizeUnasked) => false,
            Some(Mistake::ZeroTaken) => w > 256 || h > 256 || n > 36_864,
            Some(Mistake::WidthUnasked) => w == 0 || h == 0 || h > 256 || n > 36_864,
            Some(Mistake::HeightUnasked) => w == 0 || h == 0 || w > 256 || n > 36_864,
            Some(Mistake::AnyProduct) => w == 0 || h == 0 || w > 256 || h > 256,
            Some(Mistake::LargestRefused) => w == 0 || h == 0 || w > 256 || h > 256 || n >= 36_864,
            Some(Mistake::SideOf256Refused) => w == 0 || h == 0 || w > 255 || h > 255 || n > 36_864,
            _ => w == 0 || h == 0 || w > 256 || h > 256 || n > 36_864,
        }
    }

    fn is_outside(&self, a: &Ask, x: usize, y: usize) -> bool {
        match self.mistake {
            Some(Mistake::ColumnUnasked) => y >= a.h,
            Some(Mistake::RowUnasked) => x >= a.w,
            Some(Mistake::IndexAsked) => self.index(a, x, y) >= a.w.wrapping_mul(a.h),
            Some(Mistake::OneBeyondTaken) => x > a.w || y > a.h,
            _ => x >= a.w || y >= a.h,
        }
    }

    fn is_bad_length(&self, a: &Ask) -> bool {
        let (len, n) = (a.marks.len(), a.w.wrapping_mul(a.h));
        match self.mistake {
            Some(Mistake::LongerTaken) => len < n,
            Some(Mistake::ShorterTaken) => len > n,
            Some(Mistake::EmptyTaken) => len != n && len != 0,
            _ => len != n,
        }
    }

    fn is_bad_mark(&self, a: &Ask, x: usize, y: usize) -> bool {
        let [own, right, lower] = self.marks(a, x, y);
        match self.mistake {
            Some(Mistake::AnyMark | Mistake::MarksUnasked) => false,
            Some(Mistake::AskedWhereMarked) if own == 0 => false,
            Some(Mistake::OwnUnasked) => right > 1 || lower > 1,
            Some(Mistake::RightUnasked) => own > 1 || lower > 1,
            Some(Mistake::LowerUnasked) => own > 1 || right > 1,
            Some(Mistake::LowerRightAsked) => [own, right, lower, self.lower_right(a, x, y)].iter().any(|m| *m > 1),
            Some(Mistake::AllAsked) => a.marks.iter().any(|mark| *mark > 1),
            Some(Mistake::TwoTaken) => own > 2 || right > 2 || lower > 2,
            _ => own > 1 || right > 1 || lower > 1,
        }
    }

    fn is_final(&self, a: &Ask, x: usize, y: usize) -> bool {
        let [own, right, lower] = self.marks(a, x, y).map(|mark| mark == 1 || mark > 1 && self.has(Mistake::AnyMark));
        match self.mistake {
            Some(Mistake::NoOwn) => right && lower,
            Some(Mistake::NoRightAwaited) => own && lower,
            Some(Mistake::NoLowerAwaited) => own && right,
            Some(Mistake::OwnAlone) => own,
            Some(Mistake::OneOfTwo) => own && (right || lower),
            Some(Mistake::LowerRightAwaited) => own && right && lower && self.lower_right(a, x, y) == 1,
            Some(Mistake::LeftAwaited) => own && right && lower && (x == 0 || self.mark(a, x - 1, y) == 1),
            Some(Mistake::UpperAwaited) => own && right && lower && (y == 0 || self.mark(a, x, y - 1) == 1),
            Some(Mistake::Never) => false,
            _ => own && right && lower,
        }
    }

    /// The marks of a macroblock, its right and its lower neighbour; 1 for one that does not exist.
    fn marks(&self, a: &Ask, x: usize, y: usize) -> [u8; 3] {
        let beyond = if self.has(Mistake::BorderAwaited) { 0 } else { 1 };
        let (next, below) = (x.wrapping_add(1), y.wrapping_add(1));
        let wraps = self.has(Mistake::RightWraps) && below < a.h;
        let right = if next < a.w || wraps { self.mark(a, next, y) } else { beyond };
        let lower = if below < a.h { self.mark(a, x, below) } else { beyond };
        [self.mark(a, x, y), right, lower]
    }

    /// The mark of the lower right neighbour; 1 where there is none.
    fn lower_right(&self, a: &Ask, x: usize, y: usize) -> u8 {
        let (next, below) = (x.wrapping_add(1), y.wrapping_add(1));
        if next < a.w && below < a.h {
            self.mark(a, next, below)
        } else {
            1
        }
    }

    /// The mark at an index; 0 beyond the end, where a mistake has let the place pass.
    fn mark(&self, a: &Ask, x: usize, y: usize) -> u8 {
        a.marks.get(self.index(a, x, y)).copied().unwrap_or(0)
    }

    fn index(&self, a: &Ask, x: usize, y: usize) -> usize {
        match self.mistake {
            Some(Mistake::ByColumns) => x.wrapping_mul(a.h).wrapping_add(y),
            _ => y.wrapping_mul(a.w).wrapping_add(x),
        }
    }
}
