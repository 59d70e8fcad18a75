//! What a call answers.

use std::{error, fmt};

/// What a call answers, by the numbers of docs/RULES.md, "Answers". All but `Done` are refusals, and a
/// refusal has changed nothing that was lent. They stand in the order in which calls look for them, which is
/// not that of their numbers: 19 comes between 2 and 3, 20 and 21 after 9, 22 between 10 and 11. The calls of
/// [`y4m`](crate::y4m) and [`derive_row`](crate::Picture::derive_row) have orders of their own, which
/// stand with them. An answer must be looked at:
///
/// ```compile_fail
/// #![deny(unused_must_use)]
/// deblock::Picture::default().whole();
/// ```
#[must_use = "a refused call has done nothing"]
#[derive(Clone, Copy, PartialEq, Eq, Debug, PartialOrd, Ord)]
pub enum Answer {
    /// The call did what was asked.
    Done = 0,
    /// `w` or `h` is not 1 to 256, or their product is above 36,864.
    BadSize = 1,
    /// The macroblock or row is outside the picture, or the rows are not `start <= end <= h`.
    Outside = 2,
    /// The part is none of frame, top field and bottom field, which a [`Picture`](crate::Picture) cannot say.
    BadParity = 19,
    /// `luma`, `u` or `v` has the wrong length.
    PlaneLength = 3,
    /// `strengths`, `qps`, `t8s`, `marks`, `slice_numbers` or the kinds of a row call have the wrong length.
    MacroblockGridLength = 4,
    /// One of the 4x4 grids has the wrong length, or just one of `ref1` and `mv1` is empty, or just one of
    /// the tables `pictures0` and `pictures1`; the latter alone may be, where list 1 is not lent.
    BlockGridLength = 5,
    /// `a`, `b`, `chroma_u` or `chroma_v` is not -12 to 12; of a table of slices `a` or `b` of a record, read
    /// or not.
    BadOffset = 6,
    /// A byte of `inter`, `t8s` or `marks` that is read is above 1.
    NotABool = 7,
    /// A QP that is read is above 51.
    BadQp = 8,
    /// A strength that is read is above 4.
    BadStrength = 9,
    /// A slice number that is read is outside the table.
    BadSliceNumber = 20,
    /// A record of the table of slices, read or not, has a mode above 2.
    BadSliceMode = 21,
    /// A reference that is read is below -1.
    BadReference = 10,
    /// An entry of `pictures0` or `pictures1`, read or not, is not 0 to 65,535.
    BadPictureNumber = 22,
    /// The 16 blocks, the 4 read to the left or the 4 read above disagree on inter.
    MixedInter = 11,
    /// The kind, or `flat` or `uniform` where it is set, is not true of the grids.
    Untrue = 12,
    /// The macroblock is marked already.
    MarkedAlready = 13,
    /// The left, upper or upper right neighbour exists and is unmarked.
    NotReady = 14,
    /// A stream's header line or `FRAME` line is malformed or has no newline.
    BadStreamLine = 15,
    /// A stream's C tag is not 420, 420jpeg, 420mpeg2 or 420paldv.
    OtherPlanes = 16,
    /// A side of a stream's picture is no multiple of 16, or its size is out of range.
    BadSides = 17,
    /// A stream is cut short; one to be written is not just as long as it must be.
    StreamLength = 18,
}

/// Each answer with its sentence, in the order of the numbers.
const WORDS: [(Answer, &str); 23] = [
    (Answer::Done, "done"),
    (Answer::BadSize, "width, height or their product is out of range"),
    (Answer::Outside, "the macroblock is outside the picture, or the rows are not first <= last <= h"),
    (Answer::PlaneLength, "luma, U or V has the wrong length"),
    (Answer::MacroblockGridLength, "strengths, QPs, 8x8 flags, kinds, marks or slice numbers have the wrong length"),
    (Answer::BlockGridLength, "a 4x4 grid has the wrong length, or just one list 1 grid or reference table is empty"),
    (Answer::BadOffset, "an offset is not within -12 to 12"),
    (Answer::NotABool, "an inter byte, 8x8 flag or mark is not 0 or 1"),
    (Answer::BadQp, "a QP is above 51"),
    (Answer::BadStrength, "a strength is above 4"),
    (Answer::BadReference, "a reference number is below -1"),
    (Answer::MixedInter, "the 16 blocks, the 4 to the left or the 4 above disagree on inter"),
    (Answer::Untrue, "the kind or a set flag is not true of the grids"),
    (Answer::MarkedAlready, "the macroblock was visited before"),
    (Answer::NotReady, "its left, upper or upper right neighbour is not visited yet"),
    (Answer::BadStreamLine, "the stream's header line or FRAME line is malformed or has no newline"),
    (Answer::OtherPlanes, "the stream's C tag is not 420, 420jpeg, 420mpeg2 or 420paldv"),
    (Answer::BadSides, "a side of the stream's picture is no multiple of 16, or its size is out of range"),
    (Answer::StreamLength, "the stream is cut short, or is not just as long as what is to be written"),
    (Answer::BadParity, "the part is not a frame, a top field or a bottom field"),
    (Answer::BadSliceNumber, "a slice number is outside the table of slices"),
    (Answer::BadSliceMode, "the mode of a slice is not 0, 1 or 2"),
    (Answer::BadPictureNumber, "an entry of a reference table is outside 0 to 65535"),
];

impl Answer {
    /// The answer of number `n`. The archive is proved to give no other; one would mean that a different
    /// archive was linked, and there is no going on from that.
    pub(crate) fn of(n: u32) -> Answer {
        match WORDS.iter().find(|(answer, _)| answer.number() == n) {
            Some(&(answer, _)) => answer,
            None => panic!("the archive answered {n}, which is no answer of this version: is it the right archive?"),
        }
    }

    /// The number that the archive answered: 0 to 22.
    pub fn number(self) -> u32 {
        self as u32
    }

    /// Whether the call did what was asked.
    pub fn is_done(self) -> bool {
        self == Answer::Done
    }

    /// The same as a result, for `?`: a refusal is the error.
    pub fn ok(self) -> Result<(), Answer> {
        match self {
            Answer::Done => Ok(()),
            refusal => Err(refusal),
        }
    }
}

impl fmt::Display for Answer {
    fn fmt(&self, f: &mut fmt::Formatter) -> fmt::Result {
        let (_, words) = WORDS.iter().find(|(answer, _)| answer == self).expect("every answer has words");
        f.write_str(words)
    }
}

impl error::Error for Answer {}

#[cfg(test)]
mod tests {
    use super::*;

    #[test]
    fn numbers_and_words_are_in_step() {
        assert!(WORDS.iter().map(|(answer, _)| answer.number()).eq(0..=22));
        for (answer, words) in WORDS {
            assert_eq!((Answer::of(answer.number()), answer.to_string().as_str()), (answer, words));
        }
    }

    #[test]
    fn an_unknown_number_is_not_passed_on() {
        for number in [23, 24, u32::MAX] {
            let panic = std::panic::catch_unwind(|| Answer::of(number)).expect_err("it is none");
            let words = panic.downcast_ref::<String>().expect("words");
            assert!(words.starts_with(&format!("the archive answered {number},")), "{words}");
        }
    }

    #[test]
    fn a_refusal_is_an_error() {
        assert!(Answer::Done.is_done() && !Answer::NotReady.is_done());
        let refused = || -> Result<(), Box<dyn error::Error>> {
            Answer::Done.ok()?;
            Answer::BadQp.ok()?;
            Ok(())
        };
        assert_eq!(refused().map_err(|e| e.to_string()), Err("a QP is above 51".to_string()));
    }
}
