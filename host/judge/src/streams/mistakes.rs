//! Wrong readers and writers of streams, and how many of them the comparison catches.

use super::scanner::Scanner;
use super::session::Session;
use crate::mistakes::{all_caught as all, mistakes, Kind};
use crate::rounds::Depth;
use crate::session::Outcome;

mistakes! {
    PlanesTagFirst "16 before 15"
    FrameAfterPlanes "the FRAME line is asked after 16"
    FrameAfterSides "the FRAME line is asked after 17"
    SidesBeforePlanes "17 before 16"
    CutBeforeSides "18 before 17"
    CutBeforePlanesTag "18 before 16"
    LengthsBeforeCut "3 before 18"
    LengthsFirst "3 before everything"
    LastWidth "a doubled W is taken: the last counts"
    FirstWidth "a doubled W is taken: the first counts"
    EqualWidths "a W is taken twice where both say the same"
    LastHeight "a doubled H is taken: the last counts"
    LastPlanesTag "a doubled C is taken: the last counts"
    FirstPlanesTag "a doubled C is taken: the first counts"
    NoWidth "a missing W is 17"
    BareWidth "a bare W counts as 0: 17"
    Signs "a plus sign is taken in a number"
    MinusSigns "a number below 0 is 17"
    Letters "a number ends where its digits end, and the rest is passed over"
    AnyCharacter "a byte above 9 counts as a digit"
    Wraps8 "numbers wrap at 8 bits, as macroblocks"
    Wraps16 "numbers wrap at 16 bits"
    Wraps32 "numbers wrap at 32 bits"
    Wraps64 "numbers wrap at 64 bits"
    Wraps128 "numbers wrap at 128 bits"
    ProductWraps16 "the product of the sides wraps at 16 bits"
    Capped "a larger side counts as 4096"
    LongIsMalformed "a number that 32 bits do not hold is 15"
    LongerIsMalformed "a number that 64 bits do not hold is 15"
    ZeroIsMalformed "a side of 0 is 15"
    NoLeadingZeros "leading zeros are 15"
    FewLeadingZeros "a number of more than 20 digits is 17, leading zeros counted"
    Octal "leading zeros say octal"
    RoundsDown "sides are rounded down to macroblocks"
    RoundsUp "sides are rounded up to macroblocks"
    MultiplesOf8 "sides that are multiples of 8 are taken, and rounded up"
    OnlyWidthAsked "16 must divide the width alone"
    SideOf257 "a side of 257 macroblocks is taken"
    SideOf256Refused "a side of 256 macroblocks is refused"
    AnyProduct "the product of the sides is not asked"
    LargestRefused "36,864 macroblocks are refused"
    TwoSpaces "two spaces in the header are taken for one"
    TwoSpacesInFrame "two spaces in the FRAME line are taken for one"
    SpaceAtEnd "a space at the end of the header is taken"
    SpaceAtEndOfFrame "a space at the end of the FRAME line is taken"
    Tabs "a tab separates tags"
    CarriageReturn "a CR at the end of the header is taken off"
    CarriageReturnInFrame "a CR at the end of the FRAME line is taken off"
    CarriageReturnEnds "a CR ends a line as a newline does"
    ZeroByteEnds "a byte 0 ends a line"
    HighBytes "a tag with a byte above 127 is 15"
    ControlBytes "a tag with a byte below 32 is 15"
    UnknownTags "tags other than W, H, C, F, I, A and X are 15"
    LowerCaseTags "w and h count as W and H"
    WithinTags "a W, H or C within another tag counts"
    NoPlanesTag "no C tag is 16"
    BarePlanesTag "a bare C is 15"
    BarePlanesTagTaken "a bare C is taken as no C tag"
    AnyCase "420JPEG is taken"
    StartsWith420 "whatever starts with 420 is taken"
    NoMpeg2 "420mpeg2 is 16"
    NoPaldv "420paldv is 16"
    NoJpeg "420jpeg is 16"
    No420 "420 alone is 16"
    WordIsPrefix "the header may go on right after YUV4MPEG2"
    WordInAnyCase "YUV4MPEG2 in any case is taken"
    FrameIsPrefix "FRAMES is taken for FRAME"
    FrameInAnyCase "frame is taken for FRAME"
    NoFrameTags "a FRAME line with tags is 15"
    FrameTagsCount "W, H and C of the FRAME line count as those of the header"
    FrameWidthAsked "a W of the FRAME line that is no number is 15"
    NoFrameLine "the FRAME line may be missing"
    FrameNewlineMissing "a FRAME line without its newline is taken, and is 18"
    FrameAnywhere "the picture follows the last FRAME line of the stream"
    LinesOf80 "a line of more than 80 bytes is 15"
    LinesOf65535 "a line of more than 65,535 bytes is 15"
    Tags255 "a line of more than 255 tags is 15"
    TrailingBytes "bytes after the first picture are 18"
    OneShort "a picture that lacks its last byte is taken"
    OneLong "a picture with nothing after it is 18"
    CutUnasked "look does not ask 18"
    SizeWithRefusal "a refusal tells the size too"
    SizeInPixels "the size is told in pixels"
    SizeTurned "width and height of what is read are exchanged"
    UvRead "U and V are exchanged in reading"
    FromNewline "the planes begin at the newline of the FRAME line"
    LastSample "the last sample of V is not placed"
    LumaAlone "U and V are not placed"
    LumaLengthAlone "3 asks luma alone"
    SumOfLengths "3 asks how long the planes are together"
    LongerPlanes "longer planes are taken"
    PlacedBeforeAsked "luma is placed before 3 is asked"
    PlacedBeforeCut "luma is placed before 18 is asked"
    Emptied "a refused read fills the planes with 0"
    StreamChanged "a read changes the first byte of the stream"
    ZerosWritten "sides are written with four digits"
    JpegWritten "C420jpeg is written"
    PaldvWritten "C420paldv is written"
    NoPlanesTagWritten "no C tag is written"
    TurnedWritten "width and height are exchanged in writing"
    MacroblocksWritten "sides are written in macroblocks"
    FrameSpaceWritten "FRAME is written with a space"
    NoNewlineWritten "FRAME is written without its newline, and the planes one byte early"
    UvWritten "U and V are exchanged in writing"
    WriteLengthsFirst "the writer asks 3 before 1"
    WriteRoomBeforeLengths "the writer asks 18 before 3"
    WriteRoomFirst "the writer asks 18 before 1"
    LongerRoom "a longer destination is taken"
    ShorterRoom "a shorter destination is taken, and gets what it holds"
    WriteAnyProduct "the writer does not ask the product of the sides"
    WriteLumaLength "the writer asks luma's length alone"
    WrittenBeforeRoom "the lines are written before 18 is asked"
    WrittenBeforeLengths "the lines are written before 3 is asked"
    PlaneChanged "a write changes the last byte of V"
    LengthWithoutRefusal "a length is told of a size that is refused"
    LengthOfTwoDigits "a length is told as if sides had two digits"
    LengthWithoutLines "a length is told of the planes alone"
    LengthProductWraps "a length asks a product that wraps at 64 bits, and no side"
}

const KIND: Kind = Kind {
    wrong: "wrong readers and writers of streams",
    faultless: "a reader and writer of streams, byte by byte: equal to the rules by lines and words",
    at_fault: "two readers of streams without a mistake are not equal: the judge is at fault",
};

/// As for filters: the faultless one must pass, and every wrong one must not.
pub fn all_caught() -> bool {
    all(&KIND, MISTAKES, trial)
}

fn trial(mistake: Option<Mistake>) -> Outcome {
    let scanner = Scanner { mistake };
    let mut s = Session::new(&scanner, mistake.is_none());
    super::round(&mut s, 1, Depth::Brief)?;
    super::small(&mut s)
}

#[cfg(test)]
mod tests {
    use super::*;

    #[test]
    fn two_readings_are_equal() {
        let scanner = Scanner { mistake: None };
        let mut s = Session::new(&scanner, true);
        let equal = crate::streams::round(&mut s, 3, Depth::Brief);
        assert!(equal.is_ok(), "{}", equal.err().map_or(String::new(), |failure| failure.0));
        assert!(crate::streams::NUMBERS.into_iter().all(|number| s.answered(number) > 0));
    }
}
