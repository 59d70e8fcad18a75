//! Wrong filters, and how many of them the comparison catches.

use crate::finality;
use crate::model::Model;
use crate::rounds::{self, Depth};
use crate::session::{Outcome, Session};
use crate::small;
use crate::streams;

/// Declares the mistakes with what each of them does.
macro_rules! mistakes {
    ($($name:ident $words:literal)*) => {
        #[derive(Clone, Copy, PartialEq, Eq, Debug)]
        pub enum Mistake { $($name),* }
        const MISTAKES: &[(Mistake, &str)] = &[$((Mistake::$name, $words)),*];
    };
}
pub(crate) use mistakes;

mistakes! {
    RoundsTowardZero "delta is divided by 8 toward 0"
    NoRounding "delta without the 4"
    HalvesTowardZero "p1 and q1 halve a negative number toward 0"
    Q1FromNewP0 "q1 from the new p0"
    Q1FromBothNew "q1 from the new p0 and the new q0 (shows only where a sample was clipped)"
    TcWithoutSides "tc is tc0 on luma"
    ChromaTc0 "tc is tc0 on chroma"
    NearTestsP1 "p1 and q1 in the place of p2 and q2 in the side tests"
    AlphaReached "a difference of alpha is filtered"
    StrongMargin "the strong test adds 1, not 2"
    P3AsP2 "p2 in the place of p3 at strength 4"
    BetaByIndexA "beta by index A"
    Tc0ByIndexB "tc0 by index B"
    AverageRoundsDown "QPs are averaged down"
    AveragesBeforeMapping "chroma QPs are averaged before mapping"
    ChromaOffsetIgnored "no chroma offset"
    UByOffsetOfV "U is filtered with V's chroma offset"
    VByOffsetOfU "V is filtered with U's chroma offset, as in the original"
    RowsByOffsetOfU "likewise in row calls alone"
    VisitByOffsetOfU "likewise in visits alone"
    FieldByOffsetOfU "likewise in fields alone"
    BesideByOffsetOfU "on p's side of an edge of V the QP is mapped with U's chroma offset"
    ChromaOffsetsExchanged "U is filtered with V's chroma offset and V with U's"
    ChromaOffsetsAdded "V is filtered with the sum of both chroma offsets"
    LeftQpAbove "the left QP on the upper edge"
    BorderFiltered "the picture's left border is filtered"
    FlagIgnored "the 8x8 flag skips nothing"
    FlagSkipsChroma "the 8x8 flag skips the chroma edge at 4"
    ChromaSegmentsOfFour "four chroma lines a segment"
    MixedFourSkipped "strength 4 of a mixed edge is skipped, as in the accel build"
    HorizontalFirst "horizontal edges before vertical ones"
    RightToLeft "each row from right to left"
    UvExchanged "U and V exchanged"
    PlanesUntouched "whole pictures are left as they are"
    ConstantStrengths "every strength is 1"
    DirectionsExchanged "horizontal strengths before vertical ones"
    OuterIntraThree "3 on outer intra edges"
    OwnCountAlone "the neighbour's coefficients do not count"
    ListOneIgnored "list 1 is not looked at"
    NoCrossedPairing "references are compared list by list"
    NoCrossedForEqual "equal references within a block allow one pairing"
    FarFromFive "far from a difference of 5 on"
    FarOneSided "far on one side of 0 only"
    VerticalIgnored "far on x only"
    VectorsWrap "vector differences wrap at 16 bits"
    FlagKeepsStrengths "inner strengths are kept under 8x8"
    KindKeepsStrengths "likewise by kind alone"
    CountsOfBlocks "under 8x8 a count stands for its own block alone, as in the original"
    CountsOfBlocksOnP "likewise on p's side of an edge alone"
    CountsOfMacroblock "under 8x8 a count stands for its whole macroblock"
    FourFlagged "of a neighbour with 8x8 the four nearest counts alone"
    TwelveFlagged "of a neighbour with 8x8 the twelve nearest counts"
    EightUnflagged "of a neighbour without 8x8 the eight nearest counts"
    OwnFlagBeside "the macroblock's own 8x8 flag says how its neighbours' counts are taken"
    FlagBesideWithin "a neighbour's 8x8 flag says how the own counts beside it are taken"
    OwnFlagAsked "7 asks no neighbour's 8x8 flag in a strength call"
    UpperRightFlagAsked "7 asks the upper right neighbour's 8x8 flag in a strength call"
    AllFlagsAsked "7 asks all 8x8 flags in a strength call"
    EightInterAsked "7 and 11 ask eight inter bytes of a neighbour with 8x8"
    EightReferencesAsked "10 asks the references of eight blocks of a neighbour with 8x8"
    FlagLengthUnasked "4 does not ask about 8x8 flags in a strength call"
    NoFlagsRefused "empty 8x8 flags are refused in a strength call"
    TablesIgnored "with tables too indices are compared"
    FieldTablesIgnored "likewise in fields alone"
    FirstTableForBoth "list 0's table is used for both lists"
    SecondTableForBoth "list 1's table is used for both lists"
    TablesExchanged "list 0's table is used for list 1, and list 1's for list 0"
    PicturesByList "a picture of list 0 is never one of list 1"
    ThirtyTwoEntries "an index above 31 is past every table"
    LastEntryPast "the last index of a table is past it"
    PastIsPictureZero "an index past its table is picture 0"
    PastIsItself "an index past its table is the picture of that number"
    PastIsLast "an index past its table is the table's last picture"
    PastWraps "an index past its table is counted on from the table's start"
    NoneIsPictureZero "with tables -1 is picture 0"
    NoneIsFirst "with tables -1 is the table's first picture"
    NoneIsLast "with tables -1 is the table's last picture"
    EightBitsCompared "of picture numbers the low 8 bits are compared"
    FifteenBitsCompared "of picture numbers the low 15 bits are compared"
    UniformByIndex "flat and uniform are judged on indices"
    KindByIndex "likewise by kind alone"
    PastVectorsUncounted "to uniform the vector of an index past its table does not count"
    PastIsNotNone "to uniform an index past its table is another picture than -1"
    NoSecondTableRefused "5 also where just list 1's table is empty and list 1 is not lent"
    UnequalTablesRefused "5 also where the tables have two lengths"
    LongTableRefused "5 also where a table has more than 128 entries"
    LoneTableTaken "5 does not ask about tables"
    LoneSecondTableTaken "just list 0's table may be empty where list 1 is not lent"
    UsedEntriesAsked "22 asks the entries alone that a reference which is read names"
    FirstEntriesAsked "22 asks the first 128 entries of a table alone"
    UnusedTableUnasked "22 does not ask list 1's table where list 1 is not lent"
    NumberAboveTaken "picture number 65,536 is taken"
    NumberBelowTaken "picture number -1 is taken"
    NumberBeforeReference "22 before 10"
    NumberAfterInter "22 after 11"
    RowWritesBeforeRefusal "a row of strengths that is refused has written what comes before"
    RowLastRefusal "a row of strengths answers its last refusal, not its first"
    RowOrderOfChecks "a row of strengths asks each check of all its macroblocks before the next check"
    RowFirstAsked "a row of strengths asks its first macroblock alone"
    RowLastLeft "a row of strengths leaves out its last macroblock"
    RowNextWritten "a row of strengths writes the macroblock after it too"
    RowWrittenAbove "strengths of a row are written to the row above it too"
    RowLeftEdgesNone "within a row of strengths left edges have 0"
    RowUpperEdgesNone "a row of strengths is taken for the picture's first"
    KindsFromStart "a row takes its kinds from the first row on"
    FirstKindForAll "a row takes its first kind for all its macroblocks"
    KindsIgnored "a row does not look at its kinds"
    KindFourTaken "of a row a kind above 3 says nothing"
    NoKindsAreIntra "of a row no kinds say that all is intra"
    AllKindsAsked "12 also where a kind of another row is above 3"
    KindsLengthUnasked "4 does not ask about kinds"
    RowOfKindsTaken "4 takes kinds of the row alone"
    NoKindsRefused "empty kinds are refused"
    KindsLengthBeforePlace "4 asks about kinds before 2"
    NoUpperRight "ready without the upper right neighbour: the old release"
    MarkForgotten "a visit sets no mark"
    MarksWhenNotReady "a visit that is not ready sets its mark"
    FiltersFirstVisitOnly "filters on the first visit and afterwards only sets marks"
    RefusesAlways "every call is refused"
    MarkBeforeStrength "13 before 9"
    QpBeforeFlag "8 before 7"
    EmptyRangeRefused "an empty row range is refused"
    RowAboveUnread "the QPs above a row range are not checked"
    AllQpsRead "a visit checks all QPs"
    OddOffsetRefused "odd offsets are refused"
    OffsetOfUUnasked "6 does not ask about U's chroma offset"
    OffsetOfVUnasked "6 does not ask about V's chroma offset"
    OffsetOfVBeforeLengths "6 asks about V's chroma offset before 4"
    OffsetOfVAfterFlags "6 asks about V's chroma offset after 7"
    TwoOffsetsRefused "chroma offsets that differ are refused"
    OffsetDifferenceAsked "6 asks how far V's chroma offset is from U's"
    EmptyListOneRefused "empty list 1 grids are refused"
    FlatNeedsUniform "flat alone is refused"
    FieldUpperFour "4 on the upper edge of a field's macroblock"
    FieldLeftThree "3 on the left edge of a field's macroblock"
    FieldFarFromFour "far from a difference of 4 on in a field too"
    FieldFarAcross "far from a difference of 2 on across a field too"
    FrameAsField "a frame gets the strengths of a field"
    OneAloneIsField "of the bytes above 0 only 1 says field"
    StrengthsAskPart "a strength call refuses a part above 2"
    LinesNotDoubled "the lines of a field one after the other, as those of a frame"
    ChromaNotDoubled "likewise in U and V alone"
    NextLineOfFrame "across a horizontal edge of a field lies the next line of the frame"
    PartsExchanged "top and bottom field exchanged"
    OtherFieldTouched "one sample of the other field is changed"
    MarksShared "the two fields share their marks"
    PartBeforePlace "19 before 2"
    PartAfterPlanes "19 after 3"
    EmptyRangeUnasked "an empty row range does not ask 19"
    SingleLengths "3 unless the planes are of the field's own size"
    DoubledFrameTaken "a frame takes planes of twice the length"
    ModesIgnored "modes of slices are ignored"
    RowsModesIgnored "likewise in row calls alone"
    VisitModesIgnored "likewise in visits alone"
    FieldModesIgnored "likewise in fields alone"
    ModeOneNextLeft "mode 1 leaves the right neighbour's left edge too"
    ModeOneNextTop "mode 1 leaves the lower neighbour's top edge too"
    ModeOneInner "mode 1 filters inner edges"
    ModeOneOuter "mode 1 filters outer edges"
    ModeOneChroma "mode 1 filters chroma"
    ModeOneLuma "mode 1 filters luma"
    ModeOneUnmarked "a visit of mode 1 sets no mark"
    ModeOneReady "a visit of mode 1 does not wait"
    ModeTwoAsOne "mode 2 leaves all edges"
    ModeTwoAsZero "mode 2 filters all edges"
    ModesOneAndTwoExchanged "modes 1 and 2 exchanged"
    ModeTwoByRecord "mode 2 filters between two slices of equal records"
    ModeTwoInner "mode 2 leaves inner edges too where a neighbour is of another slice"
    ModeTwoLeftOnly "mode 2 leaves left edges alone"
    ModeTwoTopOnly "mode 2 leaves top edges alone"
    ModeTwoAlways "mode 2 leaves outer edges within the slice too"
    ModeTwoOfP "mode 2 of p's slice leaves the edge too"
    ModeTwoChroma "mode 2 filters chroma"
    ModeTwoLeftNumberAbove "mode 2 looks at the left number on the top edge"
    ModeTwoLowBits "mode 2 compares the low 8 bits of numbers"
    ModeTwoHigherNumber "mode 2 filters where the neighbour's number is above the own"
    OffsetsOfP "on outer edges the offsets are those of p0's slice"
    OffsetsOfPLeft "likewise on left edges alone"
    OffsetsOfPAbove "likewise on top edges alone"
    SliceOffsetsIgnored "offsets of slices are taken as 0"
    SliceOffsetsExchanged "A and B of a record exchanged"
    SliceOffsetsInLuma "offsets of slices are taken as 0 in chroma"
    RecordByMacroblock "the record of the macroblock's index, not of its number"
    RecordByNext "the record of the next macroblock"
    FirstRecordForAll "the first record serves all slices"
    EightBitsOfNumber "of a slice number the low 8 bits are looked up"
    RowsNumbersFromStart "a row call takes its slice numbers from the first row on"
    NumbersLengthUnasked "4 does not ask about slice numbers"
    NumbersOneShortTaken "4 takes slice numbers one short"
    NumbersOneLongTaken "4 takes a slice number too many"
    NoNumbersTaken "with no slice numbers all macroblocks are of slice 0"
    TableLengthAsked "4 also where the table has more records than the picture macroblocks"
    NoTableIsOneSlice "an empty table means one slice of mode 0"
    RecordOffsetAUnasked "6 does not ask about A of records"
    RecordOffsetBUnasked "6 does not ask about B of records"
    UnusedOffsetUnasked "6 asks the records alone that a number which is read names"
    RecordOffsetBeforeLengths "6 asks about records before 4"
    RecordOffsetAfterFlags "6 asks about records after 7"
    NumberUnasked "20 is not asked"
    NumberAtLengthTaken "a slice number equal to the table's length is taken"
    NumberAbove255Refused "20 also where a slice number is above 255"
    LeftNumberUnasked "20 does not ask the left neighbour's slice number in a visit"
    UpperNumberUnasked "20 does not ask the upper neighbour's slice number in a visit"
    UpperRightNumberAsked "20 asks the upper right neighbour's slice number in a visit"
    RowAboveNumberUnasked "20 does not ask the slice numbers above a row range"
    AllNumbersAsked "20 asks all slice numbers"
    NumbersOfModeOneUnasked "20 does not ask beside a macroblock of mode 1"
    NumberBeforeStrength "20 before 9"
    NumberAfterMark "20 after 13"
    ModeUnasked "a mode above 2 is taken"
    ModeThreeTaken "mode 3 is taken"
    UnusedModeUnasked "21 asks the records alone that a number which is read names"
    LastRecordUnasked "6 and 21 do not ask the last record"
    FirstRecordsAsked "6 and 21 ask the first 256 records alone"
    ModeBeforeNumber "21 before 20"
    ModeBeforeFlags "21 straight after 6"
    ModeAfterMark "21 after 13"
    EmptyRangeNumbersAsked "an empty row range asks 20"
    EmptyRangeModeUnasked "an empty row range does not ask 21"
    EmptyRangeRecordUnasked "an empty row range does not ask 6 of records"
    ModeOneUnread "7, 8 and 9 are not asked of a macroblock of mode 1"
}

/// What is made with one mistake each, in words.
pub struct Kind {
    pub wrong: &'static str,
    /// What is said where the one without a mistake passes, and where it does not.
    pub faultless: &'static str,
    pub at_fault: &'static str,
}

const FILTERS: Kind = Kind {
    wrong: "wrong filters",
    faultless: "the rules as a plain program: equal to the Rust original, as far as that can be asked",
    at_fault: "the model without a mistake is not equal to the Rust original: the judge is at fault",
};

/// Runs all wrong filters, all wrong rules of what is final, and all wrong readers and writers of streams.
/// True if all is as it must be.
pub fn run() -> bool {
    let filters = all_caught(&FILTERS, MISTAKES, trial);
    let finality = finality::all_caught();
    let streams = streams::all_caught();
    filters && finality && streams
}

/// Tries the one without a mistake, which must pass, and every wrong one, which must not. True if all is so.
pub fn all_caught<M: Copy>(kind: &Kind, mistakes: &[(M, &str)], trial: impl Fn(Option<M>) -> Outcome) -> bool {
    if let Err(failure) = trial(None) {
        println!("{}\n{failure}", kind.at_fault);
        return false;
    }
    println!("{}", kind.faultless);
    let mut missed = 0;
    for (mistake, words) in mistakes {
        match trial(Some(*mistake)) {
            Err(failure) => {
                let how = failure.0.lines().next().unwrap_or_default();
                println!("caught  {words}  ({how})");
            }
            Ok(()) => {
                missed += 1;
                println!("MISSED  {words}");
            }
        }
    }
    println!("{} {}, {} caught", mistakes.len(), kind.wrong, mistakes.len() - missed);
    missed == 0
}

fn trial(mistake: Option<Mistake>) -> Outcome {
    let model = Model::with(mistake);
    let mut s = Session::new(&model, mistake.is_none());
    (1..=8).try_for_each(|seed| rounds::round(&mut s, seed, Depth::Brief))?;
    small::run(&mut s, 16)
}
