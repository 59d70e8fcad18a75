//! Wrong rules of what is final, and how many of them the comparison catches.

use super::rule::Rule;
use super::subject::Finality;
use crate::mistakes::{all_caught as all, mistakes, Kind};
use crate::model::Model;
use crate::request::{Request, Structure};
use crate::rounds::Depth;
use crate::session::{Outcome, Session};
use crate::subject::Subject;
use crate::visits;
use inputs::Rng;

mistakes! {
    NoLowerAwaited "final without the lower neighbour"
    NoRightAwaited "final without the right neighbour"
    NoOwn "final without the macroblock's own mark"
    OwnAlone "final once it is marked"
    OneOfTwo "final with one of the right and the lower neighbour"
    BorderAwaited "a neighbour that does not exist counts as unmarked"
    LowerRightAwaited "the lower right neighbour is awaited too"
    LeftAwaited "the left neighbour is awaited too"
    UpperAwaited "the upper neighbour is awaited too"
    RightWraps "to the right of a row's end lies the next row's first macroblock"
    ByColumns "marks are counted down the columns"
    Never "nothing is final"
    AnyMark "any mark but 0 counts as marked"
    TwoTaken "a mark of 2 is taken, as unmarked"
    MarksUnasked "7 is not asked"
    AskedWhereMarked "7 is asked only where the macroblock is marked"
    OwnUnasked "7 does not ask the macroblock's own mark"
    RightUnasked "7 does not ask the right neighbour's mark"
    LowerUnasked "7 does not ask the lower neighbour's mark"
    LowerRightAsked "7 asks the lower right neighbour's mark too"
    AllAsked "7 asks all marks"
    PlaceBeforeSize "2 before 1"
    LengthBeforePlace "4 before 2"
    LengthFirst "4 before 1"
    MarksBeforeLength "7 before 4"
    SizeUnasked "1 is not asked"
    ZeroTaken "a side of 0 is not asked"
    WidthUnasked "a width above 256 is taken"
    HeightUnasked "a height above 256 is taken"
    AnyProduct "the product of the sides is not asked"
    LargestRefused "36,864 macroblocks are refused"
    SideOf256Refused "a side of 256 macroblocks is refused"
    ColumnUnasked "2 does not ask x"
    RowUnasked "2 does not ask y"
    IndexAsked "2 asks whether the index is inside"
    OneBeyondTaken "2 takes the first column and row outside"
    LongerTaken "longer marks are taken"
    ShorterTaken "shorter marks are taken"
    EmptyTaken "empty marks are taken: nothing is marked"
    ToldWithRefusal "a refusal tells that the macroblock is final"
    YesIs255 "yes is 255"
    MarkTaken "a call takes the mark off"
    NoUpper "a visit makes no upper neighbour final"
    NoLeft "a visit makes no left neighbour final"
    OwnUntold "a visit does not make the macroblock itself final"
    NeighboursAfterOwn "neighbours are told only with the macroblock itself"
    LeftUpperExchanged "left and upper are exchanged"
    RightForLeft "the right neighbour in the place of the left one"
    LowerForUpper "the lower neighbour in the place of the upper one"
    UpperLeftForUpper "the upper left neighbour in the place of the upper one"
    LeftWraps "to the left of a row's start lies the last macroblock of the row above"
    LeftRefusalForgotten "the left neighbour's refusal is forgotten"
    UpperRefusalForgotten "the upper neighbour's refusal is forgotten"
    AskedOnceMarked "neighbours are asked about only once the macroblock is marked"
}

const KIND: Kind = Kind {
    wrong: "wrong rules of what is final",
    faultless: "the rule of what is final by indices: equal to the rules by lists of places",
    at_fault: "two rules of what is final without a mistake are not equal: the judge is at fault",
};

/// As for filters: the faultless one must pass, and every wrong one must not.
pub fn all_caught() -> bool {
    all(&KIND, MISTAKES, trial)
}

/// A filter without a mistake beside a rule.
struct Beside {
    filter: Model,
    rule: Rule,
}

impl Beside {
    fn new(mistake: Option<Mistake>) -> Beside {
        Beside { filter: Model::default(), rule: Rule { mistake } }
    }
}

impl Subject for Beside {
    fn call(&self, r: &mut Request) -> u32 {
        self.filter.call(r)
    }

    fn finality(&self) -> &dyn Finality {
        &self.rule
    }
}

fn trial(mistake: Option<Mistake>) -> Outcome {
    let beside = Beside::new(mistake);
    let mut s = Session::new(&beside, mistake.is_none());
    super::round(&mut s.finality, 1, Depth::Brief)?;
    super::small(&mut s.finality)?;
    sequences(&mut s)
}

fn sequences(s: &mut Session) -> Outcome {
    let mut r = Rng::new(1);
    (0..8).try_for_each(|i| visits::sequence(s, &mut r, [Structure::Frame, Structure::Field][i % 2], 3, 3))
}

#[cfg(test)]
mod tests {
    use super::*;

    #[test]
    fn two_rules_are_equal() {
        let rule = Rule { mistake: None };
        let mut s = super::super::Session::new(&rule, true);
        let equal = crate::finality::round(&mut s, 3, Depth::Brief).and_then(|()| crate::finality::small(&mut s));
        assert!(equal.is_ok(), "{}", equal.err().map_or(String::new(), |failure| failure.0));
        assert!(crate::finality::NUMBERS.into_iter().all(|number| s.answered(number) > 0));
    }

    /// Whether visits alone tell.
    fn tells(mistake: Option<Mistake>) -> bool {
        sequences(&mut Session::new(&Beside::new(mistake), false)).is_err()
    }

    #[test]
    fn visits_tell_too_early_too_late_and_not_at_all() {
        assert!(!tells(None));
        let wrong = [
            Mistake::NoLowerAwaited,
            Mistake::NoRightAwaited,
            Mistake::NoOwn,
            Mistake::OneOfTwo,
            Mistake::BorderAwaited,
            Mistake::LowerRightAwaited,
            Mistake::NoUpper,
            Mistake::NoLeft,
            Mistake::LeftUpperExchanged,
            Mistake::MarkTaken,
        ];
        assert_eq!(wrong.into_iter().find(|mistake| !tells(Some(*mistake))), None);
    }
}
