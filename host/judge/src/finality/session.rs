//! Compares calls about what is final one by one and keeps count.

use super::ask::{Ask, Call, Reply};
use super::model;
use super::shrink;
use super::subject::Finality;
use crate::counts::Counts;
use crate::session::{Failure, Outcome};

pub struct Session<'a> {
    subject: &'a dyn Finality,
    /// Off for rules that are known to be wrong: no case is made small then.
    thorough: bool,
    /// For each run and each call.
    counts: Counts<(&'static str, Call)>,
    /// How often the macroblock, its left and its upper neighbour were told to be final.
    told: [u64; 3],
    /// How often the samples of a macroblock that is final were those of the whole picture.
    settled: u64,
}

impl<'a> Session<'a> {
    pub fn new(subject: &'a dyn Finality, thorough: bool) -> Self {
        Session { subject, thorough, counts: Counts::new(), told: [0; 3], settled: 0 }
    }

    /// Makes the call, compares what it gives and every lent byte, guards included, and gives what it gave.
    pub fn check(&mut self, run: &'static str, a: &Ask) -> Result<Reply, Failure> {
        match compared(self.subject, a) {
            Ok(reply) => {
                self.counts.count((run, a.call), reply.number);
                self.told.iter_mut().zip(reply.finals).for_each(|(told, yes)| *told += u64::from(yes));
                Ok(reply)
            }
            Err(what) if !self.thorough => Err(Failure(format!("finality, {run}, {:?}: {what}", a.call))),
            Err(what) => {
                let small = shrink::smallest(a, |a| compared(self.subject, a).is_err());
                let after = compared(self.subject, &small).err().unwrap_or_default();
                let (call, small) = (a.call, small.describe());
                Err(Failure(format!("finality, {run}, {call:?}: {what}\nthe smallest such case: {after}\n{small}")))
            }
        }
    }

    /// Makes the call on two that differ in nothing that it reads: it must give the same.
    pub fn alike(&mut self, run: &'static str, a: &Ask, other: &Ask) -> Outcome {
        let replies = [self.check(run, a)?, self.check(run, other)?];
        match replies[0] == replies[1] {
            true => Ok(()),
            false => {
                let (one, two) = (a.describe(), other.describe());
                Err(Failure(format!("finality, {run}: marks that are not read tell: {replies:?}\n{one}\n{two}")))
            }
        }
    }

    /// The samples of a macroblock that is final were those of the whole picture.
    pub fn settled(&mut self) {
        self.settled += 1;
    }

    /// How many calls were compared.
    pub fn calls(&self) -> u64 {
        self.counts.calls(|_| true)
    }

    /// How often a number was answered.
    pub fn answered(&self, number: u32) -> u64 {
        self.counts.answered(|_| true, number)
    }

    pub fn print(&self) {
        self.counts.print(|(run, call)| ["finality".to_string(), run.to_string(), format!("{call:?}")]);
        let [own, left, upper] = self.told;
        println!("macroblocks told to be final: {own}, as a left neighbour {left}, as an upper one {upper}");
        println!("macroblocks that were final, compared with the whole picture's: {}", self.settled);
    }
}

/// What the call gave, or what is not as it must be.
fn compared(subject: &dyn Finality, a: &Ask) -> Result<Reply, String> {
    let mut got = a.clone();
    let (right, reply) = (model::answer(a), subject.call(&mut got));
    if reply != right {
        return Err(format!("answered {} instead of {}", words(a.call, reply), words(a.call, right)));
    }
    match got.difference(a) {
        Some(what) => Err(format!("answered {}, but {what}", words(a.call, reply))),
        None => Ok(reply),
    }
}

fn words(call: Call, Reply { number, finals }: Reply) -> String {
    let [own, left, upper] = finals;
    match call {
        _ if number > 0 && finals == [0; 3] => number.to_string(),
        Call::IsFinal => format!("{number} with yes {own}"),
        Call::MadeFinal => format!("{number} with own {own}, left {left}, upper {upper}"),
    }
}
