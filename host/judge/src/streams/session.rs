//! Compares calls about streams one by one and keeps count.

use super::ask::{Ask, Call, Reply};
use super::model;
use super::shrink;
use super::subject::Streams;
use crate::counts::Counts;
use crate::session::{Failure, Outcome};

pub struct Session<'a> {
    subject: &'a dyn Streams,
    /// Off for readers and writers that are known to be wrong: no case is made small then.
    thorough: bool,
    /// For each run and each call.
    counts: Counts<(&'static str, Call)>,
    /// Streams that were written and then read.
    read_again: u64,
}

impl<'a> Session<'a> {
    pub fn new(subject: &'a dyn Streams, thorough: bool) -> Self {
        Session { subject, thorough, counts: Counts::new(), read_again: 0 }
    }

    /// Makes the call and compares what it gives and every lent byte, guards included.
    pub fn check(&mut self, run: &'static str, a: &Ask) -> Outcome {
        match compared(self.subject, a) {
            Ok(reply) => {
                self.counts.count((run, a.call), reply.number);
                Ok(())
            }
            Err(what) if !self.thorough => Err(Failure(format!("streams, {run}, {:?}: {what}", a.call))),
            Err(what) => {
                let small = shrink::smallest(a, |a| compared(self.subject, a).is_err());
                let after = compared(self.subject, &small).err().unwrap_or_default();
                let (call, small) = (a.call, small.describe());
                Err(Failure(format!("streams, {run}, {call:?}: {what}\nthe smallest such case: {after}\n{small}")))
            }
        }
    }

    /// Looks at the stream, then reads it.
    pub fn look_and_read(&mut self, run: &'static str, mut a: Ask) -> Outcome {
        for call in [Call::Look, Call::Read] {
            a.call = call;
            self.check(run, &a)?;
        }
        Ok(())
    }

    /// Asks how long the stream will be, writes it, looks at what was written and reads it: the same planes.
    pub fn write_and_read(&mut self, run: &'static str, w: usize, h: usize, samples: &[u8]) -> Outcome {
        let mut a = Ask::to_write(w, h, samples, model::length(w, h));
        self.check(run, &Ask { call: Call::Length, ..a.clone() })?;
        self.check(run, &a)?;
        let before = a.clone();
        self.subject.call(&mut a);
        a.planes().into_iter().for_each(|plane| plane.fill(0x5A));
        self.look_and_read(run, a.clone())?;
        a.call = Call::Read;
        let reply = self.subject.call(&mut a);
        self.read_again += 1;
        let same = [&a.luma, &a.u, &a.v] == [&before.luma, &before.u, &before.v];
        match same && (reply.w, reply.h) == (w, h) {
            true => Ok(()),
            false => Err(Failure(format!("streams, {run}: what was written is read as another picture"))),
        }
    }

    /// How many calls were compared.
    pub fn calls(&self) -> u64 {
        self.counts.calls(|_| true)
    }

    /// How often a number was answered.
    pub fn answered(&self, number: u32) -> u64 {
        self.counts.answered(|_| true, number)
    }

    pub fn print(&self) {
        self.counts.print(|(run, call)| ["streams".to_string(), run.to_string(), format!("{call:?}")]);
        println!("streams that were written and read again, with the same planes: {}", self.read_again);
    }
}

/// What the call gave, or what is not as it must be.
fn compared(subject: &dyn Streams, a: &Ask) -> Result<Reply, String> {
    let (mut want, mut got) = (a.clone(), a.clone());
    let (right, reply) = (model::answer(&mut want), subject.call(&mut got));
    if reply != right {
        return Err(format!("answered {} instead of {}", words(a.call, reply), words(a.call, right)));
    }
    match got.difference(&want) {
        Some(what) => Err(format!("answered {}, but {what}", words(a.call, reply))),
        None => Ok(reply),
    }
}

fn words(call: Call, r: Reply) -> String {
    match call {
        Call::Length => r.length.to_string(),
        Call::Look | Call::Read if r.number == 0 || (r.w, r.h) != (0, 0) => {
            format!("{} with {} by {}", r.number, r.w, r.h)
        }
        _ => r.number.to_string(),
    }
}
