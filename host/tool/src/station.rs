//! A station that visits macroblocks as they arrive, and the one of the old release.

mod arrived;

use crate::orders::{columns, Request};
use crate::picture::{Picture, Settings};
use arrived::Arrived;
use deblock::Answer;
use std::collections::BTreeMap;

/// A station in the course of a replay: what has arrived, and what the visits made of it.
pub struct Station<'a> {
    sent: &'a Picture,
    pub picture: Picture,
    /// What a viewing station has painted: each macroblock once, as it was when it became final.
    pub screen: Picture,
    /// Of the frame, or of each field.
    pub arrived: Vec<Arrived<'a>>,
    pub answers: BTreeMap<Answer, usize>,
}

/// Visits the macroblocks as they arrive. With `waits`, one that is not ready is kept and visited again as
/// soon as a neighbour for which it may have waited is done, as the station does; else each is visited once.
/// Until a macroblock arrives the station has other samples in its place, on the lines of its field and
/// whatever the other field has there, so that a visit which looked at them would show; and so has the screen
/// until it is painted there.
pub fn replay<'a>(before: &'a Picture, settings: &'a [Settings], order: &[Request], waits: bool) -> Station<'a> {
    let arrived = settings.iter().map(|sent| Arrived::nothing(before.size, sent)).collect();
    let nothing = before.inverted();
    let mut station =
        Station { sent: before, screen: nothing.clone(), picture: nothing, arrived, answers: BTreeMap::new() };
    order.iter().for_each(|&request| station.arrives(request, waits));
    station
}

/// What the old release could make of a frame or a field: its rule let it go down the columns, which the
/// library refuses. Each macroblock is filtered through the library as a row in which no other one has any
/// strength.
pub fn old_rule(mut picture: Picture, settings: &Settings) -> Picture {
    let size = picture.size;
    let mut alone = vec![0; settings.strengths.len()];
    for Request { at, .. } in columns(&[settings.part], size) {
        let own = 32 * size.index(at)..32 * (size.index(at) + 1);
        alone[own.clone()].copy_from_slice(&settings.strengths[own.clone()]);
        let answer = picture.lent(settings, &mut alone, &mut []).rows(at.y..at.y + 1);
        assert!(answer.is_done(), "what a recording or the film lends is in the domain: {answer}");
        alone[own].fill(0);
    }
    picture
}

impl Station<'_> {
    /// Stores a macroblock, unless it has come before, visits it and those that waited for it, and after each
    /// visit paints what has become final.
    fn arrives(&mut self, Request { part, at }: Request, waits: bool) {
        let own = self.arrived.iter_mut().find(|a| a.part() == part);
        let own = own.expect("an order has the parts of its picture");
        own.store(self.sent, &mut self.picture, at);
        let mut due = vec![at];
        while let Some(at) = due.pop() {
            let answer = own.visit(&mut self.picture, at);
            *self.answers.entry(answer).or_default() += 1;
            match answer {
                Answer::Done => {
                    own.paint(&self.picture, &mut self.screen, at);
                    due.extend(own.followers(at));
                }
                Answer::NotReady if waits => own.waits(at),
                _ => (),
            }
        }
    }

    /// The macroblocks that were never visited.
    pub fn unvisited(&self) -> usize {
        self.arrived.iter().map(Arrived::unvisited).sum()
    }

    /// Numbers, words and counts on one line.
    pub fn answers(&self) -> String {
        let each = self.answers.iter().map(|(answer, count)| match answer {
            Answer::Done => format!("0 done: {count}"),
            _ => format!("{} ({answer}): {count}", answer.number()),
        });
        each.collect::<Vec<_>>().join("; ")
    }
}

#[cfg(test)]
mod tests;
