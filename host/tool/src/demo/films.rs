//! One film as three decoders have it. Each predicts from its own last filtered picture and adds the residual
//! that the recorder sent.

use super::recorder::{self, Sent};
use super::wall::Wall;
use crate::orders;
use crate::picture::{differences, Picture, Settings};
use crate::progress::Progress;
use crate::station::{old_rule, replay};
use deblock::{Answer, Offsets, Part};

/// An intra picture and 24 that are predicted, each from the one before: a second of film.
pub const PICTURES: usize = 25;
/// Arrival orders in which the library visits each picture.
pub const ORDERS: u64 = 40;

#[derive(Default)]
pub struct Films {
    pub recorder: Vec<Picture>,
    pub library: Vec<Picture>,
    pub old: Vec<Picture>,
    /// Of all arrival orders of all pictures, those that gave the recorder's picture, painted as it became
    /// final.
    pub equal: u64,
    /// Visits that were refused as not ready.
    pub refused: usize,
}

/// How far the old release's picture is from the recorder's.
pub struct Drift {
    pub samples: usize,
    pub largest: u8,
}

impl Films {
    /// The whole film, filtered with the offsets that the recorder sends.
    pub fn new(offsets: Offsets) -> Films {
        let wall = Wall::new(PICTURES);
        let mut films = Films::default();
        let mut progress = Progress::new("pictures", PICTURES as u64);
        for n in 0..PICTURES {
            let predicted = |from: &[Picture]| from.last().map_or_else(recorder::grey, recorder::moved);
            let sent = Sent::new(&wall.photograph(n), &predicted(&films.recorder), n == 0, offsets);
            let right = whole(sent.onto(&predicted(&films.recorder)), &sent.settings);
            let old = old_rule(sent.onto(&predicted(&films.old)), &sent.settings);
            films.arrivals(&sent.onto(&predicted(&films.library)), &sent.settings, &right);
            films.recorder.push(right);
            films.old.push(old);
            progress.step();
        }
        films
    }

    /// Visits a picture in many arrival orders; the library's film goes on with what the last of them gave.
    fn arrivals(&mut self, before: &Picture, settings: &Settings, right: &Picture) {
        let (frame, size) = (&[Part::Frame], before.size);
        let usual = [orders::raster, orders::reverse_diagonal, orders::columns].map(|order| order(frame, size));
        let seeds = ORDERS * self.library.len() as u64..;
        let random = seeds.map(|seed| orders::random(frame, size, seed)).take(ORDERS as usize - usual.len());
        let mut last = None;
        for order in usual.into_iter().chain(random) {
            let end = replay(before, std::slice::from_ref(settings), &order, true);
            self.refused += end.answers.get(&Answer::NotReady).copied().unwrap_or(0);
            self.equal += u64::from(end.picture == *right && end.screen == *right && end.unvisited() == 0);
            last = Some(end.picture);
        }
        self.library.extend(last);
    }

    pub fn drift(&self) -> Vec<Drift> {
        let drift = |(right, old): (&Picture, &Picture)| {
            let found = differences(right, old);
            let largest = found.iter().map(|s| s.step()).max().unwrap_or(0);
            Drift { samples: found.len(), largest }
        };
        self.recorder.iter().zip(&self.old).map(drift).collect()
    }
}

/// The recorder's way: the whole picture in raster order.
fn whole(mut picture: Picture, settings: &Settings) -> Picture {
    let answer = picture.lent(settings, &mut settings.strengths.clone(), &mut []).whole();
    assert_eq!(answer, Answer::Done, "the film is in the domain");
    picture
}
