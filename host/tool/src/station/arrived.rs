//! What has arrived of a frame or of one field, and which of it was visited and painted.

use crate::picture::{Picture, Settings};
use crate::slices::Slices;
use deblock::{Answer, Part, Place, Size};

pub struct Arrived<'a> {
    size: Size,
    sent: &'a Settings,
    /// QPs, flags, slice numbers and records of the macroblocks that have arrived, and 0 for the others.
    /// Strengths stand apart.
    lent: Settings,
    strengths: Vec<u8>,
    marks: Vec<u8>,
    stored: Vec<bool>,
    /// Those that were not ready and are to be visited again.
    waiting: Vec<bool>,
    painted: Vec<bool>,
}

impl<'a> Arrived<'a> {
    pub fn nothing(size: Size, sent: &'a Settings) -> Arrived<'a> {
        let n = size.macroblocks();
        let none = |grid: &[u8]| vec![0; grid.len()];
        let Settings { part, offsets, .. } = *sent;
        let slices = sent.slices.as_ref().map(Slices::nothing);
        let (qps, t8s) = (none(&sent.qps), none(&sent.t8s));
        Arrived {
            size,
            sent,
            lent: Settings { part, offsets, slices, strengths: Vec::new(), qps, t8s },
            strengths: none(&sent.strengths),
            marks: vec![0; n],
            stored: vec![false; n],
            waiting: vec![false; n],
            painted: vec![false; n],
        }
    }

    pub fn part(&self) -> Part {
        self.sent.part
    }

    /// Stores a macroblock, its samples in `planes`, unless it lies outside or has come before.
    pub fn store(&mut self, before: &Picture, planes: &mut Picture, at: Place) {
        if at.x >= self.size.w || at.y >= self.size.h {
            return;
        }
        let m = self.size.index(at);
        if std::mem::replace(&mut self.stored[m], true) {
            return;
        }
        planes.take_macroblock(before, self.part(), at);
        self.strengths[32 * m..][..32].copy_from_slice(&self.sent.strengths[32 * m..][..32]);
        self.lent.qps[m] = self.sent.qps[m];
        if let Some(flag) = self.lent.t8s.get_mut(m) {
            *flag = self.sent.t8s[m];
        }
        if let (Some(lent), Some(sent)) = (&mut self.lent.slices, &self.sent.slices) {
            lent.take(sent, m);
        }
    }

    pub fn visit(&mut self, planes: &mut Picture, at: Place) -> Answer {
        planes.lent(&self.lent, &mut self.strengths, &mut self.marks).visit(at)
    }

    /// Paints what the visit of a macroblock has made final. None becomes so twice, by what is proved.
    pub fn paint(&mut self, planes: &Picture, screen: &mut Picture, visited: Place) {
        let (size, marks) = (self.size, self.marks.as_mut_slice());
        let made = deblock::Picture { size, marks, ..Default::default() }.made_final(visited);
        for at in made.expect("a macroblock that was visited, and marks of visits").places(visited) {
            let again = std::mem::replace(&mut self.painted[size.index(at)], true);
            assert!(!again, "the archive told twice that {at:?} has become final: is it the right archive?");
            screen.take_macroblock(planes, self.part(), at);
        }
    }

    /// It is visited again once a neighbour is done.
    pub fn waits(&mut self, at: Place) {
        self.waiting[self.size.index(at)] = true;
    }

    /// The waiting ones that may be ready now that this one is done; they wait no longer.
    pub fn followers(&mut self, at: Place) -> Vec<Place> {
        let Size { w, h } = self.size;
        let near = [(at.x + 1, at.y), (at.x, at.y + 1), (at.x.wrapping_sub(1), at.y + 1)];
        let inside = near.into_iter().filter(|&(x, y)| x < w && y < h);
        let due = inside.filter(|&(x, y)| std::mem::take(&mut self.waiting[y * w + x]));
        due.map(|(x, y)| Place { x, y }).collect()
    }

    /// The macroblocks that were never visited.
    pub fn unvisited(&self) -> usize {
        self.marks.iter().filter(|&&mark| mark == 0).count()
    }

    pub fn all(&self) -> usize {
        self.marks.len()
    }

    pub fn painted(&self) -> usize {
        self.painted.iter().filter(|&&painted| painted).count()
    }

    pub fn is_painted(&self, x: usize, y: usize) -> bool {
        self.painted[self.size.index(Place { x, y })]
    }
}
