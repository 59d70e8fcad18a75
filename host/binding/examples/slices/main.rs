//! A station to which slices arrive in a random order, one of them twice. It stores what arrives, visits what
//! is ready and shows what is final, by the rules of docs/GUIDE.md, "Slices as they arrive". Its planes and
//! its screen must then hold what the whole-picture call makes of a picture that had all data at the start,
//! and so must rows from the top. 50 pictures; at the first difference it says so and ends with status 1.
//!
//! The same in C is examples/slices.c. Both cut and shuffle slices alike, and print examples/slices.txt.

mod decoder;

use deblock::{Answer, Place};
use decoder::{copy, copy_samples, decode, Buffers, Planes, N, SIZE};
use std::error::Error;
use std::process::ExitCode;

struct Station {
    buffers: Buffers,
    arrived: [bool; N],
    derived: [bool; N],
    /// How often each macroblock was shown.
    shown: [u32; N],
    screen: Planes,
}

impl Station {
    /// Nothing leans on what the memory held.
    fn new() -> Station {
        let (buffers, none) = (Buffers::filled(255), [false; N]);
        Station { screen: buffers.planes.clone(), buffers, arrived: none, derived: none, shown: [0; N] }
    }

    /// All of these are 0 at first, by the guide: a visit that is not ready may look at strengths that are
    /// not derived and at QPs that have not arrived, and they must be legal. Planes and grids may hold what
    /// they held: nothing reads that before it is written.
    fn start_picture(&mut self) {
        self.buffers.strengths.fill(0);
        self.buffers.qps.fill(0);
        self.buffers.t8s.fill(0);
        self.buffers.marks.fill(0);
        self.arrived.fill(false);
        self.derived.fill(false);
        self.shown.fill(0);
    }

    /// Stores macroblock `at` when it arrives, and not again: by then its samples may be filtered ones.
    fn store(&mut self, sent: &Buffers, at: Place) {
        if std::mem::replace(&mut self.arrived[SIZE.index(at)], true) {
            return;
        }
        let own = &mut self.buffers;
        copy_samples(&mut own.planes, &sent.planes, at);
        copy(&mut own.inter, &sent.inter, at, 4, 4);
        copy(&mut own.nnz, &sent.nnz, at, 4, 4);
        for list in 0..2 {
            copy(&mut own.refs[list], &sent.refs[list], at, 4, 4);
            copy(&mut own.mvs[list], &sent.mvs[list], at, 4, 8);
        }
        copy(&mut own.qps, &sent.qps, at, 1, 1);
        copy(&mut own.t8s, &sent.t8s, at, 1, 1);
    }

    /// Derives the strengths of what has arrived, once the blocks and 8x8 flags to the left and above are
    /// there too. The call could not tell that they are not, and would answer `Done` with other strengths.
    fn derive(&mut self) -> Result<(), Answer> {
        let (mut picture, grids) = self.buffers.lend();
        for at in SIZE.places() {
            let i = SIZE.index(at);
            let left = at.x == 0 || self.arrived[i - 1];
            let upper = at.y == 0 || self.arrived[i - SIZE.w];
            if !self.derived[i] && self.arrived[i] && left && upper {
                picture.derive(grids, at).ok()?;
                self.derived[i] = true;
            }
        }
        Ok(())
    }

    /// Visits what waits. One pass in raster order makes all visits that can be made: what a visit makes
    /// ready comes later in raster order. The rest goes on waiting: so does a macroblock while its strengths
    /// are not derived, since its left or upper neighbour is unmarked then.
    fn visit(&mut self) -> Result<(), Answer> {
        let arrived = self.arrived;
        for at in SIZE.places().filter(|&at| arrived[SIZE.index(at)]) {
            match self.buffers.lend().0.visit(at) {
                Answer::NotReady | Answer::MarkedAlready => {}
                Answer::Done => self.show(at)?,
                refusal => return Err(refusal),
            }
        }
        Ok(())
    }

    /// Shows what the visit of a macroblock has made final: so each is shown once.
    fn show(&mut self, visited: Place) -> Result<(), Answer> {
        let made = self.buffers.lend().0.made_final(visited)?;
        for at in made.places(visited) {
            self.shown[SIZE.index(at)] += 1;
            copy_samples(&mut self.screen, &self.buffers.planes, at);
        }
        Ok(())
    }

    fn arrive(&mut self, sent: &Buffers, slice: &[Place]) -> Result<(), Answer> {
        slice.iter().for_each(|&at| self.store(sent, at));
        self.derive()?;
        self.visit()
    }

    fn letter(&self, i: usize) -> char {
        match (self.shown[i], self.buffers.marks[i], self.arrived[i]) {
            (1.., ..) => 's',
            (_, 1, _) => 'm',
            (.., true) => 'w',
            _ => '.',
        }
    }

    /// Prints the macroblocks' letters in rows.
    fn print_letters(&self, slice: &[Place]) {
        let letters: Vec<char> = (0..N).map(|i| self.letter(i)).collect();
        let rows: Vec<String> = letters.chunks(SIZE.w).map(String::from_iter).collect();
        let (first, last) = (SIZE.index(slice[0]), SIZE.index(slice[slice.len() - 1]));
        println!("{first:2} to {last:2}  {}", rows.join("  "));
    }

    fn compare(&self, sent: &Buffers) -> Result<(), Box<dyn Error>> {
        let mut whole = sent.clone();
        derive_all(&mut whole)?;
        let mut rows = whole.clone();
        filter_rows(&mut rows)?;
        whole.lend().0.whole().ok()?;
        must(rows.planes == whole.planes, "rows from the top give other planes")?;
        must(self.buffers.planes == whole.planes, "visits give other planes")?;
        must(self.shown == [1; N], "a macroblock was not shown just once")?;
        must(self.screen == whole.planes, "the screen is not as the planes are")
    }
}

/// All strengths of a picture whose data are all there.
fn derive_all(buffers: &mut Buffers) -> Result<(), Answer> {
    let (mut picture, grids) = buffers.lend();
    SIZE.places().try_for_each(|at| picture.derive(grids, at).ok())
}

fn filter_rows(buffers: &mut Buffers) -> Result<(), Answer> {
    let (mut picture, _) = buffers.lend();
    (0..SIZE.h).try_for_each(|y| picture.rows(y..y + 1).ok())
}

fn must(holds: bool, what: &str) -> Result<(), Box<dyn Error>> {
    if holds {
        Ok(())
    } else {
        Err(what.into())
    }
}

fn receive_slices(station: &mut Station, number: u32) -> Result<(), Box<dyn Error>> {
    let (sent, slices) = decode(number);
    station.start_picture();
    for slice in &slices {
        station.arrive(&sent, slice)?;
        if number == 1 {
            station.print_letters(slice);
        }
    }
    station.compare(&sent)
}

fn main() -> ExitCode {
    let mut station = Station::new();
    println!("picture 1 after each slice: . has not arrived, w waits, m is marked, s is shown");
    for number in 1..=50 {
        if let Err(what) = receive_slices(&mut station, number) {
            eprintln!("slices: picture {number}: {what}");
            return ExitCode::FAILURE;
        }
    }
    println!("50 pictures: visits, screen and rows from the top are equal to the whole picture's");
    ExitCode::SUCCESS
}
