//! Compares the proved archive with the Rust original, in fields, under 8x8 flags, with two chroma offsets,
//! with slices, in what is final and in streams with models, every answer and every lent byte.

mod arrivals;
mod counts;
#[cfg(test)]
mod damage_tests;
mod differences;
mod expect;
mod fault;
mod fence;
mod finality;
mod make;
mod make_slices;
mod make_tables;
mod mistakes;
mod model;
mod model_counts;
mod model_lines;
mod model_numbers;
mod model_rows;
mod model_slice_edges;
mod model_slice_numbers;
mod model_slices;
mod model_strengths;
mod model_table_numbers;
mod model_tables;
mod model_thresholds;
mod original;
mod record;
mod refusals;
mod request;
mod rounds;
mod session;
mod shrink;
mod small;
mod small_fields;
mod small_flags;
mod small_rows;
mod small_slices;
mod small_tables;
mod streams;
mod subject;
mod table;
mod unread;
mod visits;

use request::Structure;
use rounds::Depth;
use session::{Outcome, Session};
use std::process::ExitCode;
use std::time::{Duration, Instant};
use subject::Archive;

const HELP: &str = "judge: compares the proved archive with the Rust original, every answer and every lent byte,
and in what the original does not have, fields, coefficients of 8x8 blocks, a chroma offset of V's own and
slices, with a model of the rules that agrees with the original; streams and what is final, which it does not
have either, with a reading of the rules that was written on its own

  judge bounded [SEED]       all small cases, then 80 rounds of random ones: a minute and a half
  judge long SECONDS [SEED]  all small cases, then rounds until the time is over
  judge streams [SEED]       what of `bounded` is about streams
  judge round SEED           one round again, to replay a mismatch
  judge mutants              runs wrong filters, wrong rules of what is final, and wrong readers and writers
                             of streams through the same comparison: all must be caught
  judge differences          prints the tables of docs/DIFFERENCES.md, having run each row: what the
                             original does where the archive refuses, and the other differences
  judge arrivals             prints what crates/arrivals must print
  judge record               writes the original's answers to 120 small pictures, for crates/recordings

Exit status 0: all equal. 1: a mismatch, printed with its seed and the smallest case found, or a difference
that is not as its row says. 2: wrong arguments.";

const ROUNDS: u64 = 80;

fn main() -> ExitCode {
    let words: Vec<String> = std::env::args().skip(1).collect();
    let words: Vec<&str> = words.iter().map(String::as_str).collect();
    let until = |seconds| move |_, time| time < Duration::from_secs(seconds);
    let passed = match words[..] {
        ["bounded"] => compare(1, About::All, |k, _| k < ROUNDS),
        ["bounded", seed] => number(seed).and_then(|seed| compare(seed, About::All, |k, _| k < ROUNDS)),
        ["streams"] => compare(1, About::Streams, |k, _| k < ROUNDS),
        ["streams", seed] => number(seed).and_then(|seed| compare(seed, About::Streams, |k, _| k < ROUNDS)),
        ["long", seconds] => number(seconds).and_then(|s| compare(fresh_seed(), About::All, until(s))),
        ["long", seconds, seed] => {
            number(seconds).and_then(|s| number(seed).and_then(|seed| compare(seed, About::All, until(s))))
        }
        ["round", seed] => number(seed).and_then(replay),
        ["mutants"] => Some(mistakes::run()),
        ["differences"] => Some(differences::run()),
        ["arrivals"] => Some(arrivals::run(&mut std::io::stdout().lock()).is_ok()),
        ["record"] => Some(record::run(&mut std::io::stdout().lock())),
        ["--help"] | ["-h"] => {
            println!("{HELP}");
            return ExitCode::SUCCESS;
        }
        _ => None,
    };
    match passed {
        Some(true) => ExitCode::SUCCESS,
        Some(false) => ExitCode::FAILURE,
        None => {
            eprintln!("{HELP}");
            ExitCode::from(2)
        }
    }
}

fn number(word: &str) -> Option<u64> {
    word.parse().ok()
}

fn fresh_seed() -> u64 {
    let now = std::time::SystemTime::now().duration_since(std::time::UNIX_EPOCH);
    now.map_or(1, |t| t.as_nanos() as u64) >> 10
}

/// What a comparison is about.
#[derive(Clone, Copy, PartialEq, Eq)]
enum About {
    All,
    Streams,
}

/// What was compared so far, of pictures, with them of what is final, and of streams.
struct Compared<'a> {
    about: About,
    pictures: Session<'a>,
    streams: streams::Session<'a>,
}

impl<'a> Compared<'a> {
    fn new(archive: &'a Archive, about: About) -> Self {
        fault::watch();
        Compared { about, pictures: Session::new(archive, true), streams: streams::Session::new(archive, true) }
    }

    fn small(&mut self) -> Outcome {
        if self.about == About::All {
            small::run(&mut self.pictures, 1)?;
            finality::small(&mut self.pictures.finality)?;
        }
        streams::small(&mut self.streams)
    }

    /// One round; false, with what is wrong printed, where something is.
    fn round(&mut self, seed: u64) -> bool {
        fault::in_round(seed);
        let pictures = match self.about {
            About::All => self.pictures_round(seed),
            About::Streams => Ok(()),
        };
        match pictures.and_then(|()| streams::round(&mut self.streams, seed, Depth::Full)) {
            Ok(()) => true,
            Err(failure) => {
                println!("MISMATCH; again with: judge round {seed}\n{failure}");
                false
            }
        }
    }

    fn pictures_round(&mut self, seed: u64) -> Outcome {
        rounds::round(&mut self.pictures, seed, Depth::Full)?;
        finality::round(&mut self.pictures.finality, seed, Depth::Full)
    }

    /// How many were compared.
    fn calls(&self) -> String {
        let [frames, fields] = [Structure::Frame, Structure::Field].map(|of| self.pictures.calls(of));
        let (finality, streams) = (self.pictures.finality.calls(), self.streams.calls());
        let all = frames + fields + finality + streams;
        let sliced = self.pictures.sliced_calls();
        let pictures = format!("{frames} about frames, {fields} about fields, {sliced} of them with slices");
        format!("{all} calls ({pictures}, {finality} about what is final, {streams} about streams)")
    }

    fn print(&self) {
        if self.about == About::All {
            self.pictures.print();
            self.pictures.finality.print();
        }
        self.streams.print();
    }

    /// The numbers that a call on pictures, the calls about what is final, or those about streams could have
    /// answered and have not, in words.
    fn unseen(&self) -> Vec<String> {
        let (about, finality) = (self.about, &self.pictures.finality);
        let finals = finality::NUMBERS.into_iter().filter(|&number| finality.answered(number) == 0);
        let finals = finals.map(|number| format!("{number} of what is final"));
        let streams = streams::NUMBERS.into_iter().filter(|&number| self.streams.answered(number) == 0);
        let streams = streams.map(|number| format!("{number} of streams"));
        let pictures = self.pictures.unseen().into_iter();
        pictures.chain(finals).filter(|_| about == About::All).chain(streams).collect()
    }
}

/// The small cases, then rounds with seeds from `seed` on as long as `goes_on` says so.
fn compare(seed: u64, about: About, goes_on: impl Fn(u64, Duration) -> bool) -> Option<bool> {
    let start = Instant::now();
    let took = || start.elapsed().as_secs_f64();
    println!("seed {seed}");
    let archive = Archive::new();
    let mut c = Compared::new(&archive, about);
    if let Err(failure) = c.small() {
        println!("MISMATCH in the small cases\n{failure}");
        return Some(false);
    }
    println!("small cases: {}, {:.1} s", c.calls(), took());
    let mut round = 0;
    let mut said = start;
    while goes_on(round, start.elapsed()) {
        if !c.round(seed + round) {
            return Some(false);
        }
        round += 1;
        if said.elapsed() > Duration::from_secs(60) {
            said = Instant::now();
            println!("{round} rounds: {}, {:.0} s", c.calls(), took());
        }
    }
    c.print();
    println!("{} equal in {:.1} s, {round} rounds of seeds from {seed} on", c.calls(), took());
    let unseen = c.unseen();
    if !unseen.is_empty() {
        println!("but no call answered {}: the run is too short to say anything of them", unseen.join(", "));
    }
    Some(unseen.is_empty())
}

fn replay(seed: u64) -> Option<bool> {
    let archive = Archive::new();
    let mut c = Compared::new(&archive, About::All);
    let equal = c.round(seed);
    c.print();
    Some(equal)
}
