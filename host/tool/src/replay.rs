//! Replays the recordings of files and folders, one after the other, and sums up.

use crate::beside::Verdict;
use crate::check::{self, Plan};
use crate::orderfile::OrderFile;
use crate::progress::Progress;
use crate::recording::Recording;
use crate::recordings::{self, Recordings};
use crate::say::counted;
use crate::trouble::Trouble;
use crate::y4m::folder::{Destination, Folder};
use crate::Outcome;
use std::path::{Path, PathBuf};

/// A file of recordings that cannot be read is told of and passed over; an order that cannot be read, or does
/// not fit a picture, is trouble, and so is a film that cannot be written.
pub fn run(named: &[PathBuf], order: Option<&Path>, once: bool, to: Option<Destination>) -> Result<Outcome, Trouble> {
    let plan = Plan { given: order.map(OrderFile::read).transpose()?, once };
    let (mut files, mut troubles) = (Vec::new(), Vec::new());
    for found in named.iter().map(|name| recordings::files(name)) {
        found.map_or_else(|trouble| troubles.push(trouble), |more| files.extend(more));
    }
    let films = to.map(|to| Folder::make(to, &files)).transpose()?;
    let (alone, progress) = (files.len() == 1, Progress::open("pictures"));
    let mut tour = Tour { plan, alone, films, pictures: [0; 3], telling: 0, unread: 0, progress };
    troubles.into_iter().for_each(|trouble| tour.unread(trouble));
    for file in files {
        tour.file(&file)?;
    }
    Ok(tour.sum_up())
}

struct Tour {
    plan: Plan,
    /// Whether there is one file.
    alone: bool,
    /// Where the filtered pictures go, if they are wanted.
    films: Option<Folder>,
    /// Those that came out equal, incomplete, different.
    pictures: [usize; 3],
    /// Those on which the old release's fault shows.
    telling: usize,
    /// Files that could not be read, or not to their end.
    unread: usize,
    progress: Progress,
}

impl Tour {
    fn file(&mut self, file: &Path) -> Result<(), Trouble> {
        let mut recordings = match Recordings::open(file) {
            Ok(recordings) => recordings,
            Err(trouble) => {
                self.unread(trouble);
                return Ok(());
            }
        };
        while let Some(next) = recordings.next() {
            let number = if recordings.only_one() { None } else { Some(recordings.read()) };
            match next {
                Ok(recording) => self.picture(file, number, &recording)?,
                Err(trouble) => self.unread(trouble),
            }
        }
        Ok(())
    }

    /// Tells all of a picture that is the only one, or that is not equal; else a line. `number` counts from 1
    /// within a file of several.
    fn picture(&mut self, file: &Path, number: Option<usize>, r: &Recording) -> Result<(), Trouble> {
        let (report, filtered) = check::picture(r, &self.plan)?;
        self.films.as_mut().map(|films| films.add(file, &filtered)).transpose()?;
        self.pictures[report.verdict as usize] += 1;
        self.telling += usize::from(check::shows_the_fault(r));
        let name = number.map(|n| format!(", picture {n}")).unwrap_or_default();
        let grids = if r.grids.is_empty() { ", no grids" } else { "" };
        let fields = if r.has_fields() { "two fields of " } else { "" };
        let (w, h, verdict) = (r.before.size.w, r.before.size.h, in_words(report.verdict));
        println!("{}{name}: {fields}{w} by {h} macroblocks{grids}: {verdict}", file.display());
        if report.verdict != Verdict::Equal || self.alone && number.is_none() {
            report.lines.iter().for_each(|line| println!("  {line}"));
        }
        self.progress.step();
        Ok(())
    }

    fn unread(&mut self, trouble: Trouble) {
        self.unread += 1;
        eprintln!("deblock: {trouble}");
    }

    fn sum_up(&self) -> Outcome {
        let ([equal, incomplete, different], unread) = (self.pictures, self.unread);
        self.films.iter().for_each(|films| println!("{}", films.sum_up()));
        let all = counted(equal + incomplete + different, "picture");
        println!(
            "The old rule, down the columns, gives other planes than the recorder's in {} of {all}.",
            self.telling
        );
        println!("Pictures: {equal} equal, {different} different, {incomplete} incomplete. Files not read: {unread}.");
        match (unread, incomplete + different) {
            (0, 0) => Outcome::Equal,
            (0, _) => Outcome::Different,
            _ => Outcome::Failed,
        }
    }
}

fn in_words(verdict: Verdict) -> &'static str {
    match verdict {
        Verdict::Equal => "equal",
        Verdict::Incomplete => "INCOMPLETE",
        Verdict::Different => "DIFFERENT",
    }
}
