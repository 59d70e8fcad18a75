//! The words of the command line. File names need not be UTF-8.

use crate::image::Image;
use crate::raw::Extent;
use crate::trouble::Trouble;
use crate::y4m::folder::Destination;
use std::ffi::{OsStr, OsString};
use std::path::{Path, PathBuf};

pub enum Command {
    Help,
    Version,
    Demo { folder: PathBuf },
    Replay { named: Vec<PathBuf>, order: Option<PathBuf>, once: bool, films: Option<Destination> },
    Compare { files: [PathBuf; 2], extent: Option<Extent>, image: Option<Image> },
}

/// Every option: its name, its command, and whether a value follows it.
const OPTIONS: [(&str, &str, bool); 7] = [
    ("--order", "replay", true),
    ("--once", "replay", false),
    ("--y4m", "replay", true),
    ("--force", "replay", false),
    ("--size", "compare", true),
    ("--png", "compare", true),
    ("--force", "compare", false),
];

impl Command {
    pub fn of(words: Vec<OsString>) -> Result<Command, Trouble> {
        if words.iter().any(|w| w == "--help" || w == "-h") {
            return Ok(Command::Help);
        }
        let mut words = words.into_iter();
        let command = words.next().unwrap_or_default();
        match command.to_str() {
            Some("--version") => Words::take("--version", words)?.version(),
            Some("demo") => Words::take("demo", words)?.demo(),
            Some("replay") => Words::take("replay", words)?.replay(),
            Some("compare") => Words::take("compare", words)?.compare(),
            Some("") => wrong("demo, replay or compare?"),
            _ => wrong(format!("{} is no command", shown(&command))),
        }
    }
}

fn wrong<T>(what: impl std::fmt::Display) -> Result<T, Trouble> {
    Err(Trouble::new(format!("{what}; `deblock --help` says more")))
}

/// The words after the command: files, and options with their values.
struct Words {
    files: Vec<PathBuf>,
    options: Vec<(&'static str, OsString)>,
}

impl Words {
    fn take(command: &str, mut words: impl Iterator<Item = OsString>) -> Result<Words, Trouble> {
        let mut taken = Words { files: Vec::new(), options: Vec::new() };
        while let Some(word) = words.next() {
            if is_option(&word) {
                taken.option(command, &word, &mut words)?;
            } else {
                taken.files.push(word.into());
            }
        }
        Ok(taken)
    }

    fn option(
        &mut self,
        command: &str,
        word: &OsStr,
        words: &mut impl Iterator<Item = OsString>,
    ) -> Result<(), Trouble> {
        let known = OPTIONS.iter().find(|(name, of, _)| word == *name && command == *of);
        let Some((name, _, valued)) = known else {
            return wrong(format!("{} does not belong here", shown(word)));
        };
        if self.has(name) {
            return wrong(format!("{name} is given twice"));
        }
        let value = if *valued { words.next().filter(|v| !is_option(v)) } else { Some(OsString::new()) };
        let Some(value) = value else { return wrong(format!("{name} wants a value")) };
        self.options.push((name, value));
        Ok(())
    }

    fn value(&self, name: &str) -> Option<&OsString> {
        self.options.iter().find(|(n, _)| *n == name).map(|(_, value)| value)
    }

    fn has(&self, name: &str) -> bool {
        self.value(name).is_some()
    }

    fn version(self) -> Result<Command, Trouble> {
        match self.files.first() {
            Some(file) => wrong(format!("{} does not belong here", file.display())),
            None => Ok(Command::Version),
        }
    }

    fn demo(mut self) -> Result<Command, Trouble> {
        match self.files.len() {
            0 => Ok(Command::Demo { folder: "target/demo".into() }),
            1 => Ok(Command::Demo { folder: self.files.remove(0) }),
            n => wrong(format!("one folder is wanted, {n} were given")),
        }
    }

    fn replay(self) -> Result<Command, Trouble> {
        if self.files.is_empty() {
            return wrong("which recordings? Files and folders are wanted");
        }
        let (order, once) = (self.value("--order").map(PathBuf::from), self.has("--once"));
        let force = self.has("--force");
        let films = self.value("--y4m").map(|folder| Destination { folder: folder.into(), force });
        if force && films.is_none() {
            return wrong("--force goes with --y4m");
        }
        Ok(Command::Replay { named: self.files, order, once, films })
    }

    fn compare(self) -> Result<Command, Trouble> {
        let extent = self.value("--size").map(|word| extent(word)).transpose()?;
        let force = self.has("--force");
        let image = self.value("--png").map(|file| Image { file: file.into(), force });
        if force && image.is_none() {
            return wrong("--force goes with --png");
        }
        match <[PathBuf; 2]>::try_from(self.files) {
            Ok(files) => Ok(Command::Compare { files, extent, image }),
            Err(files) => wrong(format!("two files are wanted, {} given", files.len())),
        }
    }
}

/// A word that need not be UTF-8.
fn shown(word: &OsStr) -> std::path::Display<'_> {
    Path::new(word).display()
}

fn is_option(word: &OsStr) -> bool {
    word.as_encoded_bytes().starts_with(b"--")
}

/// "720x576" in pixels.
fn extent(word: &OsStr) -> Result<Extent, Trouble> {
    let side = |s: &str| s.parse().ok().filter(|n| (2..=65_536).contains(n) && n % 2 == 0);
    let sides = word.to_str().and_then(|w| w.split_once('x')).map(|(w, h)| (side(w), side(h)));
    match sides {
        Some((Some(width), Some(height))) => Ok(Extent { width, height }),
        _ => wrong(format!("--size {}: give it as 720x576, even numbers from 2 to 65536", shown(word))),
    }
}

#[cfg(test)]
mod tests;
