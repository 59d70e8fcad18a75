//! The films that a replay writes, in one folder: for NAME.dbv or NAME.dbvs all its pictures in NAME.y4m. A
//! picture of another size than the one before it begins NAME-2.y4m, and so on.

use super::{bytes, frame};
use crate::image::same;
use crate::picture::Picture;
use crate::say::counted;
use crate::trouble::{remove, Trouble};
use deblock::Size;
use std::collections::BTreeMap;
use std::fs::File;
use std::io::Write;
use std::path::{Path, PathBuf};

/// Where the films go, as the command line says it.
pub struct Destination {
    pub folder: PathBuf,
    /// Whether files that are there may go.
    pub force: bool,
}

pub struct Folder {
    to: Destination,
    /// All files of recordings, which no film may take the place of.
    recordings: Vec<PathBuf>,
    /// Each film with the recordings that it is of.
    written: BTreeMap<PathBuf, PathBuf>,
    pictures: usize,
    open: Option<Open>,
}

/// The film that is being written.
struct Open {
    recordings: PathBuf,
    /// Which of their films it is, from 1.
    number: usize,
    size: Size,
    film: PathBuf,
    to: File,
}

impl Folder {
    /// Makes the folder, and complains of what stands in the way of any first film before any work is done.
    pub fn make(to: Destination, all: &[PathBuf]) -> Result<Folder, Trouble> {
        std::fs::create_dir_all(&to.folder).map_err(|e| Trouble::in_file(&to.folder, e))?;
        let mut first = BTreeMap::new();
        for recordings in all {
            let film = to.film(recordings, 1);
            to.check(&film, all)?;
            if let Some(other) = first.insert(film.clone(), recordings) {
                return Err(twice(&film, other, recordings));
            }
        }
        Ok(Folder { to, recordings: all.to_vec(), written: BTreeMap::new(), pictures: 0, open: None })
    }

    /// Writes the next picture of a file of recordings.
    pub fn add(&mut self, recordings: &Path, picture: &Picture) -> Result<(), Trouble> {
        let size = frame(picture);
        let open = match self.open.take() {
            Some(open) if open.recordings == recordings && open.size == size => open.append(picture, false)?,
            Some(open) if open.recordings == recordings => self.begin(recordings, open.number + 1, picture)?,
            _ => self.begin(recordings, 1, picture)?,
        };
        self.open = Some(open);
        self.pictures += 1;
        Ok(())
    }

    fn begin(&mut self, recordings: &Path, number: usize, picture: &Picture) -> Result<Open, Trouble> {
        let film = self.to.film(recordings, number);
        if let Some(other) = self.written.insert(film.clone(), recordings.to_path_buf()) {
            return Err(twice(&film, &other, recordings));
        }
        self.to.check(&film, &self.recordings)?;
        let made = if self.to.force { File::create(&film) } else { File::create_new(&film) };
        let to = made.map_err(|e| Trouble::in_file(&film, e))?;
        Open { recordings: recordings.to_path_buf(), number, size: frame(picture), film, to }.append(picture, true)
    }

    /// What was written, in words.
    pub fn sum_up(&self) -> String {
        let (films, pictures) = (counted(self.written.len(), "film"), counted(self.pictures, "picture"));
        format!("{}: {films} of {pictures} written, as the library filtered them", self.to.folder.display())
    }
}

impl Destination {
    fn film(&self, recordings: &Path, number: usize) -> PathBuf {
        let mut name = recordings.file_stem().unwrap_or_default().to_os_string();
        if number > 1 {
            name.push(format!("-{number}"));
        }
        name.push(".y4m");
        self.folder.join(name)
    }

    fn check(&self, film: &Path, recordings: &[PathBuf]) -> Result<(), Trouble> {
        let wrong = |what: &str| Err(Trouble::in_file(film, what));
        if recordings.iter().any(|r| same(r, film)) {
            return wrong("this is one of the recordings");
        }
        if !self.force && film.symlink_metadata().is_ok() {
            return wrong("there is such a file already; --force replaces it");
        }
        Ok(())
    }
}

impl Open {
    /// What a full disk leaves of the film is removed.
    fn append(mut self, picture: &Picture, first: bool) -> Result<Open, Trouble> {
        let bytes = bytes(picture, first).map_err(|answer| {
            let Size { w, h } = self.size;
            format!("a frame of {w} by {h} macroblocks is refused with {} ({answer})", answer.number())
        });
        let done = bytes.and_then(|bytes| self.to.write_all(&bytes).map_err(|e| e.to_string()));
        match done {
            Ok(()) => Ok(self),
            Err(what) => {
                remove(&self.film)?;
                Err(Trouble::in_file(&self.film, what))
            }
        }
    }
}

fn twice(film: &Path, one: &Path, other: &Path) -> Trouble {
    let (one, other) = (one.display(), other.display());
    Trouble::in_file(film, format!("{one} and {other} would both be written here; replay them apart"))
}

#[cfg(test)]
mod tests {
    use super::*;

    fn to(folder: &str, force: bool) -> Destination {
        Destination { folder: folder.into(), force }
    }

    #[test]
    fn films_are_called_after_their_recordings() {
        let name = |recordings: &str, number: usize| to("out", false).film(Path::new(recordings), number);
        assert_eq!(name("a/pipe-000.dbv", 1), Path::new("out/pipe-000.y4m"));
        assert_eq!(name("a.b.dbvs", 12), Path::new("out/a.b-12.y4m"));
        assert_eq!(name("/dev/stdin", 2), Path::new("out/stdin-2.y4m"));
    }

    #[test]
    fn what_stands_in_the_way_is_named() {
        let said = |force: bool, film: &str, recordings: &[&str]| {
            let all: Vec<PathBuf> = recordings.iter().map(PathBuf::from).collect();
            to("src", force).check(Path::new(film), &all).err().map(|t| t.to_string()).unwrap_or_default()
        };
        assert!(said(false, "src/main.rs", &["a.dbv"]).contains("already"));
        assert_eq!(said(true, "src/main.rs", &["a.dbv"]), "");
        assert!(said(true, "src/main.rs", &["b.dbv", "src/../src/main.rs"]).contains("one of the recordings"));
        let twice = Folder::make(to("src", false), &["a/x.dbv".into(), "b/x.dbvs".into()]).err();
        let twice = twice.map(|t| t.to_string()).unwrap_or_default();
        assert_eq!(twice, "src/x.y4m: a/x.dbv and b/x.dbvs would both be written here; replay them apart");
    }
}
