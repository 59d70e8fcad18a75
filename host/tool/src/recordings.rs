//! The recordings of a file, which stand end to end, and the files of a folder.

use crate::recording::{Recording, MAGIC};
use crate::source::Source;
use crate::trouble::Trouble;
use std::path::{Path, PathBuf};

pub struct Recordings {
    source: Source,
    read: usize,
    /// Whether the last one that was read has none, by flag 16.
    no_grids: bool,
    /// Nothing is read after trouble.
    stuck: bool,
}

impl Recordings {
    pub fn open(file: &Path) -> Result<Recordings, Trouble> {
        Ok(Recordings::new(Source::open(file)?))
    }

    pub fn new(source: Source) -> Recordings {
        Recordings { source, read: 0, no_grids: false, stuck: false }
    }

    /// How many were read.
    pub fn read(&self) -> usize {
        self.read
    }

    /// Whether one was read and no other follows.
    pub fn only_one(&mut self) -> bool {
        self.read == 1 && self.source.at_end().unwrap_or(false)
    }

    /// The next recording; none at the end. A file without any is no file of recordings.
    fn one(&mut self) -> Result<Option<Recording>, Trouble> {
        if self.stuck || self.read > 0 && self.source.at_end()? {
            return Ok(None);
        }
        if self.read > 0 && !self.source.comes(MAGIC)? {
            return Err(self.no_other());
        }
        let recording = Recording::read(&mut self.source)?;
        self.read += 1;
        self.no_grids = recording.grids.is_empty();
        Ok(Some(recording))
    }

    fn no_other(&self) -> Trouble {
        let flag = if self.no_grids { " (it has flag 16, so no grids)" } else { "" };
        let what = format!("recording {} ends here{flag}, and what follows does not start with DBV1", self.read);
        self.source.trouble(self.source.at(), what)
    }
}

impl Iterator for Recordings {
    type Item = Result<Recording, Trouble>;

    fn next(&mut self) -> Option<Result<Recording, Trouble>> {
        let item = self.one().transpose();
        self.stuck |= matches!(item, Some(Err(_)));
        item
    }
}

/// The files that a word of the command line names: a file, or those of a folder that are called *.dbv or
/// *.dbvs, by name.
pub fn files(named: &Path) -> Result<Vec<PathBuf>, Trouble> {
    if !named.is_dir() {
        return Ok(vec![named.to_path_buf()]);
    }
    let entries = std::fs::read_dir(named).map_err(|e| Trouble::in_file(named, e))?;
    let all: Result<Vec<PathBuf>, _> = entries.map(|entry| entry.map(|e| e.path())).collect();
    let mut found = all.map_err(|e| Trouble::in_file(named, e))?;
    found.retain(|f| f.extension().is_some_and(|x| x == "dbv" || x == "dbvs") && !f.is_dir());
    found.sort();
    if found.is_empty() {
        return Err(Trouble::in_file(named, "no file of this folder is called *.dbv or *.dbvs"));
    }
    Ok(found)
}

#[cfg(test)]
mod tests {
    use super::*;
    use crate::recording::tests::{changed, fields, good};

    fn said(bytes: Vec<u8>) -> (usize, String) {
        let mut all = Recordings::new(Source::new(Path::new("x.dbvs"), std::io::Cursor::new(bytes)));
        let trouble = all.find_map(|r| r.err()).map(|t| t.to_string());
        assert!(all.next().is_none(), "it goes on after the end");
        (all.read(), trouble.unwrap_or_default())
    }

    #[test]
    fn recordings_stand_end_to_end() {
        let one = good();
        assert_eq!(said(one.repeat(3)), (3, String::new()));
        assert_eq!(said([&one[..], &fields(), &one].concat()), (3, String::new()));
        let (read, what) = said([&one[..], &one[..20]].concat());
        assert!(read == 1 && what.starts_with(&format!("x.dbvs: at byte {}: the planes before", one.len() + 14)));
        let (read, what) = said([&one[..], b"DBV"].concat());
        let ends = format!("x.dbvs: at byte {}: recording 1 ends here, and what follows", one.len());
        assert!(read == 1 && what.starts_with(&ends), "{what}");
        assert!(said(Vec::new()).1.starts_with("x.dbvs: at byte 0: the magic"));
    }

    /// A file with equal chroma offsets in which flag 16 means something else has grids where ours has
    /// strengths.
    #[test]
    fn flag_16_is_named_where_something_follows() {
        let (_, what) = said(changed(good(), 10, 16));
        assert!(what.contains("recording 1 ends here (it has flag 16, so no grids), and what follows"));
    }

    #[test]
    fn one_is_told_from_several() {
        for count in [1, 2] {
            let source = Source::new(Path::new("x.dbvs"), std::io::Cursor::new(good().repeat(count)));
            let mut all = Recordings::new(source);
            assert!(!all.only_one());
            assert!(all.next().is_some_and(|r| r.is_ok()));
            assert_eq!(all.only_one(), count == 1);
        }
    }
}
