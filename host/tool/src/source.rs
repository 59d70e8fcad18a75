//! The bytes of a file, one part after the other, and where in it we are.

use crate::trouble::Trouble;
use std::fs::File;
use std::io::{BufReader, Read};
use std::path::{Path, PathBuf};

pub struct Source {
    file: PathBuf,
    from: Box<dyn Read>,
    /// Read from the file, but not yet taken.
    ahead: Vec<u8>,
    at: usize,
}

impl Source {
    pub fn open(file: &Path) -> Result<Source, Trouble> {
        let from = File::open(file).map_err(|e| Trouble::in_file(file, e))?;
        Ok(Source::new(file, BufReader::new(from)))
    }

    pub fn new(file: &Path, from: impl Read + 'static) -> Source {
        Source { file: file.to_path_buf(), from: Box::new(from), ahead: Vec::new(), at: 0 }
    }

    /// How many bytes were taken.
    pub fn at(&self) -> usize {
        self.at
    }

    pub fn trouble(&self, at: usize, what: impl std::fmt::Display) -> Trouble {
        Trouble::at_byte(&self.file, at, what)
    }

    pub fn at_end(&mut self) -> Result<bool, Trouble> {
        self.read_ahead(1)?;
        Ok(self.ahead.is_empty())
    }

    /// Whether the next bytes are these; they are not taken.
    pub fn comes(&mut self, bytes: &[u8]) -> Result<bool, Trouble> {
        self.read_ahead(bytes.len())?;
        Ok(self.ahead.starts_with(bytes))
    }

    /// Fills `ahead` up to so many bytes, fewer where the file ends.
    fn read_ahead(&mut self, count: usize) -> Result<(), Trouble> {
        let missing = count.saturating_sub(self.ahead.len()) as u64;
        let got = (&mut self.from).take(missing).read_to_end(&mut self.ahead);
        got.map(|_| ()).map_err(|e| Trouble::at_byte(&self.file, self.at, e))
    }

    /// As many bytes, or as many as there are.
    pub fn up_to(&mut self, count: usize) -> Result<Vec<u8>, Trouble> {
        self.read_ahead(count)?;
        let count = count.min(self.ahead.len());
        let rest = self.ahead.split_off(count);
        self.at += count;
        Ok(std::mem::replace(&mut self.ahead, rest))
    }

    /// A line with its newline, or what there is of it at the end of the file. One that has more bytes than
    /// `most` is trouble.
    pub fn line(&mut self, most: usize, what: &str) -> Result<Vec<u8>, Trouble> {
        for length in 1..=most {
            self.read_ahead(length)?;
            if self.ahead.len() < length || self.ahead[length - 1] == b'\n' {
                return self.up_to(length);
            }
        }
        Err(self.trouble(self.at, format!("{what} has more than {most} bytes, the most that this tool takes")))
    }

    /// Just so many bytes.
    pub fn take(&mut self, count: usize, what: &str) -> Result<Vec<u8>, Trouble> {
        self.read_ahead(count)?;
        let left = self.ahead.len();
        if left < count {
            return Err(self.trouble(self.at, format!("{what}: {count} bytes are wanted, the file ends after {left}")));
        }
        self.up_to(count)
    }

    /// Bytes that must all pass a test.
    pub fn checked(&mut self, count: usize, what: &str, passes: impl Fn(u8) -> bool) -> Result<Vec<u8>, Trouble> {
        let start = self.at;
        let part = self.take(count, what)?;
        match part.iter().position(|&b| !passes(b)) {
            None => Ok(part),
            Some(i) => Err(self.trouble(start + i, format!("{what}: {} is out of range", part[i]))),
        }
    }

    pub fn byte(&mut self, what: &str, passes: impl Fn(u8) -> bool) -> Result<u8, Trouble> {
        Ok(self.checked(1, what, passes)?[0])
    }

    pub fn u16(&mut self, what: &str) -> Result<usize, Trouble> {
        let b = self.take(2, what)?;
        Ok(u16::from_le_bytes([b[0], b[1]]).into())
    }
}

#[cfg(test)]
mod tests {
    use super::*;

    #[test]
    fn parts_come_in_order_and_the_end_is_seen() {
        let mut s = Source::new(Path::new("x"), &b"abcde"[..]);
        assert!(s.comes(b"abc").expect("memory") && !s.comes(b"b").expect("memory"));
        assert_eq!(s.take(2, "two").expect("there"), b"ab");
        assert!(!s.at_end().expect("memory"));
        let cut = s.take(4, "four").expect_err("three are left").to_string();
        assert_eq!(cut, "x: at byte 2: four: 4 bytes are wanted, the file ends after 3");
        assert_eq!(s.u16("a number").expect("there"), 0x6463);
        let bad = s.byte("a letter", |b| b == b'f').expect_err("it is e").to_string();
        assert_eq!(bad, "x: at byte 4: a letter: 101 is out of range");
        assert!(s.at_end().expect("memory"));
    }

    #[test]
    fn lines_end_with_a_newline_or_with_the_file() {
        let mut s = Source::new(Path::new("x"), &b"ab\n\ncd"[..]);
        assert_eq!([s.line(3, "a line").expect("short"), s.line(1, "a line").expect("short")], [&b"ab\n"[..], b"\n"]);
        let long = s.line(1, "the last line").expect_err("two bytes are left").to_string();
        assert_eq!(long, "x: at byte 4: the last line has more than 1 bytes, the most that this tool takes");
        assert_eq!(s.line(3, "a line").expect("short"), b"cd");
        assert!(s.line(3, "a line").expect("nothing is left").is_empty());
    }

    #[test]
    fn what_cannot_be_read_is_named() {
        struct Broken;
        impl Read for Broken {
            fn read(&mut self, _: &mut [u8]) -> std::io::Result<usize> {
                Err(std::io::Error::other("the disk is gone"))
            }
        }
        let mut s = Source::new(Path::new("x"), Broken);
        assert_eq!(s.at_end().expect_err("broken").to_string(), "x: at byte 0: the disk is gone");
    }
}
