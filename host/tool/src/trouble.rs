//! What stops the tool: which file, where in it, and what is wrong.

use crate::part;
use deblock::Part;
use std::fmt;
use std::fs::File;
use std::io::{self, Write};
use std::path::Path;

#[derive(Debug)]
pub struct Trouble(String);

impl Trouble {
    pub fn new(what: impl Into<String>) -> Trouble {
        Trouble(what.into())
    }

    pub fn in_file(file: &Path, what: impl fmt::Display) -> Trouble {
        Trouble(format!("{}: {what}", file.display()))
    }

    pub fn at_byte(file: &Path, offset: usize, what: impl fmt::Display) -> Trouble {
        Trouble(format!("{}: at byte {offset}: {what}", file.display()))
    }

    /// The same, and in which field.
    pub fn within(self, part: Part) -> Trouble {
        let field = part::name(part).map(|field| format!(", in the {field}"));
        Trouble(self.0 + &field.unwrap_or_default())
    }

    pub fn at_line(file: &Path, line: usize, what: impl fmt::Display) -> Trouble {
        Trouble(format!("{}: line {line}: {what}", file.display()))
    }
}

impl fmt::Display for Trouble {
    fn fmt(&self, f: &mut fmt::Formatter) -> fmt::Result {
        f.write_str(&self.0)
    }
}

pub fn read(file: &Path) -> Result<Vec<u8>, Trouble> {
    std::fs::read(file).map_err(|e| Trouble::in_file(file, e))
}

/// Writes a whole file, in the place of one that is there.
pub fn write(file: &Path, bytes: &[u8]) -> Result<(), Trouble> {
    fill(file, File::create(file), bytes)
}

/// Writes a whole file where none is.
pub fn write_new(file: &Path, bytes: &[u8]) -> Result<(), Trouble> {
    fill(file, File::create_new(file), bytes)
}

/// What a full disk leaves of the file is removed, unless it is a device.
fn fill(file: &Path, opened: io::Result<File>, bytes: &[u8]) -> Result<(), Trouble> {
    let mut to = opened.map_err(|e| Trouble::in_file(file, e))?;
    to.write_all(bytes).map_err(|e| match remove(file) {
        Ok(_) => Trouble::in_file(file, e),
        Err(also) => Trouble::in_file(file, format!("{e}; and what there is of it stays: {also}")),
    })
}

/// Removes an ordinary file and says whether there was one.
pub fn remove(file: &Path) -> Result<bool, Trouble> {
    if !file.is_file() {
        return Ok(false);
    }
    std::fs::remove_file(file).map_err(|e| Trouble::in_file(file, e))?;
    Ok(true)
}
