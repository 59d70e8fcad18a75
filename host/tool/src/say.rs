//! What the tool prints. std's `println!` and `eprintln!` panic where nothing can be written, as on a full
//! disk. The macros here stand in their place throughout the crate.

use std::fmt::Arguments;
use std::io::{self, Write};

macro_rules! println {
    ($($words:tt)*) => { $crate::say::line(format_args!($($words)*)) };
}

macro_rules! eprintln {
    ($($words:tt)*) => { $crate::say::note(format_args!($($words)*)) };
}

/// A line on the standard output. Where it cannot be written nobody learns what was found, and the tool ends.
pub fn line(words: Arguments) {
    if let Err(e) = writeln!(io::stdout(), "{words}") {
        note(format_args!("deblock: the standard output: {e}"));
        std::process::exit(2);
    }
}

/// A line on the error stream. Where that fails there is nobody to tell.
pub fn note(words: Arguments) {
    let _ = writeln!(io::stderr(), "{words}");
}

/// "1 sample", "2 samples".
pub fn counted(count: usize, what: &str) -> String {
    format!("{count} {what}{}", if count == 1 { "" } else { "s" })
}

/// "1 sample differs", "2 samples differ".
pub fn differ(count: usize, what: &str) -> String {
    format!("{} {}", counted(count, what), if count == 1 { "differs" } else { "differ" })
}

#[cfg(test)]
mod tests {
    use super::*;

    #[test]
    fn one_is_not_many() {
        let said = [0, 1, 2].map(|n| differ(n, "sample"));
        assert_eq!(said, ["0 samples differ", "1 sample differs", "2 samples differ"]);
    }
}
