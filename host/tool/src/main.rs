//! The command-line tool over the proved deblocking filter.

#[macro_use]
mod say;

mod beside;
mod check;
mod compare;
mod deflate;
mod demo;
mod differences;
mod image;
mod lent;
mod options;
mod orderfile;
mod orders;
mod part;
mod picture;
mod pictures;
mod png;
mod progress;
mod raw;
mod recording;
mod recordings;
mod replay;
mod slices;
mod source;
mod station;
mod strengths;
mod trouble;
#[cfg(test)]
mod version;
mod y4m;

use options::Command;
use std::process::ExitCode;
use trouble::Trouble;

const HELP: &str = include_str!("help.txt");
/// Version, commit, toolchain and archive, as the build script found them.
const VERSION: &str = include_str!(concat!(env!("OUT_DIR"), "/version.txt"));

/// What the exit status tells.
pub enum Outcome {
    Equal = 0,
    Different = 1,
    /// A file could not be read or written, or the words are wrong.
    Failed = 2,
}

extern "C" {
    fn signal(number: i32, handler: usize) -> usize;
}

/// A reader that goes away, such as `head`, ends the program quietly, as it does other tools.
fn end_with_the_reader() {
    const SIGPIPE: i32 = 13;
    const DEFAULT: usize = 0;
    // SAFETY: no other thread runs yet, and the default action is no function of ours.
    unsafe { signal(SIGPIPE, DEFAULT) };
}

fn main() -> ExitCode {
    end_with_the_reader();
    let outcome = Command::of(std::env::args_os().skip(1).collect()).and_then(run);
    let outcome = outcome.unwrap_or_else(|trouble| {
        eprintln!("deblock: {trouble}");
        Outcome::Failed
    });
    ExitCode::from(outcome as u8)
}

fn run(command: Command) -> Result<Outcome, Trouble> {
    match command {
        Command::Help => println!("{}", HELP.trim_end()),
        Command::Version => println!("{}", VERSION.trim_end()),
        Command::Demo { folder } => return Ok(if demo::run(&folder)? { Outcome::Equal } else { Outcome::Different }),
        Command::Replay { named, order, once, films } => return replay::run(&named, order.as_deref(), once, films),
        Command::Compare { files: [a, b], extent, image } => return compare::run([&a, &b], extent, image),
    }
    Ok(Outcome::Equal)
}
