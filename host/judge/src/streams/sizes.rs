//! Streams of every size: read, written, and only asked about.

use super::ask::{lengths, Ask, Call};
use super::session::Session;
use super::writes;
use super::POOL;
use crate::session::Outcome;
use inputs::Rng;

pub fn run(s: &mut Session) -> Outcome {
    every_number(s)?;
    every_value(s)?;
    long_lines(s)?;
    every_size(s)?;
    every_side(s)
}

/// Looks at a stream of one macroblock's samples that says so of its sides.
fn look(s: &mut Session, w: &str, h: &str) -> Outcome {
    let stream = [format!("YUV4MPEG2 W{w} H{h}\nFRAME\n").as_bytes(), &POOL[..384]].concat();
    s.look_and_read("sides", Ask::of(stream, lengths(1, 1)))
}

/// Every number up to well above the largest side, numbers around powers of 2, and those that wrap to a good
/// side at any number of bits: 10^k + 16 is 16 more than a multiple of 2^k.
fn every_number(s: &mut Session) -> Outcome {
    let powers = (13..123).map(|n| 1u128 << n);
    let near = powers.flat_map(|p| [p - 16, p - 1, p, p + 1, p + 16, p + 32, p + 4096, 15 * p, 16 * p + 16]);
    let zeros = (0..300).map(|count| "0".repeat(count));
    let wrapping = zeros.flat_map(|zeros| ["16", "0032", "4096"].map(|end| format!("1{zeros}{end}")));
    for number in (0..4400).chain(near).map(|number| number.to_string()).chain(wrapping) {
        look(s, &number, "16")?;
        look(s, "0016", &number)?;
    }
    Ok(())
}

/// Lines of many bytes, by leading zeros, by long tags and by many of them.
fn long_lines(s: &mut Session) -> Outcome {
    for len in [100, 127, 128, 255, 256, 257, 1023, 1024, 4095, 4096, 32767, 32768, 65535, 65536, 100_000] {
        let [zeros, many] = ["0", " X"].map(|part| part.repeat(len));
        let long = format!(" X{zeros}");
        let lengthened = [[&zeros[..], "", ""], ["", &long, ""], ["", &many, ""], ["", "", &long], ["", "", &many]];
        for [w, header, frame] in lengthened {
            for (c, samples) in [("", 384), (" C420", 384), (" C444", 384), ("", 383)] {
                let lines = format!("YUV4MPEG2 W{w}16{header} H16{c}\nFRAME{frame}\n");
                let stream = [lines.as_bytes(), &POOL[..samples]].concat();
                s.look_and_read("long lines", Ask::of(stream, lengths(1, 1)))?;
            }
        }
    }
    Ok(())
}

/// Every value of up to four telling characters.
fn every_value(s: &mut Session) -> Outcome {
    const CHARACTERS: [&str; 9] = ["0", "1", "6", "+", "-", "\r", " ", "W", "C"];
    let mut values = vec![String::new()];
    for _ in 0..4 {
        let longer = values.iter().flat_map(|value| CHARACTERS.map(|c| format!("{value}{c}")));
        values = [String::new()].into_iter().chain(longer).collect();
    }
    for value in &values {
        look(s, value, "16")?;
        look(s, "16", value)?;
    }
    Ok(())
}

/// Every size up to just above the largest, with a stream that is too short for most: what `Look` says of it,
/// and how long the written stream is. Then sizes that wrap.
fn every_size(s: &mut Session) -> Outcome {
    for w in 0..=258 {
        for h in 0..=258 {
            let lines = format!("YUV4MPEG2 W{} H{}\nFRAME\n", 16 * w, 16 * h);
            s.check("sizes", &Ask::of([lines.as_bytes(), &POOL[..384]].concat(), [0; 3]))?;
            s.check("sizes", &to_write(w, h, Call::Length))?;
            s.check("sizes", &to_write(w, h, Call::Write))?;
        }
    }
    let powers: Vec<usize> = (0..64).flat_map(|n| [1 << n, (1usize << n) - 1, (1 << n) + 1]).collect();
    for &w in &powers {
        for &h in &powers {
            s.check("sizes", &to_write(w, h, Call::Length))?;
            s.check("sizes", &to_write(w, h, Call::Write))?;
        }
    }
    Ok(())
}

/// To write planes of no length.
fn to_write(w: usize, h: usize, call: Call) -> Ask {
    Ask { call, ..Ask::to_write(w, h, &[], 0) }
}

/// Every width and every height, with the other side 1 or 2: written and read again.
fn every_side(s: &mut Session) -> Outcome {
    let mut r = Rng::new(6);
    for side in 1..=256 {
        for size in [(side, 1), (1, side), (side, 2), (2, side)] {
            writes::again(s, "again", &mut r, size)?;
        }
    }
    Ok(())
}
