//! YUV4MPEG2 as it was asked for, sentence by sentence: what streams are held to.
//!
//! Lines and words come from splitting, and a number stays a word of digits. A good side is one of 256 such
//! words, so nothing is added up and nothing can wrap. No line of it comes from the archive, which goes from
//! byte to byte and adds numbers up; so does scanner.rs, which carries the mistakes.

use super::ask::{lengths, Ask, Call, Reply};
use crate::table::is_size;
use std::collections::HashMap;
use std::sync::LazyLock;

/// "16 a C tag other than .."
const PLANES: [&[u8]; 4] = [b"420", b"420jpeg", b"420mpeg2", b"420paldv"];

/// All sides that a picture may have, in pixels as they are written, each with its macroblocks.
static SIDES: LazyLock<HashMap<Vec<u8>, usize>> =
    LazyLock::new(|| (1..=256).map(|side| ((16 * side).to_string().into_bytes(), side)).collect());

/// Puts everything into the state that the call must leave, and gives what it must answer.
pub fn answer(a: &mut Ask) -> Reply {
    match a.call {
        Call::Look => look(a).unwrap_or_else(Reply::refused),
        Call::Read => read(a).unwrap_or_else(Reply::refused),
        Call::Length => Reply::length(if is_size(a.w, a.h) { length(a.w, a.h) } else { 0 }),
        Call::Write => write(a).unwrap_or_else(Reply::refused),
    }
}

fn look(a: &Ask) -> Result<Reply, u32> {
    picture(&a.stream).map(|(w, h, _)| Reply { w, h, ..Reply::default() })
}

fn read(a: &mut Ask) -> Result<Reply, u32> {
    let (w, h, samples) = picture(&a.stream)?;
    if planes_of_wrong_length(a, w, h) {
        return Err(3);
    }
    let [y, u, _] = lengths(w, h);
    a.luma.copy_from_slice(&samples[..y]);
    a.u.copy_from_slice(&samples[y..y + u]);
    a.v.copy_from_slice(&samples[y + u..]);
    Ok(Reply { w, h, ..Reply::default() })
}

fn write(a: &mut Ask) -> Result<Reply, u32> {
    if !is_size(a.w, a.h) {
        return Err(1);
    }
    if planes_of_wrong_length(a, a.w, a.h) {
        return Err(3);
    }
    if a.stream.len() != length(a.w, a.h) {
        return Err(18);
    }
    let stream = [lines(a.w, a.h).as_bytes(), &a.luma, &a.u, &a.v].concat();
    a.stream.copy_from_slice(&stream);
    Ok(Reply::default())
}

/// Check 3.
fn planes_of_wrong_length(a: &Ask, w: usize, h: usize) -> bool {
    [a.luma.len(), a.u.len(), a.v.len()] != lengths(w, h)
}

/// The two lines that are written before the planes.
fn lines(w: usize, h: usize) -> String {
    format!("YUV4MPEG2 W{} H{} C420mpeg2\nFRAME\n", 16 * w, 16 * h)
}

/// How long a written stream is.
pub fn length(w: usize, h: usize) -> usize {
    lines(w, h).len() + lengths(w, h).iter().sum::<usize>()
}

/// The size of the stream's first picture, and its samples.
fn picture(stream: &[u8]) -> Result<(usize, usize, &[u8]), u32> {
    let lines: Vec<&[u8]> = stream.splitn(3, |b| *b == b'\n').collect();
    let [header, frame, rest] = lines[..] else { return Err(15) };
    let tags = tags_after(b"YUV4MPEG2", header).ok_or(15u32)?;
    tags_after(b"FRAME", frame).ok_or(15u32)?;
    let [widths, heights, planes] = [b'W', b'H', b'C'].map(|letter| values(&tags, letter));
    let ([w], [h], [] | [_]) = (&widths[..], &heights[..], &planes[..]) else { return Err(15) };
    if !is_decimal(w) || !is_decimal(h) {
        return Err(15);
    }
    if planes.iter().any(|c| !PLANES.contains(c)) {
        return Err(16);
    }
    let (Some(w), Some(h)) = (macroblocks(w), macroblocks(h)) else { return Err(17) };
    if !is_size(w, h) {
        return Err(17);
    }
    let samples = rest.get(..lengths(w, h).iter().sum()).ok_or(18u32)?;
    Ok((w, h, samples))
}

/// The tags of a line: words after one space each, so that two spaces, or one at the end, make an empty word.
fn tags_after<'a>(first: &[u8], line: &'a [u8]) -> Option<Vec<&'a [u8]>> {
    let words: Vec<&[u8]> = line.split(|b| *b == b' ').collect();
    let (word, tags) = words.split_first()?;
    (*word == first && tags.iter().all(|tag| !tag.is_empty())).then(|| tags.to_vec())
}

/// What follows the letter in the tags that begin with it.
fn values<'a>(tags: &[&'a [u8]], letter: u8) -> Vec<&'a [u8]> {
    tags.iter().filter_map(|tag| tag.strip_prefix(&[letter])).collect()
}

fn is_decimal(value: &[u8]) -> bool {
    !value.is_empty() && value.iter().all(|b| b"0123456789".contains(b))
}

/// The macroblocks of a side in pixels; none where it is no multiple of 16 or out of range.
fn macroblocks(digits: &[u8]) -> Option<usize> {
    let zeros = digits.iter().take_while(|b| **b == b'0').count();
    SIDES.get(&digits[zeros..]).copied()
}

#[cfg(test)]
mod tests;
