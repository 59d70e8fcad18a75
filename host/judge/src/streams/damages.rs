//! What can be wrong with a stream.

use super::pieces::{tag, zeros, Pieces};
use inputs::Rng;

/// A way to spoil a stream.
pub type Damage = fn(&mut Rng, &mut Pieces);

/// Each with the number that it calls forth, where no check that is asked before it does.
pub const DAMAGES: [(u32, Damage); 29] = [
    // the header
    (15, |r, p| drop(p.header.remove(r.below(p.header.len())))),
    (15, |r, p| again(r, p, b'W')),
    (15, |r, p| again(r, p, b'H')),
    (15, |r, p| again(r, p, b'C')),
    (15, |r, p| p.set(b'W', &no_number(r))),
    (15, |r, p| p.set(b'H', &no_number(r))),
    (15, |r, p| p.header[0] = r.pick(&FIRST_WORDS).to_vec()),
    (15, |r, p| p.header.insert(r.below(p.header.len() + 1), Vec::new())),
    (15, |r, p| p.ends[0] = r.pick(&ENDS).to_vec()),
    (15, |r, p| other_byte(r, &mut p.header)),
    // the FRAME line
    (15, |r, p| p.frame[0] = r.pick(&FRAMES).to_vec()),
    (15, |r, p| p.frame.insert(r.below(p.frame.len() + 1), Vec::new())),
    (15, |r, p| p.ends[1] = r.pick(&ENDS).to_vec()),
    (15, |r, p| other_byte(r, &mut p.frame)),
    (15, |_, p| (p.frame, p.ends[1]) = (vec![Vec::new()], Vec::new())),
    (15, |_, p| (p.ends[1], p.samples) = (Vec::new(), Vec::new())),
    // C, sides, samples, planes
    (16, |r, p| p.set(b'C', r.pick(&OTHER_PLANES))),
    (17, |r, p| p.set(b'W', &number(r))),
    (17, |r, p| p.set(b'H', &number(r))),
    (17, |r, p| set_sides(p, r.pick(&[(256, 145), (145, 256), (256, 256), (193, 192), (0, 1)]))),
    (18, |r, p| p.samples.truncate(r.pick(&[0, 1, 383, 384, 767, 1151]))),
    (18, |r, p| p.samples.truncate(r.below(p.samples.len() + 1))),
    (18, |r, p| p.set(b'W', r.pick(&[b"32", b"64", b"4096"]))),
    (18, |r, p| set_sides(p, r.pick(&[(256, 144), (144, 256), (192, 192), (1, 256), (256, 1)]))),
    (3, |r, p| p.lengths[r.below(3)] += 1),
    (3, |r, p| {
        let len = &mut p.lengths[r.below(3)];
        *len = len.saturating_sub(1);
    }),
    (3, |r, p| p.lengths[r.below(3)] = 0),
    (3, |_, p| p.lengths.rotate_left(1)),
    (3, |_, p| p.lengths.iter_mut().for_each(|len| *len *= 2)),
];

#[rustfmt::skip]
const FIRST_WORDS: [&[u8]; 9] = [
    b"", b"YUV4MPEG", b"YUV4MPEG22", b"YUV4MPEG2\r", b"yuv4mpeg2", b"YUV4MPEG1", b"UV4MPEG2", b"FRAME",
    b"YUV4MPEG2W16",
];

const FRAMES: [&[u8]; 8] = [b"", b"FRAM", b"FRAMES", b"frame", b"Frame", b"FRAME\r", b"FRAME\tIp", b"YUV4MPEG2"];
const ENDS: [&[u8]; 8] = [b"", b" ", b"\r", b"\r\n", b" \n", b"\n\n", b"\0\n", b"\0"];

#[rustfmt::skip]
const OTHER_PLANES: [&[u8]; 18] = [
    b"", b"420JPEG", b"420Mpeg2", b"420mpeg", b"420mpeg1", b"420mpeg22", b"420jpegx", b"420paldV", b"420pald",
    b"420p10", b"4200", b"42", b"0420", b"420\r", b"420\0", b"422", b"444", b"mono",
];

#[rustfmt::skip]
const NO_NUMBERS: [&[u8]; 16] = [
    b"", b"+16", b"-16", b"16.", b"1 6", b"16\r", b"\t16", b"0x10", b"1e1", b"16px", b"/6", b"1:", b"16\0", b"16,",
    b"W16", b"\xB1\xB6",
];

/// Other sides, in macroblocks.
fn set_sides(p: &mut Pieces, (w, h): (usize, usize)) {
    for (letter, side) in [(b'W', w), (b'H', h)] {
        p.set(letter, (16 * side).to_string().as_bytes());
    }
}

/// A tag of the header once more: the same, or with another value, good or bad.
fn again(r: &mut Rng, p: &mut Pieces, letter: u8) {
    let own = p.place(letter).map(|i| p.header[i].clone());
    let values: [&[u8]; 3] = if letter == b'C' { [b"420", b"420jpeg", b"444"] } else { [b"16", b"32", b"17"] };
    let second = own.filter(|_| r.once_in(2)).unwrap_or_else(|| tag(letter, r.pick(&values)));
    p.header.insert(1 + r.below(p.header.len()), second);
}

/// One byte of a line's words is another, or goes, or comes twice.
fn other_byte(r: &mut Rng, words: &mut [Vec<u8>]) {
    let i = r.below(words.len().max(1));
    let Some(word) = words.get_mut(i).filter(|word| !word.is_empty()) else { return };
    let at = r.below(word.len());
    match r.below(4) {
        0 => drop(word.remove(at)),
        1 => word.insert(at, word[at]),
        2 => word[at] = r.bits() as u8,
        _ => word.insert(at, r.pick(&[b' ', b'\n', b'\r', b'\t', 0, b'0', b'9', b'/', b':', 255])),
    }
}

/// What is no decimal number.
fn no_number(r: &mut Rng) -> Vec<u8> {
    let word = r.pick(&NO_NUMBERS).to_vec();
    if word.is_empty() || r.once_in(2) {
        return word;
    }
    zeros(r, word)
}

/// A number, mostly one that no side may be: beside what may be, or what wraps to it, or with many digits.
fn number(r: &mut Rng) -> Vec<u8> {
    const BASES: [u128; 10] = [16, 4096, 4112, 1 << 16, 1 << 31, 1 << 32, 1 << 63, 1 << 64, 1 << 127, 10_000_000_000];
    const STEPS: [u128; 12] = [0, 1, 8, 15, 16, 17, 24, 32, 48, 256, 4096, 4112];
    let number = match r.below(8) {
        0 => r.below(5000) as u128,
        1 => 16 * r.below(300) as u128,
        2 => 16 * r.bits() as u128,
        3 => r.pick(&BASES).wrapping_sub(r.pick(&STEPS)) >> r.below(2),
        4 | 5 => r.pick(&BASES).wrapping_mul(1 + r.below(20) as u128).wrapping_add(r.pick(&STEPS)),
        6 => r.pick(&BASES) + r.pick(&STEPS),
        _ => {
            let ending: &[u8] = r.pick(&[&b""[..], b"0000", b"0016", b"4096"]);
            let digits: Vec<u8> = (0..1 + r.below(400)).map(|_| b'0' + r.below(10) as u8).collect();
            return [&digits, ending].concat();
        }
    };
    zeros(r, number.to_string().into_bytes())
}
