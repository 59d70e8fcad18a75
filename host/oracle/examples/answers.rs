//! Prints what crates/answers must print: the original's strengths and pictures for the same inputs. The
//! original refuses nothing, so the five refused calls are written here as docs/RULES.md, "Answers", has
//! them: their number, and everything as it was.
use oracle::{Blocks, Grids, Offsets, Planes, Stored};

fn numbers(s: &[u8]) {
    for n in s {
        print!(" {n}");
    }
    println!();
}

fn strengths(name: &str, answer: u32, x: usize, fresh: Option<[u8; 32]>, s: &mut [u8]) {
    if let Some(bytes) = fresh {
        s[32 * x..32 * x + 32].copy_from_slice(&bytes);
    }
    print!("{name} {answer}:");
    numbers(s);
}

fn plain(inter: u8, x: usize, t8: bool, s: &mut [u8]) {
    let mut nnz = [0; 32];
    nnz[13] = 3;
    if t8 {
        // the original looks at each block's own count, so all four blocks of the 8x8 block get it
        [nnz[4], nnz[5], nnz[12]] = [3; 3];
    }
    let mut mv0 = [0; 64];
    mv0[44] = 4;
    let refused = inter > 1;
    let g = Grids {
        inter: &[inter; 32],
        nnz: &nnz,
        ref0: &[0; 32],
        mv0: &mv0,
        ref1: &[-1; 32],
        mv1: &[0; 64],
        ..Grids::default()
    };
    let fresh = (!refused).then(|| Blocks::new(2, g).flagless(x, 0, t8));
    strengths("plain", if refused { 7 } else { 0 }, x, fresh, s);
}

/// Inter blocks of two lists, without counts and with vectors 0.
fn still<'a>(ref0: &'a [i8], ref1: &'a [i8]) -> Grids<'a> {
    Grids { inter: &[1; 32], nnz: &[0; 32], ref0, mv0: &[0; 64], ref1, mv1: &[0; 64], ..Grids::default() }
}

fn flagged(x: usize, flat: bool, uniform: bool, refused: bool, s: &mut [u8]) {
    let (mut ref0, mut ref1) = ([5; 32], [7; 32]);
    ref0[4] = 7;
    ref1[4] = 5;
    let g = still(&ref0, &ref1);
    let fresh = (!refused).then(|| Blocks::new(2, g).by_flags(x, 0, flat, uniform, false));
    strengths("flagged", if refused { 12 } else { 0 }, x, fresh, s);
}

/// With tables; the last entry of list 0's is given.
fn listed(x: usize, last: i32, s: &mut [u8]) {
    let (mut ref0, mut ref1) = ([0; 32], [1; 32]);
    [ref0[4], ref0[12], ref0[28]] = [2, 3, 1];
    [ref1[20], ref1[28]] = [0, -1];
    let refused = last > 65_535;
    let g = Grids { pictures0: &[5, 7, last], pictures1: &[7, 5], ..still(&ref0, &ref1) };
    let fresh = (!refused).then(|| Blocks::new(2, g).flagless(x, 0, false));
    strengths("listed", if refused { 22 } else { 0 }, x, fresh, s);
}

/// Kinds by number: 0 intra, 1 skip.
fn by_kind(x: usize, kind: u8, refused: bool, s: &mut [u8]) {
    let inter: Vec<u8> = (0..32).map(|i| (i / 4 % 2) as u8).collect();
    let g = Grids {
        inter: &inter,
        nnz: &[0; 32],
        ref0: &[2; 32],
        mv0: &[-7; 64],
        ref1: &[-1; 32],
        mv1: &[0; 64],
        ..Grids::default()
    };
    let fresh = (!refused).then(|| Blocks::new(2, g).by_kind(x, 0, kind));
    strengths("kind", if refused { 12 } else { 0 }, x, fresh, s);
}

fn rise(n: usize) -> Vec<u8> {
    (0..n).map(|i| 60 + 5 * (i / 4 % 8) as u8).collect()
}

fn frame(q: u8, t8s: [u8; 2], o: Offsets, s: &[u8]) {
    let (mut luma, mut u, mut v) = (rise(512), rise(128), vec![90; 128]);
    let refused = q > 51;
    if !refused {
        Stored::new(2, 1, s, &[30, q], &t8s).filter_frame(Planes { luma: &mut luma, u: &mut u, v: &mut v }, o);
    }
    print!("frame {}:", if refused { 8 } else { 0 });
    numbers(&luma);
    numbers(&u);
    numbers(&v);
}

fn main() {
    let mut s = [9; 64];
    plain(1, 0, false, &mut s);
    plain(1, 1, true, &mut s);
    flagged(0, true, true, false, &mut s);
    flagged(1, false, false, false, &mut s);
    flagged(1, false, true, true, &mut s);
    by_kind(0, 0, false, &mut s);
    by_kind(1, 1, false, &mut s);
    by_kind(1, 0, true, &mut s);
    listed(0, 5, &mut s);
    listed(1, 5, &mut s);
    listed(1, 65_536, &mut s);
    plain(0, 0, false, &mut s);
    plain(1, 1, false, &mut s);
    plain(2, 1, false, &mut s);
    frame(34, [0, 0], Offsets { a: 0, b: 0, chroma: 0 }, &s);
    frame(40, [1, 0], Offsets { a: 6, b: -4, chroma: 2 }, &s);
    frame(52, [0, 0], Offsets { a: 0, b: 0, chroma: 0 }, &s);
}
