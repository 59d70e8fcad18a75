//! Reads recordings (crates/recordings/FORMAT.md), saying where a damaged file is damaged.

use crate::part::FIELDS;
use crate::picture::{Picture, Settings};
use crate::slices::Slices;
use crate::source::Source;
use crate::trouble::Trouble;
use deblock::{Grids, Offsets, Part, Size, SliceRecord};

pub const MAGIC: &[u8] = b"DBV1";

pub struct Recording {
    pub before: Picture,
    /// What the recorder made of it.
    pub after: Picture,
    /// Of the frame, or of its top field and its bottom field.
    pub settings: Vec<Settings>,
    /// Likewise; empty where the strengths are of no grids.
    pub grids: Vec<BlockGrids>,
}

pub struct BlockGrids {
    inter: Vec<u8>,
    nnz: Vec<u8>,
    ref0: Vec<i8>,
    mv0: Vec<i16>,
    ref1: Vec<i8>,
    mv1: Vec<i16>,
    pictures0: Vec<i32>,
    pictures1: Vec<i32>,
}

impl BlockGrids {
    pub fn lent(&self) -> Grids<'_> {
        let BlockGrids { inter, nnz, ref0, mv0, ref1, mv1, pictures0, pictures1 } = self;
        Grids { inter, nnz, ref0, mv0, ref1, mv1, pictures0, pictures1 }
    }
}

/// What the other bytes of a recording depend on.
struct Header {
    size: Size,
    parts: &'static [Part],
    flags: u8,
    chroma_u: i32,
    chroma_v: i32,
}

impl Header {
    /// Flag 16 means it, but not where the chroma offsets differ: there it only says that they do.
    fn no_grids(&self) -> bool {
        self.flags & FLAG_16 != 0 && self.chroma_u == self.chroma_v
    }
}

const LIST_1: u8 = 1;
const T8: u8 = 2;
const SLICES: u8 = 4;
const TABLES: u8 = 8;
const FLAG_16: u8 = 16;

impl Recording {
    /// Reads the parts in the order of FORMAT.md.
    pub fn read(s: &mut Source) -> Result<Recording, Trouble> {
        let header = header(s)?;
        let before = planes(s, &header, "the planes before")?;
        let after = planes(s, &header, "the planes after")?;
        let mut recording = Recording { before, after, settings: Vec::new(), grids: Vec::new() };
        for &part in header.parts {
            recording.read_settings(s, &header, part).map_err(|trouble| trouble.within(part))?;
        }
        Ok(recording)
    }

    /// Reads settings and grids of the frame or of one field.
    fn read_settings(&mut self, s: &mut Source, header: &Header, part: Part) -> Result<(), Trouble> {
        let Header { size, flags, chroma_u, chroma_v, .. } = *header;
        let n = size.macroblocks();
        let (a, b) = (picture_offset(s, flags, "offset A")?, picture_offset(s, flags, "offset B")?);
        let offsets = Offsets { a, b, chroma_u, chroma_v };
        let records = records(s, flags)?;
        let tables = tables(s, flags)?;
        let qps = s.checked(n, "the QPs", |b| b <= 51)?;
        let t8s = s.checked(if flags & T8 != 0 { n } else { 0 }, "the 8x8 flags", |b| b <= 1)?;
        let slices = records.map(|table| slices(s, table, n)).transpose()?;
        if !header.no_grids() {
            self.grids.push(block_grids(s, 16 * n, flags, tables)?);
        }
        let strengths = s.checked(32 * n, "the strengths", |b| b <= 4)?;
        self.settings.push(Settings { part, offsets, slices, strengths, qps, t8s });
        Ok(())
    }

    /// The frame, or its two fields.
    pub fn parts(&self) -> Vec<Part> {
        self.settings.iter().map(|s| s.part).collect()
    }

    pub fn has_fields(&self) -> bool {
        self.parts() == FIELDS
    }
}

fn header(s: &mut Source) -> Result<Header, Trouble> {
    let start = s.at();
    if s.take(4, "the magic")? != MAGIC {
        return Err(s.trouble(start, "this is no recording: it does not start with DBV1"));
    }
    let size = Size { w: s.u16("the width")?, h: s.u16("the height")? };
    if !(1..=256).contains(&size.w) || !(1..=256).contains(&size.h) || size.w * size.h > 36_864 {
        return Err(s.trouble(start + 4, format!("{} by {} macroblocks is no size", size.w, size.h)));
    }
    let depth = s.byte("the depth", |b| b == 8 || b == 10)?;
    let pictures = s.byte("the number of pictures", |b| b == 1 || b == 2)?;
    let flags = s.byte("the flags", |b| b < 32)?;
    let chroma_u = offset(s, "U's chroma offset")?;
    let chroma_v = offset(s, "V's chroma offset")?;
    let parts: &[Part] = if pictures == 2 { &FIELDS } else { &[Part::Frame] };
    let header = Header { size, parts, flags, chroma_u, chroma_v };
    let beyond = [
        (depth != 8, 8, "10-bit samples"),
        (header.no_grids() && flags & LIST_1 != 0, 10, "grids of list 1 but no others"),
        (header.no_grids() && flags & TABLES != 0, 10, "reference tables but no grids"),
    ];
    if let Some((_, at, what)) = beyond.iter().find(|(has, ..)| *has) {
        return Err(s.trouble(start + at, format!("the recording has {what}, which this tool does not take")));
    }
    s.byte("the reserved byte", |b| b == 0)?;
    Ok(header)
}

fn offset(s: &mut Source, what: &str) -> Result<i32, Trouble> {
    Ok(i32::from(s.byte(what, |b| (-12..=12).contains(&(b as i8)))? as i8))
}

/// A or B of the picture. Slices have their own; a recording with slices has 0 here.
fn picture_offset(s: &mut Source, flags: u8, what: &str) -> Result<i32, Trouble> {
    let start = s.at();
    match offset(s, what)? {
        other if other != 0 && flags & SLICES != 0 => {
            Err(s.trouble(start, format!("{what}: {other} beside slices, which have their own")))
        }
        offset => Ok(offset),
    }
}

fn planes(s: &mut Source, header: &Header, what: &str) -> Result<Picture, Trouble> {
    let bytes = s.take(384 * header.size.macroblocks() * header.parts.len(), what)?;
    Ok(Picture::from_planes(header.size, &bytes))
}

/// The table of slices, where the recording has slices.
fn records(s: &mut Source, flags: u8) -> Result<Option<Vec<SliceRecord>>, Trouble> {
    if flags & SLICES == 0 {
        return Ok(None);
    }
    let count = s.u16("the number of slices")?;
    (0..count).map(|_| record(s)).collect::<Result<_, _>>().map(Some)
}

fn record(s: &mut Source) -> Result<SliceRecord, Trouble> {
    let mode = s.byte("a slice's mode", |b| b <= 2)?;
    let (a, b) = (offset(s, "a slice's offset A")? as i8, offset(s, "a slice's offset B")? as i8);
    Ok(SliceRecord { mode, a, b })
}

/// The slice of each of n macroblocks, which the table must have.
fn slices(s: &mut Source, table: Vec<SliceRecord>, n: usize) -> Result<Slices, Trouble> {
    let start = s.at();
    let bytes = s.take(2 * n, "the slice numbers")?;
    let numbers: Vec<u16> = bytes.chunks_exact(2).map(|b| u16::from_le_bytes([b[0], b[1]])).collect();
    match numbers.iter().position(|&number| usize::from(number) >= table.len()) {
        None => Ok(Slices { table, numbers }),
        Some(i) => {
            let what = format!("the slice numbers: {} is outside a table of {}", numbers[i], table.len());
            Err(s.trouble(start + 2 * i, what))
        }
    }
}

/// The pictures that the indices of each list name; without tables the references are numbers of pictures.
fn tables(s: &mut Source, flags: u8) -> Result<[Vec<i32>; 2], Trouble> {
    if flags & TABLES == 0 {
        return Ok([Vec::new(), Vec::new()]);
    }
    Ok([table(s, "list 0's table")?, table(s, "list 1's table")?])
}

/// A count, and so many numbers.
fn table(s: &mut Source, what: &str) -> Result<Vec<i32>, Trouble> {
    let count = s.u16(&format!("the length of {what}"))?;
    let bytes = s.take(2 * count, what)?;
    Ok(bytes.chunks_exact(2).map(|b| u16::from_le_bytes([b[0], b[1]]).into()).collect())
}

fn block_grids(s: &mut Source, blocks: usize, flags: u8, tables: [Vec<i32>; 2]) -> Result<BlockGrids, Trouble> {
    let [pictures0, pictures1] = tables;
    let list_1 = if flags & LIST_1 != 0 { blocks } else { 0 };
    Ok(BlockGrids {
        inter: s.checked(blocks, "the inter bytes", |b| b <= 1)?,
        nnz: s.take(blocks, "the coefficient counts")?,
        ref0: references(s, blocks, "the references of list 0")?,
        mv0: vectors(s, blocks, "the motion of list 0")?,
        ref1: references(s, list_1, "the references of list 1")?,
        mv1: vectors(s, list_1, "the motion of list 1")?,
        pictures0,
        pictures1,
    })
}

fn references(s: &mut Source, blocks: usize, what: &str) -> Result<Vec<i8>, Trouble> {
    Ok(s.checked(blocks, what, |b| b as i8 >= -1)?.into_iter().map(|b| b as i8).collect())
}

fn vectors(s: &mut Source, blocks: usize, what: &str) -> Result<Vec<i16>, Trouble> {
    let bytes = s.take(4 * blocks, what)?;
    Ok(bytes.chunks_exact(2).map(|b| i16::from_le_bytes([b[0], b[1]])).collect())
}

#[cfg(test)]
pub mod tests;
