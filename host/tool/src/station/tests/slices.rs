//! Pictures with slices, held to plain ones that must come to the same.

use super::*;
use crate::slices::Slices;
use deblock::{Offsets, SliceRecord};

/// The settings of each part with slices: a table, and the slice of each macroblock by its index.
fn with_slices(settings: Vec<Settings>, table: &[SliceRecord], number: fn(usize) -> u16) -> Vec<Settings> {
    let numbers: Vec<u16> = (0..SIZE.macroblocks()).map(number).collect();
    let slices = Slices { table: table.to_vec(), numbers };
    settings.into_iter().map(|own| Settings { slices: Some(slices.clone()), ..own }).collect()
}

/// Mode 0, then modes 1 and 2 with offsets of their own, then the record of mode 2 once more.
const TABLE: [SliceRecord; 4] = [
    SliceRecord { mode: 0, a: 0, b: 0 },
    SliceRecord { mode: 1, a: 12, b: 12 },
    SliceRecord { mode: 2, a: 6, b: -4 },
    SliceRecord { mode: 2, a: 6, b: -4 },
];

/// By the call for a whole picture, part after part.
fn whole(mut picture: Picture, settings: &[Settings]) -> Picture {
    for own in settings {
        assert!(picture.lent(own, &mut own.strengths.clone(), &mut []).whole().is_done());
    }
    picture
}

/// The same by visits in raster order.
fn visited(before: &Picture, settings: &[Settings]) -> Picture {
    let parts: Vec<Part> = settings.iter().map(|own| own.part).collect();
    replay(before, settings, &raster(&parts, SIZE), false).picture
}

/// A slice a row, slices of 3 macroblocks, and none of two macroblocks side by side.
#[test]
fn all_orders_give_the_whole_picture() {
    let numbers: [fn(usize) -> u16; 3] = [|m| m as u16 / 5, |m| m as u16 / 3 % 4, |m| m as u16 % 4];
    for (parts, number) in [&FRAME[..], &FIELDS].into_iter().flat_map(|parts| numbers.map(|n| (parts, n))) {
        let (before, plain) = picture(parts);
        let settings = with_slices(plain, &TABLE, number);
        let right = whole(before.clone(), &settings);
        let orders = named(parts, SIZE).into_iter().map(|(_, order)| order);
        for order in orders.chain([columns(parts, SIZE), random(parts, SIZE, 9), backwards(parts)]) {
            let other = replay(&before, &settings, &order, true);
            assert!(other.unvisited() == 0 && other.picture == right && other.screen == right);
        }
    }
}

/// One slice of mode 0 is the plain picture with its offsets, also by the old rule.
#[test]
fn one_slice_is_the_plain_picture() {
    let (before, settings) = picture(&FIELDS);
    let offsets = Offsets { a: 6, b: -4, ..Offsets::default() };
    let with_offsets = |own: Settings| Settings { offsets, ..own };
    let plain: Vec<Settings> = settings.into_iter().map(with_offsets).collect();
    let one = with_slices(picture(&FIELDS).1, &[SliceRecord { mode: 0, a: 6, b: -4 }], |_| 0);
    let right = whole(before.clone(), &plain);
    assert!(right != visited(&before, &picture(&FIELDS).1), "the offsets matter");
    assert!(whole(before.clone(), &one) == right && visited(&before, &one) == right);
    let old = |settings: &[Settings]| settings.iter().fold(before.clone(), old_rule);
    assert!(old(&one) == old(&plain));
}

/// Mode 1 everywhere leaves all as it was. Where each macroblock is a slice of mode 2, one record or not,
/// only inner edges are filtered.
#[test]
fn modes_switch_edges_off() {
    let (before, settings) = picture(&FRAME);
    let off = with_slices(settings, &TABLE, |_| 1);
    assert!(visited(&before, &off) == before && whole(before.clone(), &off) == before);
    let inner = |mut own: Settings| {
        own.strengths.iter_mut().enumerate().filter(|(i, _)| i % 16 < 4).for_each(|(_, s)| *s = 0);
        own
    };
    let plain: Vec<Settings> = picture(&FRAME).1.into_iter().map(inner).collect();
    let apart = with_slices(picture(&FRAME).1, &[SliceRecord { mode: 2, a: 0, b: 0 }; 20], |m| m as u16);
    assert!(visited(&before, &apart) == visited(&before, &plain) && visited(&before, &plain) != before);
}

/// A slice of mode 1 between two of mode 0: the edge below it is filtered, since that is the lower one's.
#[test]
fn an_edge_is_of_the_macroblock_below_or_to_the_right() {
    let (before, settings) = picture(&FRAME);
    let rows = with_slices(settings, &TABLE, |m| u16::from(m / 5 == 1));
    let end = visited(&before, &rows);
    let changed = |line: usize| end.luma[80 * line..][..80] != before.luma[80 * line..][..80];
    let lines: Vec<usize> = (16..32).filter(|&line| changed(line)).collect();
    assert!(!changed(15) && lines == [30, 31], "{lines:?}");
}
