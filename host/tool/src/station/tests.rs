//! Stations that wait and that do not, of frames and of fields, and the old release's fault.

use super::*;
use crate::orders::{named, random, raster};
use crate::part::{lines, FIELDS};
use deblock::{Part, Place, Size};

mod slices;

const FRAME: [Part; 1] = [Part::Frame];
const SIZE: Size = Size { w: 5, h: 4 };

/// Planes for a frame or for two fields, and settings that differ from field to field.
fn picture(parts: &[Part]) -> (Picture, Vec<Settings>) {
    let n = SIZE.macroblocks();
    let planes: Vec<u8> = (0..384 * n * parts.len()).map(|i| 100 + (i / 64 % 9) as u8).collect();
    let settings = parts.iter().map(|&part| {
        let qps = vec![38 - 2 * part as u8; n];
        let (offsets, strengths) = (Default::default(), vec![3; 32 * n]);
        Settings { part, offsets, slices: None, strengths, qps, t8s: Vec::new() }
    });
    (Picture::from_planes(SIZE, &planes), settings.collect())
}

fn backwards(parts: &[Part]) -> Vec<Request> {
    raster(parts, SIZE).into_iter().rev().collect()
}

#[test]
fn all_are_visited_in_the_end() {
    for parts in [&FRAME[..], &FIELDS] {
        let (before, settings) = picture(parts);
        let right = replay(&before, &settings, &raster(parts, SIZE), false);
        assert_eq!(right.answers(), format!("0 done: {}", 20 * parts.len()));
        let orders = named(parts, SIZE).into_iter().map(|(_, order)| order);
        for order in orders.chain([columns(parts, SIZE), random(parts, SIZE, 9), backwards(parts)]) {
            let other = replay(&before, &settings, &order, true);
            assert_eq!(other.unvisited(), 0);
            assert!(other.picture == right.picture && other.screen == right.picture);
        }
    }
}

/// The lines of a field as a picture of their own.
fn taken(picture: &Picture, part: Part) -> Picture {
    let (first, step) = lines(part);
    let every = |plane: &[u8], width: usize| plane.chunks(width).skip(first).step_by(step).collect::<Vec<_>>().concat();
    let Picture { size, luma, u, v } = picture;
    Picture { size: *size, luma: every(luma, 16 * size.w), u: every(u, 8 * size.w), v: every(v, 8 * size.w) }
}

#[test]
fn a_field_is_a_picture_of_its_own() {
    let (before, settings) = picture(&FIELDS);
    let both = replay(&before, &settings, &random(&FIELDS, SIZE, 5), true).picture;
    for sent in settings {
        let part = sent.part;
        let (alone, sent) = (taken(&before, part), [Settings { part: Part::Frame, ..sent }]);
        let right = replay(&alone, &sent, &raster(&FRAME, SIZE), false);
        assert!(right.picture != alone && taken(&both, part) == right.picture);
    }
}

/// Other samples stand on the lines of what has not arrived, though the other field is all there.
#[test]
fn nothing_is_there_before_it_arrives() {
    let (before, settings) = picture(&FIELDS);
    let corner = Request { part: Part::BottomField, at: Place { x: 0, y: 0 } };
    let order = [raster(&[Part::TopField], SIZE), vec![corner]].concat();
    let end = replay(&before, &settings, &order, true);
    assert_eq!(end.arrived.iter().map(Arrived::unvisited).collect::<Vec<_>>(), [0, 19]);
    let (here, other) = (taken(&end.picture, Part::BottomField), taken(&before.inverted(), Part::BottomField));
    let differing: Vec<usize> = (0..here.luma.len()).filter(|&i| here.luma[i] != other.luma[i]).collect();
    assert!(differing.iter().all(|i| i % 80 < 16 && i / 80 < 16));
    assert_eq!(differing.len(), 256);
}

/// FORMAT.md, the smallest fault: 103 in raster order at (15, 15), and 102 down the columns.
#[test]
fn the_old_rule_has_its_fault() {
    let size = Size { w: 2, h: 2 };
    let level = |i: usize| [100, 103, 105, 104][i / 512 * 2 + i % 32 / 16];
    let luma = (0..1024).map(level).collect();
    let before = Picture { size, luma, u: vec![128; 256], v: vec![128; 256] };
    let outer = |i: usize| u8::from(i % 16 < 4 && (i / 32 % 2 == 1 || i % 32 > 15) && (i / 64 == 1 || i % 32 < 16));
    let strengths = (0..128).map(outer).collect();
    let (part, offsets, qps) = (Part::Frame, Default::default(), vec![40; 4]);
    let settings = [Settings { part, offsets, slices: None, strengths, qps, t8s: Vec::new() }];
    let right = replay(&before, &settings, &columns(&FRAME, size), true).picture;
    assert_eq!((right.luma[495], old_rule(before, &settings[0]).luma[495]), (103, 102));
}

#[test]
fn once_is_once() {
    let (before, settings) = picture(&FRAME);
    let end = replay(&before, &settings, &backwards(&FRAME), false);
    assert_eq!((end.answers[&Answer::Done], end.answers[&Answer::NotReady], end.unvisited()), (1, 19, 19));
}

/// What is visited is painted once its neighbours are visited too, and is then as in the whole picture.
#[test]
fn what_is_final_is_painted() {
    let (before, settings) = picture(&FRAME);
    let right = replay(&before, &settings, &raster(&FRAME, SIZE), false).picture;
    let first = [(0, 0), (1, 0), (0, 1)].map(|(x, y)| Request { part: Part::Frame, at: Place { x, y } });
    let mut screen = before.inverted();
    assert!(replay(&before, &settings, &first[..2], false).screen == screen);
    screen.take_macroblock(&right, Part::Frame, first[0].at);
    let end = replay(&before, &settings, &first, false);
    assert!(end.screen == screen && end.arrived[0].painted() == 1 && end.arrived[0].is_painted(0, 0));
}
