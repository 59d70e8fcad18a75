//! Good recordings, cut ones, damaged ones, and those with what the tool does not take.

use super::*;
use std::path::Path;

/// A good recording of one macroblock, every part of it as short as it can be.
pub fn good() -> Vec<u8> {
    recording(1)
}

/// The same of two fields.
pub fn fields() -> Vec<u8> {
    recording(2)
}

fn recording(pictures: u8) -> Vec<u8> {
    let mut b = b"DBV1\x01\0\x01\0\x08".to_vec();
    b.extend([pictures, 0, 0xFF, 0xFF, 0]);
    b.extend([100; 768].repeat(pictures.into()));
    for a in 1..=pictures {
        b.extend([2 * a, 0xFE]); // A 2, in the second field 4; B -2
        b.push(30); // QP
        b.extend([1; 16]); // inter
        b.extend([0; 16]); // counts
        b.extend([0xFF; 16]); // references: none
        b.extend([1, 0xFF].repeat(32)); // motion -255
        b.extend([0; 32]); // strengths
    }
    b
}

/// A recording with another byte at one place.
pub fn changed(mut recording: Vec<u8>, at: usize, value: u8) -> Vec<u8> {
    recording[at] = value;
    recording
}

pub fn parse(bytes: &[u8]) -> Result<Recording, String> {
    let mut source = Source::new(Path::new("x.dbv"), std::io::Cursor::new(bytes.to_vec()));
    Recording::read(&mut source).map_err(|t| t.to_string())
}

#[test]
fn reads_what_is_there() {
    let r = parse(&good()).expect("a good file");
    let offsets = Offsets { a: 2, b: -2, chroma_u: -1, chroma_v: -1 };
    assert_eq!((r.parts(), r.settings[0].offsets), (vec![Part::Frame], offsets));
    assert_eq!((r.grids[0].ref0[15], r.grids[0].mv0[31], r.grids[0].ref1.len()), (-1, -255, 0));
    assert_eq!((r.before.luma.len(), r.before.height()), (256, 16));
}

#[test]
fn two_fields_share_planes_and_nothing_else() {
    let r = parse(&changed(fields(), 14 + 16, 7)).expect("a good file");
    assert_eq!((r.parts(), r.grids.len(), r.before.size), (FIELDS.to_vec(), 2, Size { w: 1, h: 1 }));
    assert_eq!(r.settings.iter().map(|s| s.offsets.a).collect::<Vec<_>>(), [2, 4]);
    assert_eq!([&r.before.luma, &r.before.u, &r.before.v].map(Vec::len), [512, 128, 128]);
    assert_eq!((r.before.height(), r.before.luma[16], r.after.luma[16]), (32, 7, 100));
}

#[test]
fn without_grids_the_strengths_follow_the_qps() {
    for (mut b, pictures) in [(good(), 1), (fields(), 2)] {
        for picture in 0..pictures {
            let inter = 14 + 768 * pictures + 3 + 35 * picture;
            b.drain(inter..inter + 16 * 7);
        }
        let r = parse(&changed(b, 10, 16)).expect("a good file");
        assert!(r.grids.is_empty() && r.settings.len() == pictures);
    }
}

/// The same recording with U's chroma offset -2 and V's 9.
fn two_offsets(recording: Vec<u8>) -> Vec<u8> {
    changed(changed(recording, 11, 0xFE), 12, 9)
}

#[test]
fn where_the_chroma_offsets_differ_there_are_grids() {
    for (b, pictures) in [(good(), 1), (fields(), 2)] {
        for flags in [0, 16] {
            let r = parse(&changed(two_offsets(b.clone()), 10, flags)).expect("a good file");
            assert_eq!((r.settings.len(), r.grids.len()), (pictures, pictures));
            assert!(r.settings.iter().all(|s| (s.offsets.chroma_u, s.offsets.chroma_v) == (-2, 9)));
        }
    }
}

/// The same recording of a frame with list 1, every byte of it 3; its flags are given.
fn with_list_1(mut recording: Vec<u8>, flags: u8) -> Vec<u8> {
    let strengths = recording.len() - 32;
    recording.splice(strengths..strengths, [3; 16 * 5]);
    changed(recording, 10, flags)
}

/// With flag 16 too, which beside equal offsets would leave list 0 out and be refused.
#[test]
fn where_the_chroma_offsets_differ_there_may_be_list_1() {
    let r = parse(&with_list_1(two_offsets(good()), 17)).expect("a good file");
    assert_eq!((r.grids[0].ref1.len(), r.grids[0].ref1[15], r.grids[0].mv1[31]), (16, 3, 0x0303));
}

/// The same recording with tables: after the offsets of each picture 3 numbers for list 0, the first of them
/// 1 in the top field and 2 in the bottom field, the last one 65,535, and none for list 1.
fn with_tables(mut recording: Vec<u8>, pictures: usize) -> Vec<u8> {
    for picture in (0..pictures).rev() {
        let qps = 14 + 768 * pictures + 2 + 147 * picture;
        recording.splice(qps..qps, [3, 0, 1 + picture as u8, 0, 0, 1, 0xFF, 0xFF, 0, 0]);
    }
    changed(recording, 10, 8)
}

fn lent_tables(recording: &[u8]) -> Vec<(Vec<i32>, Vec<i32>)> {
    let r = parse(recording).expect("a good file");
    assert!(r.settings.iter().all(|s| (s.offsets.b, s.qps[0]) == (-2, 30)), "what stands beside the tables");
    r.grids.iter().map(|g| g.lent()).map(|g| (g.pictures0.to_vec(), g.pictures1.to_vec())).collect()
}

#[test]
fn tables_stand_between_the_offsets_and_the_qps() {
    let list_0 = |first: i32| (vec![first, 256, 65_535], vec![]);
    assert_eq!(lent_tables(&good()), [(vec![], vec![])]);
    assert_eq!(lent_tables(&with_tables(good(), 1)), [list_0(1)]);
    assert_eq!(lent_tables(&with_tables(fields(), 2)), [list_0(1), list_0(2)]);
}

#[test]
fn list_1_has_a_table_of_its_own() {
    let mut b = with_list_1(with_tables(good(), 1), 9);
    let list_1 = 14 + 768 + 2 + 8;
    b.splice(list_1..list_1 + 2, [2, 0, 7, 0, 9, 0]);
    assert_eq!(lent_tables(&b), [(vec![1, 256, 65_535], vec![7, 9])]);
}

/// The same recording with slices, after the offsets of each picture, which are 0: in a frame and in the top
/// field one of mode 2, in the bottom field one more before it, with A 12 and B -12. The macroblock is of the
/// last.
pub fn with_slices(mut recording: Vec<u8>, pictures: usize) -> Vec<u8> {
    let (first, last) = ([0, 12, 0xF4], [2, 0xFF, 1]);
    for picture in (0..pictures).rev() {
        let offsets = 14 + 768 * pictures + 147 * picture;
        recording.splice(offsets + 3..offsets + 3, [picture as u8, 0]); // after the QP
        let records = [first, last][1 - picture..].concat();
        recording.splice(offsets..offsets + 2, [&[0, 0, 1 + picture as u8, 0], &records[..]].concat());
    }
    changed(recording, 10, 4)
}

fn lent_slices(recording: &[u8]) -> Vec<(Vec<SliceRecord>, Vec<u16>)> {
    let r = parse(recording).expect("a good file");
    let own = Offsets { chroma_u: -1, chroma_v: -1, ..Offsets::default() };
    assert!(r.settings.iter().all(|s| (s.offsets, s.qps[0]) == (own, 30)), "what stands beside the slices");
    assert!(r.grids.iter().all(|g| (g.inter[15], g.mv0[31]) == (1, -255)), "what follows their numbers");
    let slices = r.settings.into_iter().map(|s| s.slices.expect("slices"));
    slices.map(|Slices { table, numbers }| (table, numbers)).collect()
}

#[test]
fn slices_stand_between_the_offsets_and_the_qps_and_their_numbers_before_the_grids() {
    let (first, last) = (SliceRecord { mode: 0, a: 12, b: -12 }, SliceRecord { mode: 2, a: -1, b: 1 });
    assert_eq!(lent_slices(&with_slices(good(), 1)), [(vec![last], vec![0])]);
    let both = [(vec![last], vec![0]), (vec![first, last], vec![1])];
    assert_eq!(lent_slices(&with_slices(fields(), 2)), both);
    assert!(parse(&good()).expect("a good file").settings[0].slices.is_none());
}

/// Records come before tables, 8x8 flags before numbers.
#[test]
fn slices_beside_tables_and_flags() {
    let mut b = with_tables(with_slices(good(), 1), 1);
    let offsets = 14 + 768;
    let tables: Vec<u8> = b.splice(offsets + 2..offsets + 12, []).collect();
    b.splice(offsets + 7..offsets + 7, tables);
    b.insert(offsets + 18, 1); // the flag, after the QP
    let r = parse(&changed(b, 10, 2 | 4 | 8)).expect("a good file");
    let own = r.settings[0].slices.as_ref().expect("slices");
    assert_eq!((own.table[0].mode, own.numbers[0], r.settings[0].t8s[0]), (2, 0, 1));
    assert_eq!(r.grids[0].lent().pictures0, [1, 256, 65_535]);
}

/// A record and a number that are not legal, and A and B beside slices.
#[test]
fn damage_in_slices() {
    let said = |at: usize, value: u8| parse(&changed(with_slices(good(), 1), at, value)).err().unwrap_or_default();
    assert!(said(782, 2).ends_with("at byte 782: offset A: 2 beside slices, which have their own"));
    assert!(said(783, 0xF4).ends_with("at byte 783: offset B: -12 beside slices, which have their own"));
    assert!(said(786, 3).ends_with("at byte 786: a slice's mode: 3 is out of range"));
    assert!(said(787, 13).ends_with("at byte 787: a slice's offset A: 13 is out of range"));
    assert!(said(788, 0xF3).ends_with("at byte 788: a slice's offset B: 243 is out of range"));
    assert!(said(790, 1).ends_with("at byte 790: the slice numbers: 1 is outside a table of 1"));
    assert!(said(791, 1).ends_with("at byte 790: the slice numbers: 256 is outside a table of 1"));
    let both = parse(&changed(with_slices(fields(), 2), 14 + 1536 + 154 + 4, 3)).err().unwrap_or_default();
    assert!(both.ends_with("a slice's mode: 3 is out of range, in the bottom field"), "{both}");
}

/// Without records every number is outside.
#[test]
fn an_empty_table_is_a_table() {
    let mut b = with_slices(good(), 1);
    b[784] = 0;
    b.drain(786..789);
    let said = parse(&b).err().unwrap_or_default();
    assert!(said.ends_with("at byte 787: the slice numbers: 0 is outside a table of 0"), "{said}");
}

#[test]
fn every_cut_is_noticed() {
    let flag_16 = changed(two_offsets(good()), 10, 16);
    let tables = [with_tables(good(), 1), with_tables(fields(), 2)];
    let slices = [with_slices(good(), 1), with_slices(fields(), 2)];
    for whole in [good(), fields(), flag_16].into_iter().chain(tables).chain(slices) {
        for end in 0..whole.len() {
            let what = parse(&whole[..end]).err().unwrap_or_else(|| panic!("cut at {end} was taken"));
            assert!(what.starts_with("x.dbv: at byte "), "{what}");
        }
    }
}

fn damaged(at: usize, value: u8) -> String {
    parse(&changed(good(), at, value)).err().unwrap_or_default()
}

#[test]
fn damage_is_named_with_its_place() {
    assert!(damaged(0, b'X').contains("at byte 0: this is no recording"));
    assert!(damaged(4, 0).contains("at byte 4: 0 by 1"));
    assert!(damaged(5, 2).contains("at byte 4: 513 by 1"));
    assert!(damaged(8, 9).contains("at byte 8: the depth: 9"));
    assert!(damaged(9, 3).contains("at byte 9: the number of pictures: 3"));
    assert!(damaged(10, 32).contains("at byte 10: the flags: 32"));
    assert!(damaged(11, 13).contains("at byte 11: U's chroma offset: 13"));
    assert!(damaged(12, 13).contains("at byte 12: V's chroma offset: 13"));
    assert!(damaged(13, 1).contains("at byte 13: the reserved byte"));
    assert!(damaged(14 + 768, 13).contains("at byte 782: offset A: 13"));
    assert!(damaged(784, 52).contains("at byte 784: the QPs: 52"));
    assert!(damaged(785 + 3, 2).contains("at byte 788: the inter bytes"));
    assert!(damaged(785 + 32, 0xFE).contains("at byte 817: the references of list 0"));
    let last = good().len() - 1;
    assert!(damaged(last, 5).contains(&format!("at byte {last}: the strengths: 5")));
}

#[test]
fn what_the_tool_does_not_take_is_named() {
    assert!(damaged(8, 10).contains("at byte 8: the recording has 10-bit samples"));
    assert!(damaged(10, 17).contains("at byte 10: the recording has grids of list 1 but no others"));
    assert!(damaged(10, 24).contains("at byte 10: the recording has reference tables but no grids"));
}

/// Where a field is cut or damaged it is named; so is a file of one picture where there should be two.
#[test]
fn damage_in_a_field() {
    let said = |b: &[u8]| parse(b).err().unwrap_or_default();
    assert!(damaged(9, 2).ends_with("at byte 782: the planes after: 768 bytes are wanted, the file ends after 147"));
    assert!(said(&changed(fields(), 9, 1)).ends_with("at byte 782: offset A: 100 is out of range"));
    let one = said(&fields()[..1697]);
    assert!(one.ends_with("at byte 1697: offset A: 1 bytes are wanted, the file ends after 0, in the bottom field"));
    for (at, field) in [(1552, "top"), (1699, "bottom")] {
        let qp = said(&changed(fields(), at, 52));
        assert_eq!(qp, format!("x.dbv: at byte {at}: the QPs: 52 is out of range, in the {field} field"));
    }
}
