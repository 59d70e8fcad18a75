//! Films that are read to their end, those that are refused, and those that were written.

use super::*;
use std::path::Path;

/// How many pictures are read, what they start with, and then the trouble if there is any.
fn said(film: &[u8]) -> (Vec<u8>, String) {
    let source = Source::new(Path::new("x.y4m"), std::io::Cursor::new(film.to_vec()));
    let mut film = match Film::new(source) {
        Ok(film) => film,
        Err(trouble) => return (Vec::new(), trouble.to_string()),
    };
    let mut first = Vec::new();
    loop {
        match film.next() {
            Ok(Some(picture)) => first.push(picture.luma[0]),
            Ok(None) => return (first, String::new()),
            Err(trouble) => return (first, trouble.to_string()),
        }
    }
}

const HEADER: &[u8] = b"YUV4MPEG2 W16 H16 F25:1 C420jpeg\n";

/// A FRAME line and the planes of one macroblock.
fn picture(line: &str, value: u8) -> Vec<u8> {
    [line.as_bytes(), &[value; 384]].concat()
}

#[test]
fn pictures_come_to_the_end() {
    let film = [HEADER, &picture("FRAME\n", 5), &picture("FRAME Ip XA=1\n", 6), &picture("FRAME\n", b'F')].concat();
    assert_eq!(said(&film), (vec![5, 6, b'F'], String::new()));
    let tags = "X".repeat(LONGEST - 7);
    assert_eq!(said(&[HEADER, &picture(&format!("FRAME {tags}\n"), 1)].concat()), (vec![1], String::new()));
}

#[test]
fn the_header_line_is_refused_before_any_picture() {
    let refused = |header: &str| {
        let (read, what) = said(&[header.as_bytes(), &picture("FRAME\n", 5)].concat());
        assert!(read.is_empty());
        what.strip_prefix("x.y4m: at byte 0: the header line ").unwrap_or_else(|| panic!("{what}")).to_string()
    };
    let line = refused("YUV4MPEG2 W16\n");
    assert!(line.starts_with("is refused with 15 (") && line.ends_with("): 'YUV4MPEG2 W16'"), "{line}");
    assert!(refused("YUV4MPEG2 W16 H16 C422\u{FF}\n").ends_with("): 'YUV4MPEG2 W16 H16 C422\\xc3\\xbf'"));
    let sides = refused("YUV4MPEG2 W16 H15\n");
    assert!(sides.starts_with("is refused with 17 (a side of the stream's picture is no multiple of 16, "));
    assert!(sides.contains("): 'YUV4MPEG2 W16 H15'; to compare films of such a size, turn them into raw planes"));
    assert!(refused(&format!("YUV4MPEG2 W16 H17 X{}\n", "y".repeat(99))).contains("Xyyyy"));
    let long = refused(&format!("YUV4MPEG2 W16 H16 X{}\n", "y".repeat(LONGEST)));
    assert_eq!(long, "has more than 65536 bytes, the most that this tool takes");
}

#[test]
fn a_picture_is_refused_where_it_starts() {
    let refused = |rest: &[u8]| {
        let (read, what) = said(&[HEADER, &picture("FRAME\n", 5), rest].concat());
        assert_eq!(read, [5]);
        let at = format!("x.y4m: at byte {}: picture 2", HEADER.len() + 390);
        what.strip_prefix(&at).unwrap_or_else(|| panic!("{what}")).to_string()
    };
    assert!(refused(b"\0").ends_with(" no newline): it starts with '\\x00'"));
    assert!(refused(&picture("FRAMES\n", 1)).starts_with(" is refused with 15 ("));
    assert!(refused(b"FRAME").starts_with(" is refused with 15 ("));
    assert!(refused(&picture("YUV4MPEG2 W16 H16\nFRAME\n", 1)).contains("it starts with 'YUV4MPEG2 W16 H16'"));
    let cut = refused(&picture("FRAME\n", 1)[..389]);
    assert!(cut.starts_with(" is refused with 18 ("));
    assert!(cut.ends_with("): 384 bytes are wanted after its FRAME line, the file ends after 383"));
    let long = refused(&[b'x'; LONGEST + 1]);
    assert_eq!(long, ": its FRAME line has more than 65536 bytes, the most that this tool takes");
    let none = said(HEADER).1;
    assert!(none.starts_with("x.y4m: at byte 33: picture 1 is refused with 15 ("));
    assert!(none.ends_with("): the file ends where its FRAME line belongs"));
}

/// A frame, and a frame that is filtered by its fields, which has twice their height.
#[test]
fn what_was_written_is_read_again() {
    let planes = |value: u8| Picture::from_planes(Size { w: 2, h: 1 }, &[value; 768]);
    let film = film(&[planes(5), planes(6)]);
    assert!(film.starts_with(b"YUV4MPEG2 W32 H16 C420mpeg2\nFRAME\n"));
    assert_eq!(said(&film), (vec![5, 6], String::new()));
    let frame = Picture::from_planes(Size { w: 2, h: 1 }, &[7; 2 * 768]);
    assert!(bytes(&frame, true).expect("a size").starts_with(b"YUV4MPEG2 W32 H32 C420mpeg2\nFRAME\n"));
    let high = Picture::from_planes(Size { w: 1, h: 129 }, &[7; 2 * 129 * 384]);
    assert_eq!(bytes(&high, true), Err(Answer::BadSize));
}
