//! Streams worked out by hand from the sentences that ask for them.

use super::*;

/// The number for a stream of these lines and so many samples after them, and the size that was found.
fn found(lines: &str, samples: usize) -> (u32, usize, usize) {
    let stream = [lines.as_bytes(), &vec![7; samples]].concat();
    let r = answer(&mut Ask::of(stream, [0; 3]));
    (r.number, r.w, r.h)
}

fn number(lines: &str) -> u32 {
    let (number, w, h) = found(lines, 384);
    assert_eq!((w, h), if number == 0 { (1, 1) } else { (0, 0) });
    number
}

#[test]
fn good_lines() {
    for header in [
        "YUV4MPEG2 W16 H16",
        "YUV4MPEG2 H16 W16",
        "YUV4MPEG2 W16 H16 C420",
        "YUV4MPEG2 C420jpeg W16 H16",
        "YUV4MPEG2 W16 C420mpeg2 H16",
        "YUV4MPEG2 W16 H16 C420paldv",
        "YUV4MPEG2 W16 H16 F25:1 Ip A0:0 XFOO",
        "YUV4MPEG2 W0016 H000000000000000000000000000000000000016",
        "YUV4MPEG2 W16 H16 w17 h0 c444 X X",
        "YUV4MPEG2 W16 H16 XFOO\r",
        "YUV4MPEG2 W16 H16 \t \0 \r",
    ] {
        for frame in ["FRAME", "FRAME Ip", "FRAME W17 W H C444 C", "FRAME \r", "FRAME X\t\0"] {
            assert_eq!(number(&format!("{header}\n{frame}\n")), 0, "{header:?} {frame:?}");
        }
    }
}

#[test]
fn malformed_headers() {
    for header in [
        "",
        "YUV4MPEG2",
        "YUV4MPEG2 ",
        "YUV4MPEG2 W16",
        "YUV4MPEG2 H16",
        "YUV4MPEG2  W16 H16",
        "YUV4MPEG2 W16  H16",
        "YUV4MPEG2 W16 H16 ",
        " YUV4MPEG2 W16 H16",
        "YUV4MPEG W16 H16",
        "YUV4MPEG22 W16 H16",
        "yuv4mpeg2 W16 H16",
        "YUV4MPEG2\tW16 H16",
        "YUV4MPEG2 W16\tH16",
        "YUV4MPEG2 W H16",
        "YUV4MPEG2 W+16 H16",
        "YUV4MPEG2 W-16 H16",
        "YUV4MPEG2 W16. H16",
        "YUV4MPEG2 W0x10 H16",
        "YUV4MPEG2 W16 H16\r",
        "YUV4MPEG2 W16 W16 H16",
        "YUV4MPEG2 W16 H16 H17",
        "YUV4MPEG2 W16 H16 C420 C420",
        "YUV4MPEG2 W16 H16 C444 C",
    ] {
        assert_eq!(number(&format!("{header}\nFRAME\n")), 15, "{header:?}");
    }
}

#[test]
fn malformed_frames() {
    for frame in ["", "FRAM", "FRAMES", "frame", "FRAME ", "FRAME  Ip", "FRAME Ip ", " FRAME", "FRAME\r", "FRAME\tI"] {
        // whatever C tag and sides are
        for header in ["YUV4MPEG2 W16 H16", "YUV4MPEG2 W17 H16", "YUV4MPEG2 W16 H16 C444"] {
            assert_eq!(number(&format!("{header}\n{frame}\n")), 15, "{frame:?}");
        }
    }
    for cut in ["YUV4MPEG2 W16 H16", "YUV4MPEG2 W16 H16 C444\nFRAME", "YUV4MPEG2 W17 H16\n"] {
        assert_eq!(found(cut, 0), (15, 0, 0), "{cut:?}");
    }
}

#[test]
fn planes_then_sides_then_length() {
    for c in ["C", "C42", "C420JPEG", "C420p10", "C420mpeg", "C420jpegs", "C0420", "C420\r", "C444", "Cmono"] {
        assert_eq!(number(&format!("YUV4MPEG2 {c} W17 H0\nFRAME\n")), 16, "{c:?}");
    }
    let nines = "9".repeat(400);
    for side in ["0", "000", "1", "8", "15", "17", "24", "4097", "4112", "16016", "65552", &nines] {
        assert_eq!(number(&format!("YUV4MPEG2 W{side} H16\nFRAME\n")), 17, "{side}");
        assert_eq!(number(&format!("YUV4MPEG2 H{side} W16 C420\nFRAME\n")), 17, "{side}");
    }
    // 2^32 + 16 and 2^64 + 16
    assert_eq!(number("YUV4MPEG2 W4294967312 H16\nFRAME\n"), 17);
    assert_eq!(number("YUV4MPEG2 W18446744073709551632 H16\nFRAME\n"), 17);
    // 256 by 145 and 256 by 144 macroblocks
    assert_eq!(found("YUV4MPEG2 W4096 H2320\nFRAME\n", 0), (17, 0, 0));
    assert_eq!(found("YUV4MPEG2 W4096 H2304\nFRAME\n", 14_155_775), (18, 0, 0));
    assert_eq!(found("YUV4MPEG2 W4096 H2304\nFRAME\n", 14_155_776), (0, 256, 144));
    assert_eq!([383, 384, 385].map(|n| found("YUV4MPEG2 W16 H16\nFRAME\n", n).0), [18, 0, 0]);
    assert_eq!(found("YUV4MPEG2 W32 H48\nFRAME\n", 6 * 384), (0, 2, 3));
}

#[test]
fn planes_are_placed_or_refused() {
    let samples: Vec<u8> = (0..384).map(|i| if i < 256 { 1 } else { 2 + (i / 320) as u8 }).collect();
    let stream = [b"YUV4MPEG2 H16 W16\nFRAME\n", &samples[..], b"FRAME\n"].concat();
    let read = |lengths| {
        let mut a = Ask { call: Call::Read, ..Ask::of(stream.clone(), lengths) };
        let number = answer(&mut a).number;
        (number, [a.luma.to_vec(), a.u.to_vec(), a.v.to_vec()])
    };
    assert_eq!(read([256, 64, 64]), (0, [vec![1; 256], vec![2; 64], vec![3; 64]]));
    for lengths in [[255, 64, 64], [257, 64, 64], [256, 63, 64], [256, 64, 65], [64, 256, 64], [0; 3]] {
        assert_eq!(read(lengths), (3, lengths.map(|len| vec![0x5A; len])));
    }
}

#[test]
fn what_is_written() {
    let mut a = Ask::to_write(1, 2, &[9; 768], 34 + 768);
    assert_eq!(answer(&mut a), Reply::default());
    assert_eq!(a.stream[..], [b"YUV4MPEG2 W16 H32 C420mpeg2\nFRAME\n", &[9; 768][..]].concat());
    let length = |w, h| answer(&mut Ask { call: Call::Length, ..Ask::to_write(w, h, &[], 0) }).length;
    assert_eq!([length(1, 2), length(1, 7), length(63, 1)], [802, 35 + 2688, 36 + 63 * 384]);
    assert_eq!([length(256, 144), length(256, 145), length(0, 1)], [38 + 14_155_776, 0, 0]);
    assert_eq!([length(1, 257), length(1 << 32, 1 << 32), length(usize::MAX, 1)], [0; 3]);
}

#[test]
fn what_is_not_written() {
    let number = |w, h, planes: [usize; 3], room| {
        let mut a = Ask::to_write(w, h, &[9; 768], room);
        a.planes().into_iter().zip(planes).for_each(|(plane, len)| plane.resize(len, 9));
        let number = answer(&mut a).number;
        assert!(number == 0 || a.stream.iter().all(|b| *b == 0x3C));
        number
    };
    let right = [512, 128, 128];
    assert_eq!([801, 802, 803, 0].map(|room| number(1, 2, right, room)), [18, 0, 18, 18]);
    assert_eq!([[511, 128, 128], [512, 127, 129], [128, 512, 128], [0; 3]].map(|p| number(1, 2, p, 0)), [3; 4]);
    assert_eq!([(0, 2), (257, 1), (256, 145)].map(|(w, h)| number(w, h, [0; 3], 0)), [1; 3]);
}
