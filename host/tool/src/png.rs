//! PNG pictures with nothing but std.

use crate::deflate::zlib;

/// A grey picture as the bytes of a PNG file. `samples` are `w * h`, row by row.
pub fn grey(w: usize, h: usize, samples: &[u8]) -> Vec<u8> {
    picture(w, h, samples, 1)
}

/// A picture in red, green and blue.
pub fn coloured(w: usize, h: usize, pixels: &[[u8; 3]]) -> Vec<u8> {
    picture(w, h, pixels.as_flattened(), 3)
}

fn picture(w: usize, h: usize, samples: &[u8], each: usize) -> Vec<u8> {
    assert_eq!(samples.len(), each * w * h, "so many samples a pixel");
    // each row starts with its filter type, 0: none
    let row = |row: &[u8]| -> Vec<u8> { std::iter::once(0).chain(row.iter().copied()).collect() };
    let rows: Vec<u8> = samples.chunks(each * w).flat_map(row).collect();
    let mut header = Vec::new();
    header.extend((w as u32).to_be_bytes());
    header.extend((h as u32).to_be_bytes());
    let colours = if each == 1 { 0 } else { 2 };
    header.extend([8, colours, 0, 0, 0]); // 8 bits, deflate, usual filters, not interlaced
    let mut file = b"\x89PNG\r\n\x1a\n".to_vec();
    chunk(&mut file, b"IHDR", &header);
    chunk(&mut file, b"IDAT", &zlib(&rows, [each, each * w + 1]));
    chunk(&mut file, b"IEND", &[]);
    file
}

fn chunk(file: &mut Vec<u8>, name: &[u8; 4], data: &[u8]) {
    file.extend((data.len() as u32).to_be_bytes());
    let start = file.len();
    file.extend(name);
    file.extend(data);
    let crc = crc32(&file[start..]);
    file.extend(crc.to_be_bytes());
}

fn crc32(data: &[u8]) -> u32 {
    !data.iter().fold(!0, |crc, &byte| {
        (0..8).fold(crc ^ u32::from(byte), |c, _| if c & 1 == 1 { 0xEDB8_8320 ^ (c >> 1) } else { c >> 1 })
    })
}

#[cfg(test)]
mod tests {
    use super::*;

    #[test]
    fn known_checks() {
        assert_eq!(crc32(b"123456789"), 0xCBF4_3926);
        assert_eq!(crc32(b"IEND"), 0xAE42_6082);
    }

    #[test]
    fn a_small_picture_byte_by_byte() {
        for (file, colours) in [(grey(2, 1, &[7, 9]), 0), (coloured(1, 1, &[[7, 8, 9]]), 2)] {
            assert_eq!(&file[..16], b"\x89PNG\r\n\x1a\n\0\0\0\x0dIHDR");
            assert_eq!(file[24..29], [8, colours, 0, 0, 0]);
            assert_eq!(&file[file.len() - 12..], b"\0\0\0\0IEND\xae\x42\x60\x82");
        }
    }
}
