//! zlib streams (RFC 1950, 1951) with nothing but std: fixed codes, and repetitions at two distances only,
//! which is what enlarged pictures have: the pixel before, and the row above.

/// A zlib stream of `data`, looking for what stands `near[0]` or `near[1]` bytes earlier.
pub fn zlib(data: &[u8], near: [usize; 2]) -> Vec<u8> {
    let mut out = Bits { bytes: vec![0x78, 0x01], held: 0, count: 0 };
    out.put(0b011, 3); // the last block, fixed codes
    let mut at = 0;
    while at < data.len() {
        let (distance, length) = longest(data, at, near);
        if length < 3 {
            out.symbol(data[at].into());
            at += 1;
        } else {
            out.repetition(length, distance);
            at += length;
        }
    }
    out.symbol(END);
    let mut bytes = out.finish();
    bytes.extend(adler32(data).to_be_bytes());
    bytes
}

/// The symbol that ends a block.
const END: u16 = 256;
/// A repetition is of what stands no further back.
const FURTHEST: usize = 32_768;

/// The longer repetition at `at`, of at most 258 bytes.
fn longest(data: &[u8], at: usize, near: [usize; 2]) -> (usize, usize) {
    let length = |distance: usize| {
        let most = (data.len() - at).min(258);
        if distance > at.min(FURTHEST) {
            0
        } else {
            (0..most).take_while(|i| data[at + i] == data[at + i - distance]).count()
        }
    };
    near.map(|distance| (distance, length(distance))).into_iter().max_by_key(|m| m.1).expect("there are two")
}

/// Bits, lowest first.
struct Bits {
    bytes: Vec<u8>,
    held: u64,
    count: u32,
}

impl Bits {
    fn put(&mut self, value: u64, bits: u32) {
        self.held |= value << self.count;
        self.count += bits;
        while self.count >= 8 {
            self.bytes.push(self.held as u8);
            self.held >>= 8;
            self.count -= 8;
        }
    }

    /// A code goes highest bit first.
    fn code(&mut self, value: u16, bits: u32) {
        self.put(u64::from(value.reverse_bits() >> (16 - bits)), bits);
    }

    /// The fixed code of a byte, of the end, or of a length.
    fn symbol(&mut self, symbol: u16) {
        match symbol {
            0..=143 => self.code(0x30 + symbol, 8),
            144..=255 => self.code(0x190 + symbol - 144, 9),
            256..=279 => self.code(symbol - 256, 7),
            _ => self.code(0xC0 + symbol - 280, 8),
        }
    }

    fn repetition(&mut self, length: usize, distance: usize) {
        let (symbol, extra, bits) = if length == 258 { (28, 0, 0) } else { split(length - 3, 4) };
        self.symbol(257 + symbol);
        self.put(extra, bits);
        let (code, extra, bits) = split(distance - 1, 2);
        self.code(code, 5);
        self.put(extra, bits);
    }

    fn finish(mut self) -> Vec<u8> {
        if self.count > 0 {
            self.bytes.push(self.held as u8);
        }
        self.bytes
    }
}

/// A number as a code, and the value and count of the bits that follow it: `each` codes for each count of
/// bits, the first of them twice as many.
fn split(n: usize, each: usize) -> (u16, u64, u32) {
    if n < 2 * each {
        return (n as u16, 0, 0);
    }
    let bits = n.ilog2() - each.ilog2();
    let code = each * (bits as usize + 1) + (n >> bits) % each;
    (code as u16, (n % (1 << bits)) as u64, bits)
}

fn adler32(data: &[u8]) -> u32 {
    let (a, b) = data.iter().fold((1u32, 0u32), |(a, b), &byte| {
        let a = (a + u32::from(byte)) % 65_521;
        (a, (b + a) % 65_521)
    });
    b << 16 | a
}

#[cfg(test)]
mod tests {
    use super::*;

    #[test]
    fn a_known_sum() {
        assert_eq!(adler32(b"Wikipedia"), 0x11E6_0398);
    }

    /// RFC 1951, 3.2.5: lengths 3, 10, 11, 13, 257 and distances 1, 4, 5, 6, 24577, 32768.
    #[test]
    fn codes_of_the_tables() {
        assert_eq!([0, 7, 8, 10, 254].map(|n| split(n, 4)), [(0, 0, 0), (7, 0, 0), (8, 0, 1), (9, 0, 1), (27, 30, 5)]);
        let distances = [0, 3, 4, 5, 24_576, 32_767].map(|n| split(n, 2));
        let wanted = [(0, 0, 0), (3, 0, 0), (4, 0, 1), (4, 1, 1), (29, 0, 13), (29, 8191, 13)];
        assert_eq!(distances, wanted);
    }

    /// A reader of what `zlib` writes, written from the RFC's tables.
    fn read(stream: &[u8]) -> Vec<u8> {
        let bits: Vec<u8> = stream[2..].iter().flat_map(|b| (0..8).map(move |i| b >> i & 1)).collect();
        let mut at = 3;
        let mut code = |n: usize, extra: bool| {
            let part = bits[at..at + n].iter().enumerate();
            at += n;
            part.fold(0, |v, (i, &b)| if extra { v | usize::from(b) << i } else { 2 * v + usize::from(b) })
        };
        let lengths = [(3, 0), (11, 1), (19, 2), (35, 3), (67, 4), (131, 5)];
        let mut out = Vec::new();
        loop {
            let mut symbol = code(7, false);
            symbol = if symbol < 24 {
                256 + symbol
            } else {
                let longer = 2 * symbol + code(1, false);
                match longer {
                    0x30..=0xBF => longer - 0x30,
                    0xC0..=0xC7 => longer - 0xC0 + 280,
                    _ => 2 * longer + code(1, false) - 0x190 + 144,
                }
            };
            let length = match symbol {
                0..=255 => {
                    out.push(symbol as u8);
                    continue;
                }
                256 => return out,
                257..=264 => symbol - 254,
                285 => 258,
                _ => {
                    let (first, extra) = lengths[(symbol - 261) / 4];
                    first + (((symbol - 261) % 4) << extra) + code(extra, true)
                }
            };
            let distance = match code(5, false) {
                d @ 0..=3 => d + 1,
                30.. => panic!("there is no such code for a distance"),
                d => (1 << (d / 2)) + ((d % 2) << (d / 2 - 1)) + code(d / 2 - 1, true) + 1,
            };
            (0..length).for_each(|_| out.push(out[out.len() - distance]));
        }
    }

    #[test]
    fn what_is_written_is_read() {
        let flat = vec![7; 5000];
        let rows: Vec<u8> = (0..9000).map(|i| (i % 1000 * 37 % 251) as u8).collect();
        let mixed: Vec<u8> = (0..4000u32).map(|i| (i * i / 7 % 256) as u8).collect();
        for data in [&flat, &rows, &mixed, &vec![], &vec![255], &vec![0, 0, 0, 144, 143]] {
            assert!(read(&zlib(data, [1, 1000])) == *data);
        }
        let far: Vec<u8> = (0..100_000u64).map(|i| (i % 40_000 * 7919 % 251) as u8).collect();
        assert!(read(&zlib(&far, [1, 40_000])) == far);
        assert!(zlib(&flat, [1, 1000]).len() < 60 && zlib(&rows, [1, 1000]).len() < 1300);
    }
}
