//! A PNG of pixels that are numbers of a palette: a small deflate (matches, and the
//! codes that the format fixes), and both of its check sums.

/// A colour: red, green, blue.
pub type Colour = [u8; 3];

/// The bytes of a PNG. Each pixel is the number of a colour.
pub fn png(width: usize, pixels: &[u8], palette: &[Colour]) -> Vec<u8> {
    let side = |n: usize| (n as u32).to_be_bytes();
    let size = [side(width), side(pixels.len() / width)].concat();
    // Eight bits a pixel, by a palette.
    let head = [&size[..], &[8, 3, 0, 0, 0]].concat();
    let mut out = b"\x89PNG\r\n\x1A\n".to_vec();
    put_chunk(&mut out, b"IHDR", &head);
    put_chunk(&mut out, b"PLTE", &palette.concat());
    put_chunk(&mut out, b"IDAT", &zlib(&filtered(width, pixels)));
    put_chunk(&mut out, b"IEND", &[]);
    out
}

/// Each line as the differences to the pixel on the left: a slope has few.
fn filtered(width: usize, pixels: &[u8]) -> Vec<u8> {
    const SUB: u8 = 1;
    let mut out = Vec::with_capacity(pixels.len() + pixels.len() / width);
    for line in pixels.chunks(width) {
        out.push(SUB);
        let left = [0].iter().chain(line);
        out.extend(
            line.iter()
                .zip(left)
                .map(|(now, left)| now.wrapping_sub(*left)),
        );
    }
    out
}

fn put_chunk(out: &mut Vec<u8>, name: &[u8; 4], data: &[u8]) {
    let summed = [name, data].concat();
    out.extend((data.len() as u32).to_be_bytes());
    out.extend_from_slice(&summed);
    out.extend(crc32(&summed).to_be_bytes());
}

/// Divided by the format's polynomial, bit by bit.
fn crc32(bytes: &[u8]) -> u32 {
    let mut rest = u32::MAX;
    for &byte in bytes {
        rest ^= u32::from(byte);
        for _ in 0..8 {
            rest = rest >> 1 ^ if rest & 1 == 1 { 0xEDB8_8320 } else { 0 };
        }
    }
    !rest
}

fn adler32(bytes: &[u8]) -> u32 {
    const PRIME: u32 = 65521;
    let (mut low, mut high) = (1, 0);
    for &byte in bytes {
        low = (low + u32::from(byte)) % PRIME;
        high = (high + low) % PRIME;
    }
    high << 16 | low
}

/// A window of 32 KiB; the second byte makes the first two a multiple of 31.
fn zlib(bytes: &[u8]) -> Vec<u8> {
    let sum = adler32(bytes).to_be_bytes();
    [&[0x78, 0x01][..], &deflate(bytes), &sum].concat()
}

// ---- Deflate: one block of fixed codes.

/// Bits, the lowest first.
#[derive(Default)]
struct Bits {
    out: Vec<u8>,
    held: u64,
    count: u32,
}

impl Bits {
    fn put(&mut self, bits: u32, count: u32) {
        self.held |= u64::from(bits) << self.count;
        self.count += count;
        while self.count >= 8 {
            self.out.push(self.held as u8);
            self.held >>= 8;
            self.count -= 8;
        }
    }

    /// A code goes out from its highest bit on.
    fn put_code(&mut self, code: u32, count: u32) {
        self.put(code.reverse_bits() >> (32 - count), count);
    }

    /// A byte, the end, or the length of a match.
    fn put_symbol(&mut self, symbol: u32) {
        match symbol {
            0..=143 => self.put_code(0x30 + symbol, 8),
            144..=255 => self.put_code(0x190 + symbol - 144, 9),
            256..=279 => self.put_code(symbol - 256, 7),
            _ => self.put_code(0xC0 + symbol - 280, 8),
        }
    }

    fn put_match(&mut self, length: usize, distance: usize) {
        // A length of 258 has a symbol of its own.
        let (symbol, extra, rest) = match length {
            258 => (28, 0, 0),
            _ => split(length - 3, 4),
        };
        self.put_symbol(257 + symbol);
        self.put(rest, extra);
        let (symbol, extra, rest) = split(distance - 1, 2);
        self.put_code(symbol, 5);
        self.put(rest, extra);
    }

    fn ended(mut self) -> Vec<u8> {
        self.put(0, 7);
        self.out
    }
}

/// The symbol of a number, how many bits follow, and which. Each power of two is
/// cut into so many equal parts.
fn split(number: usize, parts: u32) -> (u32, u32, u32) {
    let number = number as u32;
    if number < 2 * parts {
        return (number, 0, 0);
    }
    let extra = number.ilog2() - parts.ilog2();
    (
        extra * parts + (number >> extra),
        extra,
        number % (1 << extra),
    )
}

const WINDOW: usize = 32768;
const LONGEST: usize = 258;
/// Earlier places that are tried for one match.
const TRIES: usize = 64;

/// Where the same three bytes stood before, as far back as the window goes.
struct Places {
    last: Vec<usize>,
    before: Vec<usize>,
}

const NOWHERE: usize = usize::MAX;

impl Places {
    fn new() -> Places {
        Places {
            last: vec![NOWHERE; 1 << 15],
            before: vec![NOWHERE; WINDOW],
        }
    }

    fn slot(three: &[u8]) -> usize {
        let word = u32::from_le_bytes([three[0], three[1], three[2], 0]);
        (word.wrapping_mul(0x9E37_79B1) >> 17) as usize
    }

    fn put(&mut self, bytes: &[u8], at: usize) {
        if at + 3 <= bytes.len() {
            let slot = Places::slot(&bytes[at..at + 3]);
            self.before[at % WINDOW] = self.last[slot];
            self.last[slot] = at;
        }
    }

    /// The longest match that ends within the bytes: length and distance.
    fn longest(&self, bytes: &[u8], at: usize) -> (usize, usize) {
        let ahead = &bytes[at..bytes.len().min(at + LONGEST)];
        let mut best = (0, 0);
        if ahead.len() < 3 {
            return best;
        }
        let mut place = self.last[Places::slot(ahead)];
        for _ in 0..TRIES {
            if place == NOWHERE || at - place > WINDOW {
                break;
            }
            let pairs = ahead.iter().zip(&bytes[place..]);
            let length = pairs.take_while(|(a, b)| a == b).count();
            if length > best.0 {
                best = (length, at - place);
            }
            if length == ahead.len() {
                break;
            }
            place = self.before[place % WINDOW];
        }
        best
    }
}

fn deflate(bytes: &[u8]) -> Vec<u8> {
    let mut bits = Bits::default();
    let mut places = Places::new();
    // The last block, of fixed codes.
    bits.put(0b011, 3);
    let mut at = 0;
    while at < bytes.len() {
        let (length, distance) = places.longest(bytes, at);
        let taken = if length < 3 { 1 } else { length };
        if taken == 1 {
            bits.put_symbol(bytes[at].into());
        } else {
            bits.put_match(length, distance);
        }
        for place in at..at + taken {
            places.put(bytes, place);
        }
        at += taken;
    }
    const END: u32 = 256;
    bits.put_symbol(END);
    bits.ended()
}
