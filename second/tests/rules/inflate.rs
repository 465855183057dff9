//! Unpacks zlib data: some of the expected answers are kept that way.

/// Panics if the data are wrong.
pub fn unpack(data: &[u8]) -> Vec<u8> {
    let mut bits = Bits {
        // Two bytes of zlib's own come first.
        bytes: &data[2..],
        at: 0,
    };
    let mut out = Vec::new();
    loop {
        let last = bits.take(1) == 1;
        match bits.take(2) {
            0 => stored(&mut bits, &mut out),
            1 => coded(&mut bits, &mut out, &fixed_symbols(), &Codes::new(&[5; 30])),
            2 => {
                let (symbols, distances) = dynamic_codes(&mut bits);
                coded(&mut bits, &mut out, &symbols, &distances);
            }
            _ => panic!("no such block"),
        }
        if last {
            return out;
        }
    }
}

struct Bits<'a> {
    bytes: &'a [u8],
    at: usize,
}

impl Bits<'_> {
    fn take(&mut self, count: usize) -> usize {
        (0..count).fold(0, |value, n| {
            let bit = self.bytes[self.at / 8] >> (self.at % 8) & 1;
            self.at += 1;
            value | usize::from(bit) << n
        })
    }
}

/// Codes by their lengths: how many of each length, and symbols in order.
struct Codes {
    counts: [usize; 16],
    symbols: Vec<usize>,
}

impl Codes {
    fn new(lengths: &[usize]) -> Codes {
        let mut counts = [0; 16];
        for &length in lengths {
            counts[length] += 1;
        }
        counts[0] = 0;
        let mut symbols: Vec<usize> = (0..lengths.len()).filter(|&s| lengths[s] > 0).collect();
        symbols.sort_by_key(|&symbol| lengths[symbol]);
        Codes { counts, symbols }
    }

    fn read(&self, bits: &mut Bits) -> usize {
        let (mut code, mut first, mut before) = (0, 0, 0);
        for length in 1..16 {
            code = code * 2 + bits.take(1);
            first *= 2;
            let count = self.counts[length];
            if code < first + count {
                return self.symbols[before + code - first];
            }
            before += count;
            first += count;
        }
        panic!("no such code");
    }
}

fn stored(bits: &mut Bits, out: &mut Vec<u8>) {
    let at = bits.at.div_ceil(8);
    let length = usize::from(bits.bytes[at]) + 256 * usize::from(bits.bytes[at + 1]);
    out.extend(&bits.bytes[at + 4..at + 4 + length]);
    bits.at = (at + 4 + length) * 8;
}

fn fixed_symbols() -> Codes {
    let mut lengths = [8; 288];
    lengths[144..256].fill(9);
    lengths[256..280].fill(7);
    Codes::new(&lengths)
}

fn dynamic_codes(bits: &mut Bits) -> (Codes, Codes) {
    const ORDER: [usize; 19] = [
        16, 17, 18, 0, 8, 7, 9, 6, 10, 5, 11, 4, 12, 3, 13, 2, 14, 1, 15,
    ];
    let symbols = bits.take(5) + 257;
    let distances = bits.take(5) + 1;
    let used = bits.take(4) + 4;
    let mut lengths = [0; 19];
    for &place in &ORDER[..used] {
        lengths[place] = bits.take(3);
    }
    let codes = Codes::new(&lengths);
    let mut lengths = Vec::new();
    while lengths.len() < symbols + distances {
        let (length, times) = match codes.read(bits) {
            16 => (*lengths.last().unwrap(), 3 + bits.take(2)),
            17 => (0, 3 + bits.take(3)),
            18 => (0, 11 + bits.take(7)),
            length => (length, 1),
        };
        lengths.resize(lengths.len() + times, length);
    }
    (
        Codes::new(&lengths[..symbols]),
        Codes::new(&lengths[symbols..]),
    )
}

fn coded(bits: &mut Bits, out: &mut Vec<u8>, symbols: &Codes, distances: &Codes) {
    loop {
        match symbols.read(bits) {
            symbol @ 0..=255 => out.push(symbol as u8),
            256 => return,
            symbol => {
                let length = copy_length(bits, symbol - 257);
                let symbol = distances.read(bits);
                let back = copy_distance(bits, symbol);
                for _ in 0..length {
                    out.push(out[out.len() - back]);
                }
            }
        }
    }
}

fn copy_length(bits: &mut Bits, symbol: usize) -> usize {
    match symbol {
        0..=7 => symbol + 3,
        28 => 258,
        _ => {
            let more = symbol / 4 - 1;
            ((4 + symbol % 4) << more) + 3 + bits.take(more)
        }
    }
}

fn copy_distance(bits: &mut Bits, symbol: usize) -> usize {
    if symbol < 4 {
        return symbol + 1;
    }
    let more = symbol / 2 - 1;
    ((2 + symbol % 2) << more) + 1 + bits.take(more)
}
