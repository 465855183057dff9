//! Blobs put together by hand.

use second::Header;

/// A blob with fields of one's choice; the size is the true one if not given.
#[derive(Clone)]
pub struct Blob {
    pub rows: u32,
    pub columns: u32,
    pub depth: u32,
    pub valid: u32,
    pub side: u32,
    pub size: Option<u32>,
    pub kind: u32,
    pub error: u64,
    pub min: u64,
    pub max: u64,
    pub mask: Vec<u8>,
    pub body: Vec<u8>,
}

impl Blob {
    /// One row of u8 pixels, all valid, from 10 to 12 with error 1; `body`
    /// begins with the ranges.
    pub fn row(columns: u32, body: &[u8]) -> Blob {
        Blob {
            rows: 1,
            columns,
            depth: 1,
            valid: columns,
            side: 8,
            size: None,
            kind: 1,
            error: 1f64.to_bits(),
            min: 10f64.to_bits(),
            max: 12f64.to_bits(),
            mask: Vec::new(),
            body: body.to_vec(),
        }
    }

    /// The 79 bytes of the rules.
    pub fn whole() -> Blob {
        Blob {
            error: 0.5f64.to_bits(),
            ..Blob::row(3, &hex("0A 0C 00 00 01 0A 82 03 24"))
        }
    }

    pub fn header(&self) -> Header {
        let size = 70 + self.mask.len() + self.body.len();
        Header {
            rows: self.rows,
            columns: self.columns,
            depth: self.depth,
            valid: self.valid,
            side: self.side,
            size: self.size.unwrap_or(size as u32),
            kind: self.kind,
            error: self.error,
            min: self.min,
            max: self.max,
            mask: self.mask.len() as u32,
        }
    }

    pub fn bytes(&self) -> Vec<u8> {
        let mut bytes = header_bytes(&self.header());
        bytes.extend(&self.mask);
        bytes.extend(&self.body);
        sealed(bytes)
    }
}

/// The same with a true checksum, where the bytes reach the declared size.
pub fn sealed(mut bytes: Vec<u8>) -> Vec<u8> {
    let size = bytes.get(34..38).map_or(0, |field| {
        u32::from_le_bytes(field.try_into().unwrap()) as usize
    });
    if let Some(summed) = bytes.get(14..size) {
        let sum = second::checksum(summed);
        bytes[10..14].copy_from_slice(&sum.to_le_bytes());
    }
    bytes
}

/// The header alone, with a checksum that is not true.
pub fn header_bytes(header: &Header) -> Vec<u8> {
    let mut bytes = b"Lerc2 ".to_vec();
    let narrow = [
        4,
        0x0BAD_5EED,
        header.rows,
        header.columns,
        header.depth,
        header.valid,
        header.side,
        header.size,
        header.kind,
    ];
    for field in narrow {
        bytes.extend(field.to_le_bytes());
    }
    for field in [header.error, header.min, header.max] {
        bytes.extend(field.to_le_bytes());
    }
    bytes.extend(header.mask.to_le_bytes());
    bytes
}

/// Bytes from hexadecimal digits; spaces are skipped.
pub fn hex(text: &str) -> Vec<u8> {
    let digits: Vec<u8> = text
        .chars()
        .filter(|c| !c.is_whitespace())
        .map(|c| c.to_digit(16).unwrap() as u8)
        .collect();
    digits
        .chunks(2)
        .map(|pair| pair[0] * 16 + pair[1])
        .collect()
}
