//! Walk and fill of a header and ranges by value, with anything changed.

use crate::blob::Blob;
use crate::lent::{IMAGE, LIST};
use second::{fill, read_ranges, walk, Header, Ranges, Refusal};

pub struct Given {
    pub bytes: Vec<u8>,
    pub header: Header,
    pub ranges: Ranges,
    pub mask: Vec<u8>,
    pub list: Vec<usize>,
    pub image: Vec<u64>,
}

impl Given {
    /// The 79 bytes of the rules.
    pub fn new() -> Given {
        Given::of(&Blob::whole())
    }

    /// A blob whose ranges are right, and whose pixels are all valid.
    pub fn of(blob: &Blob) -> Given {
        let (bytes, header) = (blob.bytes(), blob.header());
        Given {
            ranges: read_ranges(&bytes, &header).unwrap(),
            mask: vec![255; header.mask_length()],
            list: vec![LIST; header.blocks()],
            image: vec![IMAGE; header.cells()],
            bytes,
            header,
        }
    }

    /// By the number alone.
    pub fn walk(&mut self) -> Result<(usize, usize), u32> {
        self.walk_at().map_err(u32::from)
    }

    pub fn walk_at(&mut self) -> Result<(usize, usize), Refusal> {
        let before = self.list.clone();
        let list = &mut self.list;
        let answer = walk(&self.bytes, &self.header, &self.ranges, &self.mask, list);
        assert!(answer.is_ok() || *list == before);
        answer
    }

    /// By the number alone.
    pub fn fill(&mut self, number: usize) -> Result<usize, u32> {
        self.fill_at(number).map_err(u32::from)
    }

    pub fn fill_at(&mut self, number: usize) -> Result<usize, Refusal> {
        let before = self.image.clone();
        let answer = fill(
            &self.bytes,
            &self.header,
            &self.ranges,
            &self.mask,
            &self.list,
            number,
            &mut self.image,
        );
        assert!(answer.is_ok() || self.image == before);
        answer
    }
}
