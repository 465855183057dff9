//! What is measured: one image, one way to read it, one reader.

use lerc2::raw;
use second::{Header, Mask, Ranges};

#[derive(Clone, Copy, Debug, PartialEq, Eq)]
pub enum Way {
    /// A whole read.
    Read,
    /// All of its checking.
    Stage,
    /// All of its writing, with a staged answer that is there already.
    Publish,
    /// The two, one after the other.
    Both,
    /// Mask, ranges, walk, and each block filled.
    Steps,
    /// The walk alone.
    Walk,
    /// The mask alone, from the runs of its section.
    Runs,
    /// The mask alone, where it is kept and the blob has no section.
    Reuse,
}

#[derive(Clone, Copy, Debug, PartialEq, Eq)]
pub enum Reader {
    Proved,
    Plain,
    #[cfg(feature = "esri")]
    Esri,
}

impl Way {
    pub const ALL: [Way; 8] = [
        Way::Read,
        Way::Stage,
        Way::Publish,
        Way::Both,
        Way::Steps,
        Way::Walk,
        Way::Runs,
        Way::Reuse,
    ];
    /// Those that are measured of whole images.
    pub const TABLE: [Way; 5] = [Way::Read, Way::Stage, Way::Publish, Way::Both, Way::Steps];
    /// Those of them that the plain reader has too.
    pub const WHOLE: [Way; 2] = [Way::Read, Way::Steps];

    pub fn name(self) -> &'static str {
        match self {
            Way::Read => "read",
            Way::Stage => "stage",
            Way::Publish => "publish",
            Way::Both => "stage and publish",
            Way::Steps => "walk and fills",
            Way::Walk => "walk",
            Way::Runs => "mask by runs",
            Way::Reuse => "mask by reuse",
        }
    }
}

impl Reader {
    #[cfg(not(feature = "esri"))]
    pub const ALL: &'static [Reader] = &[Reader::Proved, Reader::Plain];
    #[cfg(feature = "esri")]
    pub const ALL: &'static [Reader] = &[Reader::Proved, Reader::Plain, Reader::Esri];

    pub fn name(self) -> &'static str {
        match self {
            Reader::Proved => "proved",
            Reader::Plain => "plain",
            #[cfg(feature = "esri")]
            Reader::Esri => "esri",
        }
    }

    /// Two calls are the proved reader's alone; Esri's library has no steps.
    pub fn has(self, way: Way) -> bool {
        match self {
            Reader::Proved => true,
            Reader::Plain => !matches!(way, Way::Stage | Way::Publish | Way::Both),
            #[cfg(feature = "esri")]
            Reader::Esri => way == Way::Read,
        }
    }
}

/// An image with room for every slice.
pub struct Task {
    blob: Vec<u8>,
    pub header: Header,
    /// What a walk is handed besides the mask, which is the spare.
    ranges: Option<Ranges>,
    /// The same as records of the C interface.
    header_record: [u64; raw::HEADER],
    ranges_record: [u64; raw::RANGES],
    kept: Vec<u8>,
    spare: Vec<u8>,
    list: Vec<usize>,
    pub image: Vec<u64>,
    /// What the last call said, as the C interface does; nothing for steps.
    said: [u64; raw::READ],
    /// What was staged last.
    staged: [u64; raw::STAGED],
    /// Where the proved reader tells the place of a refusal.
    place: [u64; raw::PLACE],
    #[cfg(feature = "esri")]
    decoded: compare::esri::Decoded,
}

/// All that a call can write.
#[derive(Debug, PartialEq)]
pub struct Written<'a> {
    said: &'a [u64],
    kept: &'a [u8],
    spare: &'a [u8],
    list: &'a [usize],
    image: &'a [u64],
}

impl Task {
    /// The number of the refusal where the header has one.
    pub fn new(blob: &[u8]) -> Result<Task, u32> {
        let header = second::read_header(blob)?;
        Ok(Task {
            blob: blob.to_vec(),
            ranges: None,
            header_record: [0; raw::HEADER],
            ranges_record: [0; raw::RANGES],
            kept: vec![0; header.mask_length()],
            spare: vec![0; header.mask_length()],
            list: vec![0; header.blocks()],
            image: vec![0; header.cells()],
            said: [0; raw::READ],
            staged: [0; raw::STAGED],
            place: [0; raw::PLACE],
            #[cfg(feature = "esri")]
            decoded: compare::esri::Decoded::new(&header),
            header,
        })
    }

    /// With all that the way asks for beforehand, which is not counted.
    pub fn prepared(blob: &[u8], way: Way) -> Result<Task, u32> {
        let mut task = Task::new(blob)?;
        if way == Way::Reuse {
            task.keep_mask()?;
        }
        let (record, place) = (&mut task.header_record, &mut task.place);
        accepted(raw::read_header(&task.blob, record, place))?;
        match way {
            Way::Walk => task.prepare_walk()?,
            Way::Publish => proved_stage(&mut task)?,
            _ => (),
        }
        Ok(task)
    }

    fn prepare_walk(&mut self) -> Result<(), u32> {
        let (blob, header) = (&self.blob, &self.header);
        second::prepare_mask(blob, header, false, &self.kept, &mut self.spare)?;
        self.ranges = Some(second::read_ranges(blob, header)?);
        let (record, place) = (&mut self.ranges_record, &mut self.place);
        accepted(raw::read_ranges(blob, &self.header_record, record, place))
    }

    /// Keeps the mask of the section, and takes the section out; the checksum is
    /// mended.
    fn keep_mask(&mut self) -> Result<(), u32> {
        let unkept = self.kept.clone();
        second::prepare_mask(&self.blob, &self.header, false, &unkept, &mut self.kept)?;
        let size = self.header.size - self.header.mask;
        self.blob[34..38].copy_from_slice(&size.to_le_bytes());
        self.blob[66..70].fill(0);
        self.blob.drain(70..70 + self.header.mask as usize);
        let checksum = second::checksum(&self.blob[14..size as usize]);
        self.blob[10..14].copy_from_slice(&checksum.to_le_bytes());
        self.header = second::read_header(&self.blob)?;
        Ok(())
    }

    /// One call, or all calls of the steps; the refusal's number where there is
    /// one, or the library's own. Callgrind counts while it is in one of the
    /// functions below. It must be a way that the reader has.
    #[inline(never)]
    pub fn go(&mut self, way: Way, reader: Reader) -> Result<(), u32> {
        match (way, reader) {
            (Way::Read, Reader::Proved) => measured_proved_read(self),
            (Way::Read, Reader::Plain) => measured_plain_read(self).map(|said| self.say_read(said)),
            (Way::Stage, Reader::Proved) => measured_proved_stage(self),
            (Way::Publish, Reader::Proved) => measured_proved_publish(self),
            (Way::Both, Reader::Proved) => measured_proved_both(self),
            (Way::Stage | Way::Publish | Way::Both, Reader::Plain) => {
                unreachable!("the plain reader has no such calls")
            }
            (Way::Steps, Reader::Proved) => measured_proved_steps(self),
            (Way::Steps, Reader::Plain) => measured_plain_steps(self),
            (Way::Walk, Reader::Proved) => measured_proved_walk(self),
            (Way::Walk, Reader::Plain) => measured_plain_walk(self).map(|said| self.say_walk(said)),
            (Way::Runs, Reader::Proved) => measured_proved_runs(self),
            (Way::Runs, Reader::Plain) => measured_plain_runs(self).map(|said| self.say_mask(said)),
            (Way::Reuse, Reader::Proved) => measured_proved_reuse(self),
            (Way::Reuse, Reader::Plain) => {
                measured_plain_reuse(self).map(|said| self.say_mask(said))
            }
            #[cfg(feature = "esri")]
            (_, Reader::Esri) => measured_esri_read(self),
        }
    }

    fn say_read(&mut self, (header, blocks, end): (Header, usize, usize)) {
        self.said = [
            header.rows.into(),
            header.columns.into(),
            header.depth.into(),
            header.valid.into(),
            header.side.into(),
            header.size.into(),
            header.kind.into(),
            header.error,
            header.min,
            header.max,
            header.mask.into(),
            blocks as u64,
            end as u64,
        ];
    }

    fn say_walk(&mut self, (blocks, end): (usize, usize)) {
        self.said[..raw::WALK].copy_from_slice(&[blocks as u64, end as u64]);
    }

    fn say_mask(&mut self, mask: Mask) {
        let said = match mask {
            Mask::Kept(length) => [1, length as u64],
            Mask::Spare(length) => [2, length as u64],
        };
        self.said[..raw::MASK].copy_from_slice(&said);
    }

    pub fn written(&self) -> Written<'_> {
        Written {
            said: &self.said,
            kept: &self.kept,
            spare: &self.spare,
            list: &self.list,
            image: &self.image,
        }
    }
}

/// Of an answer in C, where 0 accepts.
fn accepted(answer: u32) -> Result<(), u32> {
    match answer {
        0 => Ok(()),
        number => Err(number),
    }
}

// Names for callgrind, which begins to count where they begin.

#[no_mangle]
#[inline(never)]
fn measured_proved_read(task: &mut Task) -> Result<(), u32> {
    let Task {
        blob,
        kept,
        spare,
        list,
        image,
        said,
        place,
        ..
    } = task;
    accepted(raw::read(
        blob, false, kept, spare, list, image, said, place,
    ))
}

#[no_mangle]
#[inline(never)]
fn measured_plain_read(task: &mut Task) -> Result<(Header, usize, usize), u32> {
    let Task {
        blob,
        kept,
        spare,
        list,
        image,
        ..
    } = task;
    plain::read(blob, false, kept, spare, list, image)
}

#[no_mangle]
#[inline(never)]
fn measured_proved_stage(task: &mut Task) -> Result<(), u32> {
    proved_stage(task)
}

#[no_mangle]
#[inline(never)]
fn measured_proved_publish(task: &mut Task) -> Result<(), u32> {
    proved_publish(task)
}

#[no_mangle]
#[inline(never)]
fn measured_proved_both(task: &mut Task) -> Result<(), u32> {
    proved_stage(task)?;
    proved_publish(task)
}

fn proved_stage(task: &mut Task) -> Result<(), u32> {
    let (kept, image) = (&task.kept, &task.image);
    let (spare, list) = (&mut task.spare, &mut task.list);
    let (staged, place) = (&mut task.staged, &mut task.place);
    accepted(raw::stage(
        &task.blob, false, kept, spare, list, image, staged, place,
    ))
}

fn proved_publish(task: &mut Task) -> Result<(), u32> {
    let (kept, image) = (&mut task.kept, &mut task.image);
    let (spare, list) = (&task.spare, &task.list);
    let (said, place) = (&mut task.said, &mut task.place);
    accepted(raw::publish(
        &task.blob,
        false,
        &task.staged,
        kept,
        spare,
        list,
        image,
        said,
        place,
    ))
}

#[no_mangle]
#[inline(never)]
fn measured_proved_steps(task: &mut Task) -> Result<(), u32> {
    proved_steps(task)
}

fn proved_steps(task: &mut Task) -> Result<(), u32> {
    let (mut header, mut ranges) = ([0; raw::HEADER], [0; raw::RANGES]);
    let (blob, list, place) = (&task.blob, &mut task.list, &mut task.place);
    let mut said = [0; raw::WALK];
    accepted(raw::read_header(blob, &mut header, place))?;
    let spare = &mut task.spare;
    accepted(raw::prepare_mask(
        blob, &header, false, &task.kept, spare, &mut said, place,
    ))?;
    accepted(raw::read_ranges(blob, &header, &mut ranges, place))?;
    accepted(raw::walk(
        blob, &header, &ranges, spare, list, &mut said, place,
    ))?;
    let image = &mut task.image;
    for number in 0..said[0] as usize {
        let mut words = [0; raw::FILL];
        let filled = raw::fill(
            blob, &header, &ranges, spare, list, number, image, &mut words, place,
        );
        accepted(filled)?;
    }
    Ok(())
}

#[no_mangle]
#[inline(never)]
fn measured_plain_steps(task: &mut Task) -> Result<(), u32> {
    plain_steps(task)
}

fn plain_steps(task: &mut Task) -> Result<(), u32> {
    let (blob, list, image) = (&task.blob, &mut task.list, &mut task.image);
    let spare = &mut task.spare;
    let header = plain::read_header(blob)?;
    plain::prepare_mask(blob, &header, false, &task.kept, spare)?;
    let ranges = plain::read_ranges(blob, &header)?;
    let (blocks, _) = plain::walk(blob, &header, &ranges, spare, list)?;
    for number in 0..blocks {
        plain::fill(blob, &header, &ranges, spare, list, number, image)?;
    }
    Ok(())
}

#[no_mangle]
#[inline(never)]
fn measured_proved_walk(task: &mut Task) -> Result<(), u32> {
    let (header, ranges) = (&task.header_record, &task.ranges_record);
    let (list, said, place) = (&mut task.list, &mut task.said, &mut task.place);
    accepted(raw::walk(
        &task.blob,
        header,
        ranges,
        &task.spare,
        list,
        said,
        place,
    ))
}

#[no_mangle]
#[inline(never)]
fn measured_plain_walk(task: &mut Task) -> Result<(usize, usize), u32> {
    let ranges = task.ranges.as_ref().expect("a task prepared for a walk");
    let list = &mut task.list;
    plain::walk(&task.blob, &task.header, ranges, &task.spare, list)
}

#[no_mangle]
#[inline(never)]
fn measured_proved_runs(task: &mut Task) -> Result<(), u32> {
    proved_mask(task, false)
}

#[no_mangle]
#[inline(never)]
fn measured_proved_reuse(task: &mut Task) -> Result<(), u32> {
    proved_mask(task, true)
}

fn proved_mask(task: &mut Task, reuse: bool) -> Result<(), u32> {
    let (header, kept) = (&task.header_record, &task.kept);
    let (spare, said, place) = (&mut task.spare, &mut task.said, &mut task.place);
    accepted(raw::prepare_mask(
        &task.blob, header, reuse, kept, spare, said, place,
    ))
}

#[no_mangle]
#[inline(never)]
fn measured_plain_runs(task: &mut Task) -> Result<Mask, u32> {
    plain_mask(task, false)
}

#[no_mangle]
#[inline(never)]
fn measured_plain_reuse(task: &mut Task) -> Result<Mask, u32> {
    plain_mask(task, true)
}

fn plain_mask(task: &mut Task, reuse: bool) -> Result<Mask, u32> {
    let (header, kept) = (&task.header, &task.kept);
    let mask = plain::prepare_mask(&task.blob, header, reuse, kept, &mut task.spare)?;
    Ok(mask)
}

#[cfg(feature = "esri")]
#[no_mangle]
#[inline(never)]
fn measured_esri_read(task: &mut Task) -> Result<(), u32> {
    let size = task.header.size as usize;
    accepted(task.decoded.decode(&task.blob[..size], &task.header))
}

#[cfg(test)]
mod tests {
    use super::{Reader, Task, Way};
    use crate::make::{blob, Body, Sort};

    fn done(blob: &[u8], way: Way, reader: Reader) -> Task {
        let mut task = Task::prepared(blob, way).unwrap();
        task.go(way, reader).unwrap();
        task
    }

    #[test]
    fn both_readers_write_the_same() {
        let sort = Sort::plain(3, 0.5, Body::Blocks).with_holes();
        for depth in [1, 2] {
            let blob = blob(&Sort { depth, ..sort }, 50, 70);
            for way in Way::ALL.into_iter().filter(|&way| Reader::Plain.has(way)) {
                let [proved, plain] =
                    [Reader::Proved, Reader::Plain].map(|reader| done(&blob, way, reader));
                assert_eq!(proved.written(), plain.written(), "{way:?}");
            }
        }
    }

    /// Staging writes no cell and no kept mask; what follows is a whole read.
    #[test]
    fn two_calls_are_a_whole_read() {
        let plain = Sort::plain(3, 0.5, Body::Blocks);
        for sort in [
            plain,
            plain.with_holes(),
            Sort::plain(3, 0.5, Body::Raw),
            Sort::plain(3, 0.5, Body::Constant),
        ] {
            let blob = blob(&sort, 50, 70);
            let whole = done(&blob, Way::Read, Reader::Plain);
            let staged = done(&blob, Way::Stage, Reader::Proved);
            assert_eq!((&staged.spare, &staged.list), (&whole.spare, &whole.list));
            assert!(staged.image.iter().all(|&word| word == 0));
            assert!(staged.kept.iter().all(|&byte| byte == 0));
            for way in [Way::Publish, Way::Both] {
                let two = done(&blob, way, Reader::Proved);
                assert_eq!((&two.image, &two.kept), (&whole.image, &whole.kept));
                assert_eq!(two.said[0], whole.said[12]);
                assert_eq!(two.staged[..13], whole.said);
            }
        }
    }

    #[test]
    fn a_mask_is_told_by_runs_or_kept() {
        let sort = Sort::plain(3, 0.5, Body::Blocks).with_holes();
        let blob = blob(&sort, 50, 70);
        let runs = done(&blob, Way::Runs, Reader::Plain);
        let reuse = done(&blob, Way::Reuse, Reader::Plain);
        assert!(runs.header.mask > 0 && reuse.header.mask == 0);
        assert_eq!(runs.said[..2], [2, 438]);
        assert_eq!(reuse.said[..2], [1, 438]);
        assert_eq!(runs.spare, reuse.kept);
        assert!(reuse.spare.iter().all(|&byte| byte == 0));
    }
}
