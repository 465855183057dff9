//! Packs: what is opened and what is refused, what a refusal leaves, and that a
//! pack gives back the tiles that it was made of.

mod sealed;

use lerc2::{pack_length, pack_tiles, raw, read_header, stage, write_pack};
use lerc2::{Entry, Kind, Pack, Refusal, Tile, Why, MOST_TILES};

/// Bytes in front of the entries, of each entry, and where its numbers stand.
const FRONT: usize = 8;
const EACH: usize = 16;
const KIND: usize = 4;
const DEPTH: usize = 5;
const ZEROS: usize = 6;
const START: usize = 8;
const LENGTH: usize = 12;

/// One row of three pixels of a kind, all valid, with what follows its header, and
/// a true checksum.
fn blob(kind: Kind, depth: u32, after: &[u8]) -> Vec<u8> {
    let size = 70 + after.len() as u32;
    let mut blob = b"Lerc2 ".to_vec();
    for field in [4, 0, 1, 3, depth, 3, 8, size, kind as u32] {
        blob.extend(u32::to_le_bytes(field));
    }
    for number in [0.5, 10.0, 12.0] {
        blob.extend(f64::to_le_bytes(number));
    }
    blob.extend(u32::to_le_bytes(0));
    blob.extend_from_slice(after);
    sealed::seal(&mut blob);
    blob
}

/// The rules' own: 10, 11 and 12 in one block, at 74.
fn in_blocks() -> Vec<u8> {
    blob(Kind::U8, 1, &[10, 12, 0, 0, 1, 10, 0x82, 3, 0x24])
}

/// The same with other check bits.
fn broken() -> Vec<u8> {
    blob(Kind::U8, 1, &[10, 12, 0, 0, 5, 10, 0x82, 3, 0x24])
}

/// Raw words of i16, two for each pixel.
fn of_two_depths() -> Vec<u8> {
    let words = [10, 10, 12, 12].map(i16::to_le_bytes).concat();
    let cells = [10, 11, 12, 10, 11, 12].map(i16::to_le_bytes).concat();
    blob(Kind::I16, 2, &[&words[..], &[1], &cells].concat())
}

/// Three tiles, of 79, 91 and 79 bytes; the last one is broken.
fn tiles() -> Vec<(u16, u16, Vec<u8>)> {
    vec![
        (2, 513, in_blocks()),
        (2, 514, of_two_depths()),
        (770, 0, broken()),
    ]
}

fn pack() -> Vec<u8> {
    pack_tiles(&tiles()).unwrap()
}

/// Where a number of an entry stands.
fn in_entry(number: usize, behind: usize) -> usize {
    FRONT + EACH * number + behind
}

fn wrong<T>() -> Result<T, Refusal> {
    let (why, place) = (Why::WrongPack, 0);
    Err(Refusal { why, place })
}

fn no_room<T>() -> Result<T, Refusal> {
    let (why, place) = (Why::NoRoom, 0);
    Err(Refusal { why, place })
}

#[test]
fn a_pack_byte_by_byte() {
    let (first, second, third) = (in_blocks(), of_two_depths(), broken());
    let expected = [
        &[1, 0, 0, 0, 3, 0, 0, 0][..],
        &[2, 0, 1, 2, 1, 0, 0, 0, 56, 0, 0, 0, 79, 0, 0, 0],
        &[2, 0, 2, 2, 2, 1, 0, 0, 135, 0, 0, 0, 91, 0, 0, 0],
        &[2, 3, 0, 0, 1, 0, 0, 0, 226, 0, 0, 0, 79, 0, 0, 0],
        &first,
        &second,
        &third,
    ]
    .concat();
    assert_eq!(pack(), expected);
}

#[test]
fn there_and_back() {
    let (bytes, tiles) = (pack(), tiles());
    let pack = Pack::open(&bytes).unwrap();
    assert_eq!((pack.len(), pack.is_empty()), (3, false));
    assert_eq!(pack.bytes(), bytes);
    let mut start = 56;
    for (number, (row, column, blob)) in tiles.iter().enumerate() {
        let header = read_header(blob).unwrap();
        let expected = Entry {
            row: *row,
            column: *column,
            kind: header.kind,
            depth: header.depth,
            start,
            length: blob.len(),
        };
        assert_eq!(pack.entry(number), Ok(expected));
        assert_eq!(pack.body(number), Ok(&blob[..]));
        assert_eq!(&bytes[expected.range()], blob);
        start += blob.len();
    }
    assert_eq!(start, bytes.len());
    // What it gives makes the same pack again.
    let given: Vec<_> = pack.iter().map(|t| (t.row, t.column, t.blob)).collect();
    assert_eq!(pack_tiles(&given), Ok(bytes.clone()));
}

#[test]
fn no_such_tile() {
    let bytes = pack();
    let pack = Pack::open(&bytes).unwrap();
    for number in [3, 4, 1 << 32, usize::MAX / 16, usize::MAX] {
        assert_eq!(pack.entry(number), wrong());
        assert_eq!(pack.body(number), wrong());
        assert_eq!(pack.tile(number), wrong());
    }
}

#[test]
fn the_tiles_in_order() {
    let bytes = pack();
    let pack = Pack::open(&bytes).unwrap();
    let mut left = pack.len();
    let mut all = pack.iter();
    for (number, (row, column, blob)) in tiles().iter().enumerate() {
        assert_eq!((all.len(), all.size_hint()), (left, (left, Some(left))));
        let tile = all.next().unwrap();
        assert_eq!(
            (tile.row, tile.column, tile.blob),
            (*row, *column, &blob[..])
        );
        let entry = pack.entry(number).unwrap();
        assert_eq!((tile.kind, tile.depth), (entry.kind, entry.depth));
        assert_eq!(pack.tile(number), Ok(tile));
        left -= 1;
    }
    assert_eq!((all.len(), all.next(), all.next()), (0, None, None));
}

#[test]
fn the_tiles_from_both_ends() {
    let bytes = pack();
    let pack = Pack::open(&bytes).unwrap();
    let columns = |tiles: Vec<Tile>| -> Vec<u16> { tiles.iter().map(|t| t.column).collect() };
    assert_eq!(columns(pack.iter().collect()), [513, 514, 0]);
    assert_eq!(columns(pack.iter().rev().collect()), [0, 514, 513]);
    let mut seen = Vec::new();
    for tile in &pack {
        seen.push(tile);
    }
    assert_eq!(seen, pack.into_iter().collect::<Vec<_>>());
    let mut all = pack.iter();
    assert_eq!(all.next_back().map(|tile| tile.column), Some(0));
    assert_eq!(all.next().map(|tile| tile.column), Some(513));
    assert_eq!(all.next_back().map(|tile| tile.column), Some(514));
    assert_eq!((all.next_back(), all.next()), (None, None));
}

/// Blobs are of the bytes, and not of the pack that showed them.
#[test]
fn a_blob_outlives_its_pack() {
    let bytes = pack();
    let blobs: Vec<&[u8]> = {
        let pack = Pack::open(&bytes).unwrap();
        let blobs = pack.iter().map(|tile| tile.blob);
        blobs.collect()
    };
    assert_eq!(blobs[1], of_two_depths());
}

#[test]
fn the_empty_pack() {
    let none: [(u16, u16, &[u8]); 0] = [];
    let bytes = pack_tiles(&none).unwrap();
    assert_eq!(bytes, [1, 0, 0, 0, 0, 0, 0, 0]);
    let pack = Pack::open(&bytes).unwrap();
    assert_eq!((pack.len(), pack.is_empty()), (0, true));
    assert_eq!(pack.iter().next(), None);
    assert_eq!(pack.entry(0), wrong());
    for length in 0..8 {
        assert_eq!(Pack::open(&bytes[..length]), wrong());
    }
    assert_eq!(Pack::open(&[&bytes[..], &[0]].concat()), wrong());
}

#[test]
fn the_most_tiles() {
    let blob = in_blocks();
    let tile = |n: usize| ((n / 16) as u16, (n % 16) as u16, &blob);
    let most: Vec<_> = (0..MOST_TILES).map(tile).collect();
    let bytes = pack_tiles(&most).unwrap();
    let pack = Pack::open(&bytes).unwrap();
    assert_eq!(pack.len(), MOST_TILES);
    let last = pack.entry(255).unwrap();
    assert_eq!((last.row, last.column), (15, 15));
    assert_eq!(last.range().end, bytes.len());
    let one_more: Vec<_> = (0..=MOST_TILES).map(tile).collect();
    assert_eq!(pack_tiles(&one_more), wrong());
    // Nor is such a pack opened.
    let entry = |n: usize| {
        let start = (pack_length(257, 0) + 79 * n) as u32;
        let place = [tile(n).0, tile(n).1].map(u16::to_le_bytes).concat();
        let numbers = [start, 79].map(u32::to_le_bytes).concat();
        [&place[..], &[1, 0, 0, 0], &numbers].concat()
    };
    let entries: Vec<u8> = (0..257).flat_map(entry).collect();
    let front = [1, 0, 0, 0, 1, 1, 0, 0];
    let bytes = [&front[..], &entries, &blob.repeat(257)].concat();
    assert_eq!(Pack::open(&bytes), wrong());
}

/// Opening does not decode: the broken tile is refused where it is read, and the
/// others are not.
#[test]
fn a_broken_block_under_a_true_checksum() {
    let bytes = pack();
    let answers: Vec<Option<Refusal>> = Pack::open(&bytes)
        .unwrap()
        .iter()
        .map(|tile| {
            let (mut spare, mut list) = ([0], [0; 2]);
            stage(tile.blob, false, &[0], &mut spare, &mut list, &[0; 6]).err()
        })
        .collect();
    let (why, place) = (Why::WrongBlock, 74);
    assert_eq!(answers, [None, None, Some(Refusal { why, place })]);
}

/// Every byte says something: another one makes no pack, but for rows and columns
/// that still rise.
#[test]
fn each_byte_changed() {
    let bytes = pack();
    let position = |place: usize| (FRONT..56).contains(&place) && (place - FRONT) % EACH < 4;
    for place in 0..bytes.len() {
        for bit in 0..8 {
            let mut changed = bytes.clone();
            changed[place] ^= 1 << bit;
            let opened = Pack::open(&changed);
            assert!(position(place) || opened == wrong(), "{place}, bit {bit}");
        }
    }
}

/// Every length but the pack's own.
#[test]
fn cut_and_lengthened() {
    let bytes = pack();
    for length in 0..bytes.len() {
        assert_eq!(Pack::open(&bytes[..length]), wrong(), "{length}");
    }
    for more in [&[0][..], &[1], &bytes] {
        assert_eq!(Pack::open(&[&bytes[..], more].concat()), wrong());
    }
}

/// The pack with other bytes at some places.
fn changed(changes: &[(usize, &[u8])]) -> Vec<u8> {
    let mut bytes = pack();
    for (place, piece) in changes {
        bytes[*place..place + piece.len()].copy_from_slice(piece);
    }
    bytes
}

#[test]
fn the_front() {
    for (place, piece) in [
        (0, &[0][..]),
        (0, &[2]),
        (1, &[1]),
        (2, &[1]),
        (3, &[1]),
        (4, &[0]),
        (4, &[2]),
        (4, &[4]),
        (4, &[255, 255, 255, 255]),
        // So many that their entries would wrap 32 bits to the right number.
        (4, &[3, 0, 0, 16]),
    ] {
        assert_eq!(Pack::open(&changed(&[(place, piece)])), wrong());
    }
}

#[test]
fn the_order_of_tiles() {
    let place = in_entry(1, 0);
    // Row 2 and column 513 are in front, row 770 and column 0 behind.
    for (row, column, rises) in [
        (2u16, 513u16, false),
        (2, 512, false),
        (1, 514, false),
        (0, 65535, false),
        (770, 0, false),
        (770, 1, false),
        (771, 0, false),
        (2, 65535, true),
        (3, 0, true),
        (258, 1, true),
        (769, 65535, true),
    ] {
        let piece = [row, column].map(u16::to_le_bytes).concat();
        let bytes = changed(&[(place, &piece)]);
        assert_eq!(Pack::open(&bytes).is_ok(), rises, "{row}, {column}");
    }
}

#[test]
fn an_entry_and_its_blob() {
    for number in 0..3 {
        let bytes = pack();
        let entry = Pack::open(&bytes).unwrap().entry(number).unwrap();
        for kind in (0..=255).filter(|&kind| kind != entry.kind as u8) {
            let other = changed(&[(in_entry(number, KIND), &[kind])]);
            assert_eq!(Pack::open(&other), wrong(), "kind {kind}");
        }
        for depth in (0..=255).filter(|&depth| u32::from(depth) + 1 != entry.depth) {
            let other = changed(&[(in_entry(number, DEPTH), &[depth])]);
            assert_eq!(Pack::open(&other), wrong(), "depth byte {depth}");
        }
        for zeros in [[1, 0], [0, 1], [255, 255]] {
            let other = changed(&[(in_entry(number, ZEROS), &zeros)]);
            assert_eq!(Pack::open(&other), wrong());
        }
        let (start, length) = (entry.start as u32, entry.length as u32);
        for (start, length) in [
            (start - 1, length),
            (start + 1, length),
            (0, length),
            (u32::MAX, length),
            (start, length - 1),
            (start, length + 1),
            (start, 0),
            (start, u32::MAX),
            (start - 1, length + 1),
            (start + 1, length - 1),
        ] {
            let piece = [start, length].map(u32::to_le_bytes).concat();
            let other = changed(&[(in_entry(number, START), &piece)]);
            assert_eq!(Pack::open(&other), wrong(), "{start}, {length}");
        }
    }
}

/// Entries that agree with each other and with the pack's length, and not with
/// the blobs: a byte of one counted to the next, and two starts exchanged.
#[test]
fn bodies_by_other_borders() {
    let longer = [135 + 1u32, 90].map(u32::to_le_bytes).concat();
    let piece = 80u32.to_le_bytes();
    let shifted = changed(&[(in_entry(0, LENGTH), &piece), (in_entry(1, START), &longer)]);
    assert_eq!(Pack::open(&shifted), wrong());
    let (first, last) = (56u32.to_le_bytes(), 226u32.to_le_bytes());
    let turned = changed(&[(in_entry(0, START), &last), (in_entry(2, START), &first)]);
    assert_eq!(Pack::open(&turned), wrong());
}

/// A gap, and a tile that stands behind another's place.
#[test]
fn a_gap_between_blobs() {
    let mut bytes = pack();
    bytes.insert(135, 0);
    for (number, start) in [(1, 136u32), (2, 227)] {
        let place = in_entry(number, START);
        bytes[place..place + 4].copy_from_slice(&start.to_le_bytes());
    }
    assert_eq!(Pack::open(&bytes), wrong());
}

/// Blobs whose header is refused, by each of its numbers.
fn refused_blobs() -> Vec<Vec<u8>> {
    let blob = in_blocks();
    let with = |place: usize, byte: u8, is_sealed: bool| {
        let mut blob = blob.clone();
        blob[place] = byte;
        if is_sealed {
            sealed::seal(&mut blob);
        }
        blob
    };
    vec![
        blob[..69].to_vec(),
        with(0, b'M', true),
        with(6, 5, true),
        with(38, 8, true),
        with(30, 17, true),
        with(34, 80, true),
        with(10, blob[10] ^ 1, false),
        with(78, 0x25, false),
        Vec::new(),
    ]
}

#[test]
fn a_header_that_is_refused() {
    for blob in refused_blobs() {
        assert!(read_header(&blob).is_err());
        assert_eq!(pack_tiles(&[(0, 0, &blob)]), wrong());
        let right = in_blocks();
        let second = [(0, 0, &right), (0, 1, &blob), (0, 2, &right)];
        assert_eq!(pack_tiles(&second), wrong());
        // By hand, with an entry as a right blob has it.
        let numbers = [24, blob.len() as u32].map(u32::to_le_bytes).concat();
        let front = [1, 0, 0, 0, 1, 0, 0, 0, 0, 0, 0, 0, 1, 0, 0, 0];
        let bytes = [&front[..], &numbers, &blob].concat();
        assert_eq!(Pack::open(&bytes), wrong());
    }
}

/// A blob that is longer than it declares is read alone, and not in a pack.
#[test]
fn bytes_behind_a_blob() {
    let longer = [&in_blocks()[..], &[0]].concat();
    assert!(read_header(&longer).is_ok());
    assert_eq!(pack_tiles(&[(0, 0, &longer)]), wrong());
    let numbers = [24u32, 80].map(u32::to_le_bytes).concat();
    let front = [1, 0, 0, 0, 1, 0, 0, 0, 0, 0, 0, 0, 1, 0, 0, 0];
    let bytes = [&front[..], &numbers, &longer].concat();
    assert_eq!(Pack::open(&bytes), wrong());
}

/// What `write_pack` is given, and the slice that it is lent, with marks.
#[derive(Clone)]
struct Given {
    rows: Vec<u16>,
    columns: Vec<u16>,
    lengths: Vec<usize>,
    bodies: Vec<u8>,
    pack: Vec<u8>,
}

const MARK: u8 = 0xA5;

impl Given {
    fn right() -> Given {
        let tiles = tiles();
        Given {
            rows: tiles.iter().map(|tile| tile.0).collect(),
            columns: tiles.iter().map(|tile| tile.1).collect(),
            lengths: tiles.iter().map(|tile| tile.2.len()).collect(),
            bodies: tiles.iter().flat_map(|tile| tile.2.clone()).collect(),
            pack: vec![MARK; 320],
        }
    }

    /// A refusal must leave the slice.
    fn write(&mut self) -> Result<usize, Refusal> {
        let before = self.pack.clone();
        let (rows, columns, lengths) = (&self.rows, &self.columns, &self.lengths);
        let answer = write_pack(rows, columns, lengths, &self.bodies, &mut self.pack);
        if answer.is_err() {
            assert_eq!(self.pack, before);
        }
        answer
    }
}

#[test]
fn written_into_a_lent_slice() {
    let length = pack().len();
    assert_eq!((pack_length(3, 249), length), (305, 305));
    let mut given = Given::right();
    assert_eq!(given.write(), Ok(length));
    assert_eq!(given.pack[..length], pack());
    assert_eq!(given.pack[length..], [MARK; 15]);
    // Just enough room.
    given.pack = vec![MARK; length];
    assert_eq!(given.write(), Ok(length));
    assert_eq!(given.pack, pack());
    for room in 0..length {
        given.pack = vec![MARK; room];
        assert_eq!(given.write(), no_room(), "{room}");
    }
}

#[test]
fn nothing_is_written_of_no_pack() {
    let changes: [fn(&mut Given); 16] = [
        |given| given.rows.truncate(2),
        |given| given.columns.truncate(2),
        |given| given.lengths.truncate(2),
        |given| given.rows.push(771),
        |given| given.columns.push(1),
        |given| given.lengths.push(0),
        |given| given.rows[1] = 1,
        |given| given.columns[1] = 513,
        |given| given.rows[2] = 2,
        |given| given.lengths[0] += 1,
        |given| given.lengths[2] += 1,
        |given| given.lengths[1] -= 1,
        // Sums that wrap to the right one.
        |given| given.lengths = vec![usize::MAX, 80, 170],
        |given| given.bodies.truncate(248),
        |given| given.bodies.push(0),
        |given| given.bodies[10] ^= 1,
    ];
    for (number, change) in changes.into_iter().enumerate() {
        let mut given = Given::right();
        change(&mut given);
        assert_eq!(given.write(), wrong(), "change {number}");
        // It comes before room.
        given.pack.clear();
        assert_eq!(given.write(), wrong(), "change {number}, no room");
    }
}

/// A blob with its own kind and depth under another's length: borders that are
/// not those of the blobs.
#[test]
fn lengths_of_other_blobs() {
    let mut given = Given::right();
    given.lengths.swap(0, 1);
    assert_eq!(given.write(), wrong());
}

#[test]
fn an_empty_pack_needs_eight_bytes() {
    let mut room = [MARK; 9];
    assert_eq!(write_pack(&[], &[], &[], &[], &mut room), Ok(8));
    assert_eq!(room, [1, 0, 0, 0, 0, 0, 0, 0, MARK]);
    let mut room = [MARK; 7];
    assert_eq!(write_pack(&[], &[], &[], &[], &mut room), no_room());
    assert_eq!(write_pack(&[], &[], &[], &[0], &mut room), wrong());
    assert_eq!(room, [MARK; 7]);
}

#[test]
fn lengths_that_no_pack_has() {
    assert_eq!(pack_length(0, 0), 8);
    assert_eq!(pack_length(256, 1 << 32), 4104 + (1 << 32));
    assert_eq!(pack_length(usize::MAX, usize::MAX), usize::MAX);
    assert_eq!(pack_length(0, usize::MAX), usize::MAX);
}

/// A `Pack` is made by opening alone, so that its count is that of its bytes. The
/// entry of the C interface takes any count and any bytes.
#[test]
fn a_count_that_was_made_up() {
    let bytes = pack();
    let asked = |bytes: &[u8], tiles: usize, number: usize| {
        let (mut entry, mut place) = ([7; raw::PACK_ENTRY + 1], [7; 2]);
        let said = raw::pack_entry(bytes, tiles, number, &mut entry, &mut place);
        assert_eq!((place, entry[raw::PACK_ENTRY]), ([0, 7], 7));
        let given = entry[..raw::PACK_ENTRY] != [7; raw::PACK_ENTRY];
        assert_eq!((said, given), if given { (0, true) } else { (12, false) });
        given.then_some([entry[0], entry[1], entry[2], entry[3], entry[4], entry[5]])
    };
    let first = Some([2, 513, 1, 1, 56, 79]);
    for tiles in [1, 3, 4, 257, usize::MAX] {
        assert_eq!(asked(&bytes, tiles, 0), first);
    }
    assert_eq!(asked(&bytes, 0, 0), None);
    assert_eq!(asked(&bytes, 3, 3), None);
    // Behind the entries stands the first blob, which says no place in the pack.
    assert_eq!(asked(&bytes, 4, 3), None);
    for number in [18, 19, 1 << 28, 1 << 60, usize::MAX / 16, usize::MAX] {
        assert_eq!(asked(&bytes, usize::MAX, number), None);
    }
    // Within the pack nothing else is judged again.
    let odd = changed(&[(in_entry(0, KIND), &[200, 255, 9, 9])]);
    assert_eq!(asked(&odd, 3, 0), Some([2, 513, 200, 256, 56, 79]));
    for (start, length, lies_within) in [
        (0u32, 305u32, true),
        (305, 0, true),
        (304, 1, true),
        (0, 306, false),
        (306, 0, false),
        (305, 1, false),
        (u32::MAX, 1, false),
        (1, u32::MAX, false),
        (u32::MAX, u32::MAX, false),
    ] {
        let piece = [start, length].map(u32::to_le_bytes).concat();
        let other = changed(&[(in_entry(0, START), &piece)]);
        let expected = [2, 513, 1, 1, start.into(), length.into()];
        assert_eq!(asked(&other, 3, 0), lies_within.then_some(expected));
    }
    // Sixteen bytes that are not all there.
    for length in 0..24 {
        assert_eq!(asked(&bytes[..length], 3, 0), None);
    }
}

/// The three entries with slices for record and place.
type Called = fn(&[u8], &mut [u8], &mut [u64], &mut [u64]) -> u32;

const ENTRIES: [(&str, usize, Called); 3] = [
    ("open", raw::PACK_OPEN, |pack, _, said, place| {
        raw::pack_open(pack, said, place)
    }),
    ("entry", raw::PACK_ENTRY, |pack, _, said, place| {
        raw::pack_entry(pack, 3, 1, said, place)
    }),
    ("write", raw::PACK_WRITE, |pack, room, said, place| {
        let bodies = pack.get(56..).unwrap_or(&[]);
        let (rows, columns, lengths) = ([2, 2, 770], [513, 514, 0], [79, 91, 79]);
        raw::pack_write(&rows, &columns, &lengths, bodies, room, said, place)
    }),
];

#[test]
fn records_and_places() {
    let bytes = pack();
    for (name, numbers, called) in ENTRIES {
        for pack in [&bytes[..], &[]] {
            // Without room for a place nothing is written, with it a 0.
            for (said_room, place_room) in [(numbers, 0), (0, 0), (numbers - 1, 1), (0, 2)] {
                let (mut room, mut said, mut place) =
                    ([MARK; 400], vec![7; said_room], vec![7; place_room]);
                assert_eq!(called(pack, &mut room, &mut said, &mut place), 5, "{name}");
                assert_eq!((room, said), ([MARK; 400], vec![7; said_room]), "{name}");
                assert_eq!(place, [0, 7][..place_room], "{name}");
            }
        }
        let (mut said, mut place) = (vec![7; numbers + 1], [7; 2]);
        let refused = called(&[], &mut [], &mut said, &mut place);
        assert_eq!((refused, place), (12, [0, 7]), "{name}");
        assert_eq!(said, vec![7; numbers + 1], "{name}");
        let (mut room, mut place) = ([MARK; 400], [7; 2]);
        let accepted = called(&bytes, &mut room, &mut said, &mut place);
        assert_eq!((accepted, place, said[numbers]), (0, [0, 7], 7), "{name}");
    }
}

#[test]
fn told_in_words() {
    let refusal = Pack::open(&[]).unwrap_err();
    assert_eq!(refusal.to_string(), "refused 12 at 0");
    assert_eq!(refusal.number(), 12);
    let sentence = refusal.where_to_look();
    assert!(sentence.starts_with("the pack breaks a rule or has no such tile; see "));
    assert!(sentence.contains("the number that was asked for"));
}
