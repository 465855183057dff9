//! Packs: what is opened, what each entry says, what is refused and written.

use crate::blob::{hex, sealed, Blob};
use crate::lent::Lent;
use crate::random::Random;
use second::{
    open_pack, pack_body, pack_entry, read_header, write_pack, Entry, Pack, Refusal, MOST_TILES,
};

const WRONG: Refusal = Refusal::of(12);
const NO_ROOM: Refusal = Refusal::of(5);
const EMPTY: [u8; 8] = [1, 0, 0, 0, 0, 0, 0, 0];
/// What room is filled with.
const ROOM: u8 = 0xA5;

#[derive(Clone)]
struct Tile {
    row: u16,
    column: u16,
    blob: Vec<u8>,
}

fn tile(row: u16, column: u16, blob: &Blob) -> Tile {
    Tile {
        row,
        column,
        blob: blob.bytes(),
    }
}

/// Kind 6 with three depths, one value for each pixel.
fn deep() -> Blob {
    let blob = Blob::row(2, &[]);
    Blob {
        depth: 3,
        kind: 6,
        max: blob.min,
        ..blob
    }
}

fn three() -> Vec<Tile> {
    vec![
        tile(3, 9, &Blob::whole()),
        tile(3, 10, &deep()),
        tile(0x0104, 2, &Blob::row(4, &hex("0A 0C 00 03 0A"))),
    ]
}

/// Put together without a look at the writer.
fn packed(tiles: &[Tile]) -> Vec<u8> {
    let mut pack = vec![1, 0, 0, 0];
    pack.extend((tiles.len() as u32).to_le_bytes());
    let mut start = 8 + 16 * tiles.len();
    for tile in tiles {
        pack.extend(tile.row.to_le_bytes());
        pack.extend(tile.column.to_le_bytes());
        // The lowest bytes of the blob's kind and depth.
        pack.extend([tile.blob[38], tile.blob[22].wrapping_sub(1), 0, 0]);
        pack.extend((start as u32).to_le_bytes());
        pack.extend((tile.blob.len() as u32).to_le_bytes());
        start += tile.blob.len();
    }
    for tile in tiles {
        pack.extend(&tile.blob);
    }
    pack
}

/// The slices that the writer is lent.
struct Slices {
    rows: Vec<u16>,
    columns: Vec<u16>,
    lengths: Vec<usize>,
    bodies: Vec<u8>,
}

impl Slices {
    fn of(tiles: &[Tile]) -> Slices {
        Slices {
            rows: tiles.iter().map(|tile| tile.row).collect(),
            columns: tiles.iter().map(|tile| tile.column).collect(),
            lengths: tiles.iter().map(|tile| tile.blob.len()).collect(),
            bodies: tiles.iter().flat_map(|tile| tile.blob.clone()).collect(),
        }
    }

    /// The answer, and what is in the room afterwards.
    fn write(&self, room: usize) -> (Result<usize, Refusal>, Vec<u8>) {
        let mut pack = vec![ROOM; room];
        let answer = write_pack(
            &self.rows,
            &self.columns,
            &self.lengths,
            &self.bodies,
            &mut pack,
        );
        (answer, pack)
    }

    /// Refused so with room enough and with none, and nothing is written.
    fn refused(&self, name: &str) {
        for room in [0, 7, 8, self.bodies.len() + 10_000] {
            let (answer, pack) = self.write(room);
            assert_eq!(answer, Err(WRONG), "{name}");
            assert!(pack.iter().all(|&byte| byte == ROOM), "{name}");
        }
    }
}

fn refused(pack: &[u8], name: &str) {
    assert_eq!(open_pack(pack), Err(WRONG), "{name}");
    assert_eq!(Pack::open(pack).err(), Some(WRONG), "{name}");
}

/// A pack with some bytes of it replaced.
fn with(pack: &[u8], at: usize, bytes: &[u8]) -> Vec<u8> {
    let mut pack = pack.to_vec();
    pack[at..at + bytes.len()].copy_from_slice(bytes);
    pack
}

/// The same with the checksum of one blob mended.
fn resealed(mut tile: Tile, change: impl Fn(&mut Vec<u8>)) -> Tile {
    change(&mut tile.blob);
    tile.blob = sealed(tile.blob);
    tile
}

// ---- what a pack is

#[test]
fn the_empty_pack() {
    let pack = Pack::open(&EMPTY).unwrap();
    assert_eq!(pack.count(), 0);
    assert_eq!(pack.entry(0), Err(WRONG));
    assert!(pack.body(0).is_empty());
    assert_eq!(packed(&[]), EMPTY);
    let (answer, written) = Slices::of(&[]).write(8);
    assert_eq!((answer, written), (Ok(8), EMPTY.to_vec()));
    let (answer, written) = Slices::of(&[]).write(7);
    assert_eq!((answer, written), (Err(NO_ROOM), vec![ROOM; 7]));
    refused(&[&EMPTY[..], &[0]].concat(), "a byte behind");
}

#[test]
fn every_byte_of_the_contents() {
    let blobs = [Blob::whole().bytes(), deep().bytes()];
    assert_eq!([blobs[0].len(), blobs[1].len()], [79, 70]);
    let tiles = [
        tile(0x0102, 0x0304, &Blob::whole()),
        tile(0x0102, 0x0305, &deep()),
    ];
    let contents = hex("01 00 00 00  02 00 00 00
         02 01  04 03  01 00  00 00  28 00 00 00  4F 00 00 00
         02 01  05 03  06 02  00 00  77 00 00 00  46 00 00 00");
    let pack = [contents, blobs.concat()].concat();
    assert_eq!(open_pack(&pack), Ok(2));
    assert_eq!(Slices::of(&tiles).write(189), (Ok(189), pack.clone()));
    let opened = Pack::open(&pack).unwrap();
    let first = Entry {
        row: 0x0102,
        column: 0x0304,
        kind: 1,
        depth: 1,
        start: 40,
        length: 79,
    };
    let second = Entry {
        column: 0x0305,
        kind: 6,
        depth: 3,
        start: 119,
        length: 70,
        ..first
    };
    assert_eq!(opened.entry(0), Ok(first));
    assert_eq!(opened.entry(1), Ok(second));
    assert_eq!(opened.entry(2), Err(WRONG));
    assert_eq!([opened.body(0), opened.body(1)], [&blobs[0][..], &blobs[1]]);
    assert!(opened.body(2).is_empty());
}

#[test]
fn every_kind_and_depth() {
    for kind in 0..8 {
        for depth in [1, 2, 63, 64] {
            let blob = Blob {
                kind,
                depth,
                ..deep()
            };
            let pack = packed(&[tile(0, 0, &blob)]);
            let entry = Pack::open(&pack).unwrap().entry(0).unwrap();
            assert_eq!((entry.kind, entry.depth), (kind, depth));
            assert_eq!(u32::from(pack[13]), depth - 1);
        }
    }
    let blob = Blob {
        depth: 65,
        ..deep()
    };
    refused(&packed(&[tile(0, 0, &blob)]), "depth 65");
}

#[test]
fn order_is_by_row_then_column() {
    let pair = |a: (u16, u16), b: (u16, u16)| {
        vec![tile(a.0, a.1, &Blob::whole()), tile(b.0, b.1, &deep())]
    };
    let rising = [
        ((0, 0), (0, 1)),
        ((0, 0), (1, 0)),
        ((0, 9), (1, 0)),
        ((0, 65_535), (1, 0)),
        // Not by the lower byte, and not as signed numbers.
        ((0x00FF, 0), (0x0100, 0)),
        ((0, 0x00FF), (0, 0x0100)),
        ((0x7FFF, 0), (0x8000, 0)),
        ((0, 0x7FFF), (0, 0x8000)),
        ((65_535, 65_534), (65_535, 65_535)),
    ];
    for (a, b) in rising {
        assert_eq!(open_pack(&packed(&pair(a, b))), Ok(2), "{a:?} {b:?}");
        assert!(Slices::of(&pair(a, b)).write(1_000).0.is_ok());
        refused(&packed(&pair(b, a)), "falling");
        Slices::of(&pair(b, a)).refused("falling");
        refused(&packed(&pair(a, a)), "equal");
        Slices::of(&pair(a, a)).refused("equal");
    }
    // Of three, the last two alone.
    let mut tiles = three();
    tiles[2].row = 3;
    tiles[2].column = 10;
    refused(&packed(&tiles), "the last is equal");
    Slices::of(&tiles).refused("the last is equal");
}

#[test]
fn a_broken_body_is_accepted_and_its_tile_refused() {
    // Check bits of the one block.
    let blob = Blob {
        body: hex("0A 0C 00 00 81 0A 82 03 24"),
        ..Blob::whole()
    };
    let pack = packed(&[tile(1, 1, &Blob::whole()), tile(1, 2, &blob)]);
    let opened = Pack::open(&pack).unwrap();
    let mut lent = Lent::to_read(opened.body(1));
    let refusal = lent.stage(opened.body(1), false).unwrap_err();
    assert_eq!(refusal.number, 8);
    let mut lent = Lent::to_read(opened.body(0));
    assert!(lent.stage(opened.body(0), false).is_ok());
    let slices = Slices::of(&[tile(1, 1, &Blob::whole()), tile(1, 2, &blob)]);
    assert_eq!(slices.write(pack.len()), (Ok(pack.len()), pack));
}

// ---- each breach alone

#[test]
fn cut_anywhere() {
    for pack in [EMPTY.to_vec(), packed(&three()[..1]), packed(&three())] {
        for length in 0..pack.len() {
            refused(&pack[..length], "cut");
        }
        assert!(open_pack(&pack).is_ok());
    }
}

#[test]
fn the_front() {
    for pack in [EMPTY.to_vec(), packed(&three())] {
        for version in [0, 2, 3, 129, 255] {
            refused(&with(&pack, 0, &[version]), "version");
        }
        for at in 1..4 {
            for byte in [1, 2, 128, 255] {
                refused(&with(&pack, at, &[byte]), "zero");
            }
        }
    }
    let pack = packed(&three());
    for count in [0, 1, 2, 4, 256, 257, 3 << 8, 3 << 16, 3 << 24, u32::MAX] {
        refused(&with(&pack, 4, &count.to_le_bytes()), "count");
    }
    // The lower byte is right.
    for count in [1 << 8 | 3u32, 1 << 16 | 3, 1 << 24 | 3] {
        refused(&with(&pack, 4, &count.to_le_bytes()), "count");
    }
}

#[test]
fn zeros_of_an_entry() {
    let pack = packed(&three());
    for entry in 0..3 {
        for at in [6, 7] {
            for byte in [1, 128, 255] {
                refused(&with(&pack, 8 + 16 * entry + at, &[byte]), "zero");
            }
        }
    }
}

#[test]
fn gaps_and_overlaps() {
    let tiles = three();
    let pack = packed(&tiles);
    // Before each body and behind the last, with every later start moved.
    let starts = [56, 56 + 79, 56 + 79 + 70];
    for gap in 0..3 {
        let mut moved = pack.clone();
        for (later, start) in starts.iter().enumerate().skip(gap) {
            let start = *start as u32 + 1;
            moved = with(&moved, 8 + 16 * later + 8, &start.to_le_bytes());
        }
        moved.insert(starts[gap], 0);
        refused(&moved, "gap");
    }
    refused(&[&pack[..], &[0]].concat(), "a byte behind the last body");
    // Two entries of one body, and bodies in another order than the entries.
    let twice = [tiles[0].clone(), tile(3, 10, &Blob::whole())];
    let one = with(&packed(&twice), 8 + 16 + 8, &40u32.to_le_bytes());
    refused(&one, "the same body");
    refused(&one[..40 + 79], "the same body, and no other");
    let turned = with(&packed(&twice), 8 + 8, &(40u32 + 79).to_le_bytes());
    refused(&with(&turned, 24 + 8, &40u32.to_le_bytes()), "turned");
    refused(&with(&pack, 8 + 8, &0u32.to_le_bytes()), "start 0");
    refused(&with(&pack, 8 + 8, &56u32.to_be_bytes()), "big-endian");
}

#[test]
fn kind_depth_and_length_are_the_blobs() {
    let pack = packed(&three());
    for kind in [0, 2, 7, 8, 129, 255] {
        refused(&with(&pack, 8 + 4, &[kind]), "kind");
    }
    for depth in [0, 1, 3, 63, 64, 255] {
        refused(&with(&pack, 8 + 16 + 5, &[depth]), "depth");
    }
    // The blob has one byte more than it declares.
    for at in 0..3 {
        let mut tiles = three();
        tiles[at].blob.push(0);
        refused(&packed(&tiles), "longer than declared");
        Slices::of(&tiles).refused("longer than declared");
        tiles[at].blob.truncate(three()[at].blob.len() - 1);
        refused(&packed(&tiles), "shorter than declared");
        Slices::of(&tiles).refused("shorter than declared");
    }
    // One byte of the second blob is counted to the first.
    let moved = with(&pack, 8 + 12, &80u32.to_le_bytes());
    let moved = with(&moved, 24 + 8, &(56u32 + 80).to_le_bytes());
    refused(&with(&moved, 24 + 12, &69u32.to_le_bytes()), "a byte moved");
}

#[test]
fn headers_are_accepted_ones() {
    type Change = fn(&mut Vec<u8>);
    // The number of each by itself is told, so that it is this that is wrong.
    let changes: [(u32, Change); 7] = [
        (2, |blob| blob[0] = b'l'),
        (2, |blob| blob[6] = 3),
        (3, |blob| blob[30] = 0),
        (3, |blob| blob[42..50].copy_from_slice(&[255; 8])),
        (4, |blob| blob[30] = 17),
        (1, |blob| blob[34] += 1),
        (3, |blob| blob[66] = 255),
    ];
    for (number, change) in changes {
        for at in 0..3 {
            let mut tiles = three();
            tiles[at] = resealed(tiles[at].clone(), change);
            assert_eq!(read_header(&tiles[at].blob).unwrap_err().number, number);
            refused(&packed(&tiles), "a header that is refused");
            Slices::of(&tiles).refused("a header that is refused");
        }
    }
    for at in 0..3 {
        for byte in [10, 13] {
            let mut tiles = three();
            tiles[at].blob[byte] ^= 1;
            assert_eq!(read_header(&tiles[at].blob).unwrap_err().number, 13);
            refused(&packed(&tiles), "checksum");
            Slices::of(&tiles).refused("checksum");
        }
        let mut tiles = three();
        let last = tiles[at].blob.len() - 1;
        if last >= 70 {
            tiles[at].blob[last] ^= 1;
            assert_eq!(read_header(&tiles[at].blob).unwrap_err().number, 13);
            refused(&packed(&tiles), "checksum of the body");
            Slices::of(&tiles).refused("checksum of the body");
        }
    }
}

// ---- ceilings

fn many(count: usize) -> Vec<Tile> {
    let place = |number: usize| ((number / 16) as u16, (number % 16) as u16);
    (0..count)
        .map(|number| tile(place(number).0, place(number).1, &deep()))
        .collect()
}

#[test]
fn most_tiles_and_one_more() {
    assert_eq!(MOST_TILES, 256);
    let tiles = many(256);
    let pack = packed(&tiles);
    assert_eq!(open_pack(&pack), Ok(256));
    assert_eq!(
        Slices::of(&tiles).write(pack.len()),
        (Ok(pack.len()), pack.clone())
    );
    let entry = Pack::open(&pack).unwrap().entry(255).unwrap();
    assert_eq!((entry.row, entry.column), (15, 15));
    assert_eq!(entry.start as usize + 70, pack.len());
    refused(&packed(&many(257)), "257 tiles");
    Slices::of(&many(257)).refused("257 tiles");
}

#[test]
fn start_and_length_past_32_bits() {
    let pack = packed(&three());
    // In 32 bits they end at 56 + 79, where the first body does.
    for start in [u32::MAX, 0xFFFF_FF00, 1 << 31] {
        let length = (56u32 + 79).wrapping_sub(start);
        let far = with(&pack, 8 + 8, &start.to_le_bytes());
        let far = with(&far, 8 + 12, &length.to_le_bytes());
        refused(&far, "past 2^32");
        assert_eq!(pack_entry(&far, 3, 0), Err(WRONG));
        assert!(pack_body(&far, 3, 0).is_empty());
    }
    let most = with(&pack, 8 + 8, &[255; 8]);
    refused(&most, "both at their limit");
    assert_eq!(pack_entry(&most, 3, 0), Err(WRONG));
    let longest = with(&pack, 8 + 12, &[255; 4]);
    refused(&longest, "length at its limit");
    assert_eq!(pack_entry(&longest, 3, 0), Err(WRONG));
}

// ---- an entry by number

#[test]
fn numbers_and_counts() {
    let pack = packed(&three());
    for count in [0, 1, 2, 3] {
        for number in 0..4 {
            let given = pack_entry(&pack, count, number);
            assert_eq!(given.is_ok(), number < count, "{number} of {count}");
            let body = pack_body(&pack, count, number);
            assert_eq!(body.is_empty(), number >= count);
        }
    }
    let far = [
        usize::MAX,
        usize::MAX - 1,
        usize::MAX / 16,
        usize::MAX / 16 + 1,
        usize::MAX / 16 + 2,
        1 << 32,
        1 << 60,
        1 << 63,
        (1 << 60) + 1,
    ];
    for number in far {
        for count in [3, usize::MAX, number.saturating_add(1)] {
            assert_eq!(pack_entry(&pack, count, number), Err(WRONG));
            assert!(pack_body(&pack, count, number).is_empty());
        }
    }
    // The right number, with a count far above what is there.
    let pack = Pack {
        bytes: &pack,
        count: usize::MAX,
    };
    assert_eq!(pack.count(), usize::MAX);
    assert_eq!(pack.entry(2).unwrap().row, 0x0104);
    assert_eq!(pack.body(2), three()[2].blob);
}

#[test]
fn what_lies_in_the_bytes_is_given() {
    // The sixteen bytes behind the contents of no tiles, taken as an entry.
    let field = hex("FF FF  34 12  FF FF  FF FF  18 00 00 00  02 00 00 00");
    let pack = [&EMPTY[..], &field, &[7, 8]].concat();
    let expected = Entry {
        row: 65_535,
        column: 0x1234,
        kind: 255,
        depth: 256,
        start: 24,
        length: 2,
    };
    assert_eq!(pack_entry(&pack, 1, 0), Ok(expected));
    assert_eq!(pack_body(&pack, 1, 0), [7, 8]);
    // Neither the front nor the rest is judged.
    let any = with(&pack, 0, &[255; 8]);
    assert_eq!(pack_entry(&any, 1, 0), Ok(expected));
    // A body of no bytes may stand at the end, and not behind it.
    for (start, length, given) in [
        (26u32, 0u32, true),
        (27, 0, false),
        (0, 26, true),
        (0, 27, false),
        (25, 1, true),
        (25, 2, false),
        (26, 1, false),
    ] {
        let changed = with(&pack, 16, &start.to_le_bytes());
        let changed = with(&changed, 20, &length.to_le_bytes());
        let answer = pack_entry(&changed, 1, 0);
        assert_eq!(answer.is_ok(), given, "{start} {length}");
        assert_eq!(answer.err(), (!given).then_some(WRONG));
        let body = pack_body(&changed, 1, 0);
        assert_eq!(body.len(), if given { length as usize } else { 0 });
    }
    // The entry itself is cut.
    for length in 0..24 {
        assert_eq!(pack_entry(&pack[..length], 1, 0), Err(WRONG));
    }
}

// ---- the writer

#[test]
fn room() {
    let tiles = three();
    let pack = packed(&tiles);
    let slices = Slices::of(&tiles);
    for room in 0..pack.len() {
        let (answer, left) = slices.write(room);
        assert_eq!((answer, left), (Err(NO_ROOM), vec![ROOM; room]));
    }
    for more in [0, 1, 100] {
        let (answer, left) = slices.write(pack.len() + more);
        assert_eq!(answer, Ok(pack.len()));
        assert_eq!(left[..pack.len()], pack);
        assert_eq!(left[pack.len()..], vec![ROOM; more]);
    }
}

#[test]
fn slices_that_do_not_fit() {
    let slices = |change: fn(&mut Slices)| {
        let mut slices = Slices::of(&three());
        change(&mut slices);
        slices
    };
    slices(|s| s.rows.truncate(2)).refused("rows");
    slices(|s| s.columns.truncate(2)).refused("columns");
    slices(|s| s.lengths.truncate(2)).refused("lengths");
    slices(|s| s.rows.push(999)).refused("rows");
    slices(|s| s.columns.push(999)).refused("columns");
    slices(|s| s.lengths.push(0)).refused("lengths");
    slices(|s| s.bodies.truncate(100)).refused("bodies");
    slices(|s| s.bodies.push(0)).refused("bodies");
    slices(|s| s.bodies.clear()).refused("bodies");
    slices(|s| s.lengths[0] = 0).refused("a length of 0");
    slices(|s| s.lengths[2] = usize::MAX).refused("a length at its limit");
    // In usize and in 32 bits they add up, if they may wrap.
    slices(|s| {
        s.lengths[1] = usize::MAX - 5;
        s.lengths[2] += 6 + 70;
    })
    .refused("a sum past usize");
    slices(|s| s.lengths[0] += 1 << 32).refused("a length past 32 bits");
    slices(|s| {
        s.lengths[0] += 1;
        s.lengths[1] -= 1;
    })
    .refused("a byte moved");
    // No tiles, but one of the slices has something.
    let none = |change: fn(&mut Slices)| {
        let mut slices = Slices::of(&[]);
        change(&mut slices);
        slices
    };
    none(|s| s.rows.push(0)).refused("a row");
    none(|s| s.columns.push(0)).refused("a column");
    none(|s| s.lengths.push(0)).refused("a length");
    none(|s| s.bodies.push(0)).refused("a byte");
}

// ---- equal contents and equal bytes

fn any_tiles(random: &mut Random) -> Vec<Tile> {
    let mut places: Vec<(u16, u16)> = (0..random.below(9))
        .map(|_| (random.below(3) as u16, random.below(4) as u16))
        .collect();
    places.sort();
    places.dedup();
    let blobs = [
        Blob::whole(),
        deep(),
        Blob::row(4, &hex("0A 0C 00 03 0A")),
        Blob {
            depth: 64,
            ..deep()
        },
        Blob { kind: 3, ..deep() },
    ];
    let tiles = places.into_iter();
    tiles
        .map(|(row, column)| tile(row, column, &blobs[random.below(blobs.len())]))
        .collect()
}

/// Entries and bodies of a pack that is opened.
fn contents(pack: &[u8]) -> Vec<(Entry, Vec<u8>)> {
    let pack = Pack::open(pack).unwrap();
    (0..pack.count())
        .map(|number| (pack.entry(number).unwrap(), pack.body(number).to_vec()))
        .collect()
}

#[test]
fn what_was_written_is_read_and_written_again() {
    let mut random = Random::new(31);
    for _ in 0..500 {
        let tiles = any_tiles(&mut random);
        let pack = packed(&tiles);
        let slices = Slices::of(&tiles);
        assert_eq!(slices.write(pack.len()), (Ok(pack.len()), pack.clone()));
        let read = contents(&pack);
        assert_eq!(read.len(), tiles.len());
        for ((entry, body), tile) in read.iter().zip(&tiles) {
            let header = read_header(body).unwrap();
            assert_eq!((entry.row, entry.column), (tile.row, tile.column));
            assert_eq!((entry.kind, entry.depth), (header.kind, header.depth));
            assert_eq!(entry.length, header.size);
            assert_eq!(*body, tile.blob);
        }
        let again = Slices {
            rows: read.iter().map(|(entry, _)| entry.row).collect(),
            columns: read.iter().map(|(entry, _)| entry.column).collect(),
            lengths: read.iter().map(|(_, body)| body.len()).collect(),
            bodies: read.iter().flat_map(|(_, body)| body.clone()).collect(),
        };
        assert_eq!(again.write(pack.len()), (Ok(pack.len()), pack));
    }
}

#[test]
fn equal_contents_exactly_when_equal_bytes() {
    let mut random = Random::new(32);
    let mut packs: Vec<Vec<u8>> = (0..150).map(|_| packed(&any_tiles(&mut random))).collect();
    packs.push(EMPTY.to_vec());
    packs.push(EMPTY.to_vec());
    let read: Vec<_> = packs.iter().map(|pack| contents(pack)).collect();
    for a in 0..packs.len() {
        for b in 0..packs.len() {
            assert_eq!(packs[a] == packs[b], read[a] == read[b]);
        }
    }
}

/// Every bit of the contents is refused or shows in what is read.
#[test]
fn no_bit_is_left_out() {
    let pack = packed(&three());
    let before = contents(&pack);
    let mut accepted = 0;
    for bit in 0..8 * pack.len() {
        let mut changed = pack.clone();
        changed[bit / 8] ^= 1 << (bit % 8);
        match open_pack(&changed) {
            Ok(count) => {
                assert_eq!(count, 3);
                assert_ne!(contents(&changed), before);
                // A row or a column.
                assert!((8..56).contains(&(bit / 8)) && bit / 8 % 16 / 4 == 2);
                accepted += 1;
            }
            Err(refusal) => assert_eq!(refusal, WRONG),
        }
    }
    assert!(accepted > 40);
}
