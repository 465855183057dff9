/* Lerc2 version 4 blobs, alone or many in one pack, read by functions that are proved (crates/lerc_c).
 *
 * Link target/staticlib/liblerc_c.a, which tools/archive.sh proves and writes; x86-64 only. It needs memcpy and memset and
 * nothing else: no allocation, no input or output, no state between calls. docs/API.md says how much stack a call needs.
 *
 * Answers. Every function that can refuse returns 0 where it accepts, else the number of the refusal:
 *    1  a field, number or packed run passes the declared size, or the blob is shorter than it or than 70 bytes
 *    2  key or version differs
 *    3  a header field breaks its rule, or a number of a record does not fit its field; or lerc2_publish is given an
 *       answer, spare or list that staging did not give
 *    4  a ceiling is passed
 *    5  a slice is too short: place, kept mask, spare mask, mask, image, list, pack, or a record
 *    6  mask section wrong, or a mask would be reused that must not be or has another count of valid pixels
 *    7  a range number not finite, or a maximum less than its minimum
 *    8  block, sweep or mode byte wrong; of a Huffman image the table, or bits that begin no code
 *    9  a value does not fit its integer kind
 *   10  walk on a body not in blocks
 *   11  block number at or above the count
 *   12  a pack breaks a rule, or does not have the entry that is asked for; or the tiles that are given make no pack
 *   13  the checksum is not that of the blob's bytes from 14 up to its size
 * Reading goes front to back, and the first failing read decides the number, and with it the place.
 *
 * Places. The last slice of every function that can refuse is `place`, which needs room for one number. Without it the
 * call is refused before anything else (5), and then nothing at all is written. Else place[0] is written in every
 * outcome: 0 where the call accepts, the place of the refusal where it refuses; the rest of the slice stays. A place is
 * an offset from the blob's first byte, by the number of the refusal:
 *    1  inside a block: its flag byte, or where that should be (in a fill the listed start as given, however far out)
 *       sweep or mode byte missing: where it should be
 *       raw body: the first byte of the first word that is not whole within the size
 *       Huffman image: its mode byte
 *       the ranges do not fit: their first byte
 *       blob shorter than its size or than 70 bytes: 0
 *    6  66, the header's count of mask bytes
 *    7  the first byte of the first wrong number, depth by depth: of the minimum where it is not finite, else of the
 *       maximum, which is not finite or less than the minimum; 0 in a walk and a fill, whose ranges are given by value
 *    8  inside a block: its flag byte; of a Huffman image: its mode byte; else the wrong sweep or mode byte
 *    9  inside a block: its flag byte; else (a constant body, lerc2_stored) 0
 *   10  the sweep byte of a raw body, the mode byte of a Huffman image, 0 for an empty or constant body
 *    2, 3 (of an answer, spare or list too), 4, 5, 11, 12, 13: 0
 * Inside a block are its check bits, offset, counts, raw words and values. The ranges begin at 70 + mask bytes: all
 * minima, then all maxima, each of the kind's size. Behind them comes the sweep byte, and where it is 0, of kinds 0 and 1
 * with error 0.5, the mode byte: 0 for blocks, 1 or 2 for a Huffman image. A walk looks for them where its ranges say that
 * the body begins.
 *
 * Slices. Each is a pointer and a count of elements (not bytes). The pointer must not be null, also where the count is
 * 0; it must be aligned for its type and point to that many initialised elements. What is written (no `const`) must not
 * overlap any other slice of the same call. That, and a float unit as below, is all that is asked: any contents and any
 * counts are answered. Longer than needed is fine, and what is past the need stays as it was.
 *
 * The float unit. Finite numbers are added and multiplied by the machine's own binary64, and so are values clamped. The
 * calling thread must have it as the system gives it to a program. Each thread has its own:
 *    x86-64, MXCSR: rounding control at nearest; flush to zero (FTZ) and denormals are zeros (DAZ) off; every exception
 *      masked. A program that is linked with -ffast-math may begin with FTZ and DAZ on.
 *    arm64, FPCR: RMode at nearest; FZ off, and so AH, FIZ and NEP where there is FEAT_AFP; no trap enabled.
 * lerc2_float_ready finds another rounding and any flushing. It does not find a trap that is enabled: that is taken in
 * the middle of a call, this one too. A call may raise the sticky exception flags (MXCSR, FPSR) and changes nothing else
 * of the unit. An archive that is built to compute over whole numbers alone (TRUSTED in
 * crates/lerc_numeric/src/machine.rt) has no float arithmetic, and asks nothing of it.
 *
 * Records. A header, ranges, an entry of a pack and what a function says are arrays of uint64_t. After `place`, a
 * record slice that is too short is refused (5), then a number that its field cannot hold (3: a header field of 2^32 or
 * more, a constant mark that is neither 0 nor 1), then what the function's own comment lists, in that order. A staged
 * answer with a number that no answer has is one that staging did not give, which comes last. After any refusal every
 * record is as it was. On acceptance a record's first entries are written and the rest stay.
 *
 * How half-new terrain is avoided. lerc2_stage does all of the checking and writes neither image nor kept mask, so that a
 * unit can steer by the old image meanwhile. Then lerc2_publish, under the caller's own lock, checks again, and only then
 * writes: all valid cells, then the mask. A refusal of either leaves image and kept mask as they were. So a unit that
 * looks at the image under that lock finds the old terrain or the new, and never a part of each. Threads, locks and
 * fences are the caller's: while a call runs, no other thread may write what is lent to it, nor read what it writes.
 *
 * Sizes that follow from a header: pixels = rows * columns; a mask has (pixels + 7) / 8 bytes; there are
 * ceil(rows / side) * ceil(columns / side) * depth blocks; cells = pixels * depth. Room is judged from the header
 * alone, for every slice that is lent, whatever the body.
 *
 * Pixel p is bit 7 - p % 8 of byte p / 8 of a mask. The word of pixel p at depth d stands at p * depth + d of an
 * image: the sample's own bits, zero-extended. Cells of pixels that are not valid are never written.
 */
#ifndef LERC2_H
#define LERC2_H

#include <stdbool.h>
#include <stddef.h>
#include <stdint.h>

#ifdef __cplusplus
extern "C" {
#endif

/* the numbers of a header's record; all but error, min and max are below 2^32. Error, min and max are the bits of a
 * double */
enum {
    LERC2_ROWS,
    LERC2_COLUMNS,
    LERC2_DEPTH,
    LERC2_VALID,
    LERC2_SIDE,
    LERC2_SIZE,
    LERC2_KIND,
    LERC2_ERROR,
    LERC2_MIN,
    LERC2_MAX,
    LERC2_MASK,
    LERC2_HEADER /* how many numbers */
};

/* the numbers of a record of ranges: where the body begins, the constant mark (0 or 1), then the bits of 64 minima and of
 * 64 maxima, one for each depth */
enum {
    LERC2_RANGES_AT,
    LERC2_RANGES_CONSTANT,
    LERC2_RANGES_MIN,
    LERC2_RANGES_MAX = 66,
    LERC2_RANGES = 130 /* how many numbers */
};

/* what lerc2_read says: the header, then these */
enum {
    LERC2_READ_BLOCKS = LERC2_HEADER,
    LERC2_READ_END,
    LERC2_READ /* how many numbers */
};

/* a staged answer: the header, then these. It begins as what lerc2_read says */
enum {
    LERC2_STAGED_BLOCKS = LERC2_HEADER,
    LERC2_STAGED_END,
    LERC2_STAGED_BODY,   /* LERC2_EMPTY, LERC2_CONSTANT, LERC2_RAW, LERC2_BLOCKS or LERC2_HUFFMAN */
    LERC2_STAGED_MASK,   /* LERC2_KEPT or LERC2_SPARE */
    LERC2_STAGED_LENGTH, /* of the mask, in bytes */
    LERC2_STAGED         /* how many numbers */
};

/* what a body is: of no valid pixel, of one value for each depth, of words, in blocks, or a Huffman image of bytes */
enum { LERC2_EMPTY, LERC2_CONSTANT, LERC2_RAW, LERC2_BLOCKS, LERC2_HUFFMAN };

/* which slice holds the mask in force: what lerc2_prepare_mask says first, and a staged answer among other things */
enum { LERC2_KEPT = 1, LERC2_SPARE = 2 };

/* the numbers of a pack's entry: where the tile stands in the field, what its blob's header says, where the blob stands
 * in the pack */
enum {
    LERC2_ENTRY_ROW,
    LERC2_ENTRY_COLUMN,
    LERC2_ENTRY_KIND,
    LERC2_ENTRY_DEPTH,
    LERC2_ENTRY_START,
    LERC2_ENTRY_LENGTH,
    LERC2_ENTRY /* how many numbers */
};

/* the most tiles of a pack */
enum { LERC2_TILES = 256 };

/* Whether the calling thread's float unit rounds as the reader needs: some telling operands are added, multiplied and
 * clamped by the machine and over whole numbers. `mix` is 0; any other word tries other operands (each is xor-ed with
 * it), which may tell less. To be asked by each thread before it reads, and again where something else may have changed
 * the unit.
 * True: the words were alike. An archive that computes over whole numbers alone always says so.
 * False: they were not, and no other function may be called by this thread until the unit is put right: it could answer
 *   and write other words than the rules say. */
bool lerc2_float_ready(uint64_t mix);

/* The header of a blob.
 * Refuses 5 (place under 1), 5 (header under 11), 1 (blob under 70 bytes), 2, 3, 4, 1 (blob shorter than its declared
 * size), 13. All bytes up to the size are summed for that; bytes behind it are not looked at.
 * Accepted: header[0 .. 10] is the header, place[0] is 0.
 * Refused: header is as it was, place[0] is 0. */
uint32_t lerc2_read_header(const uint8_t *blob, size_t blob_count, uint64_t *header, size_t header_count,
                           uint64_t *place, size_t place_count);

/* A whole blob: lerc2_stage and lerc2_publish, one after the other, and nothing else. `kept` is the mask of the blob
 * before, and is used for a blob without one where reuse is true.
 * Refuses 5 (place under 1), 5 (said under 13), then the header's 1, 2, 3, 4, 1, 13; 5 (kept, spare, list or image too
 * short); 6 (mask); 1, 7 (ranges); 9 (constant body); 1, 8 (sweep and mode byte); 1 (raw body); 1, 8, 9 (block by block);
 * 1, 8 (Huffman image).
 * Accepted: said[0 .. 10] is the header, said[11] the count of blocks (0 for a body without blocks), said[12] where the
 *   body ends. The valid cells of the image hold their words. The first mask bytes of kept are the mask in force, and
 *   so are those of spare unless the kept mask was reused. list[0 .. blocks - 1] is where each block begins.
 *   place[0] is 0.
 * Refused: said, kept, list and image are as they were. So is spare, but for one case: where the mask section was
 *   accepted and no mask was reused, its first mask bytes are the new mask. place[0] is the place, see "Places". */
uint32_t lerc2_read(const uint8_t *blob, size_t blob_count, bool reuse, uint8_t *kept, size_t kept_count, uint8_t *spare,
                    size_t spare_count, size_t *list, size_t list_count, uint64_t *image, size_t image_count,
                    uint64_t *said, size_t said_count, uint64_t *place, size_t place_count);

/* ---- A whole blob in two calls: all of the checking, then all of the writing. */

/* All of the checking of a whole read: the new mask is left in the spare, the starts of the blocks in the list. Image
 * and kept are not written; the image is lent for its room alone, and its words are not looked at.
 * Refuses 5 (place under 1), 5 (staged under 16), then as lerc2_read: the header's 1, 2, 3, 4, 1, 13; 5 (kept, spare,
 * list or image too short); 6 (mask); 1, 7 (ranges); 9 (constant body); 1, 8 (sweep and mode byte); 1 (raw body); 1, 8, 9
 * (block by block); 1, 8 (Huffman image).
 * Accepted: staged[0 .. 10] is the header, staged[11] the count of blocks (0 for a body without blocks), staged[12] where
 *   the body ends, staged[13] what the body is, staged[14] which slice holds the mask in force, staged[15] its length. The
 *   first staged[15] bytes of spare are the new mask where staged[14] is LERC2_SPARE, else spare is as it was.
 *   list[0 .. blocks - 1] is where each block begins; for a body without blocks the list is as it was. place[0] is 0.
 * Refused: staged and list are as they were. So is spare, but for one case: where the mask section was accepted and no
 *   mask was reused, its first mask bytes are the new mask. place[0] is the place, see "Places". */
uint32_t lerc2_stage(const uint8_t *blob, size_t blob_count, bool reuse, const uint8_t *kept, size_t kept_count,
                     uint8_t *spare, size_t spare_count, size_t *list, size_t list_count, const uint64_t *image,
                     size_t image_count, uint64_t *staged, size_t staged_count, uint64_t *place, size_t place_count);

/* All of the writing, for the blob that was staged: with the answer, spare and list as lerc2_stage left them. Everything
 * is checked again before anything is written; the body is judged by the mask that the blob gives, whatever the spare
 * holds.
 * Refuses 5 (place under 1), 5 (staged under 16, said under 2), then what lerc2_stage refuses of these inputs, with its
 * place: the header's 1, 2, 3, 4, 1, 13; 5 (kept, spare, list or image too short); 6 (mask); 1, 7 (ranges); 9 (constant
 * body); 1, 8 (sweep and mode byte); 1 (raw body); 1, 8, 9 (block by block); 1, 8 (Huffman image); last 3, where
 * staged[0 .. 15] is not the answer that lerc2_stage gives for these inputs, or the first mask bytes of spare are not
 * the new mask, or list[0 .. blocks - 1] is not where the blocks begin. Not looked at are the spare behind the mask, and
 * all of it where the kept mask is reused; the list behind the blocks, and all of it for a body without blocks. A kept
 * mask that was changed since, with its count still right, is published by, where the answer and the starts are the
 * same.
 * Accepted: said[0] is where the body ends, said[1] how many words were written: valid pixels times depth. The valid
 *   cells of the image hold their words, and the first mask bytes of kept are the mask in force, so that image, kept and
 *   end are those of lerc2_read. place[0] is 0. The same call once more is accepted and changes nothing more, and so is
 *   one after fills.
 * Refused: kept, image and said are as they were. place[0] is the place, see "Places".
 * Staged, spare and list are not written. */
uint32_t lerc2_publish(const uint8_t *blob, size_t blob_count, bool reuse, const uint64_t *staged, size_t staged_count,
                       uint8_t *kept, size_t kept_count, const uint8_t *spare, size_t spare_count, const size_t *list,
                       size_t list_count, uint64_t *image, size_t image_count, uint64_t *said, size_t said_count,
                       uint64_t *place, size_t place_count);

/* ---- A pack of many tiles: a field in one file, whose tiles are blobs. Numbers have their lowest byte first.
 *
 *     0        the version, 1
 *     1 .. 3   zeros
 *     4 .. 7   the count of tiles, 0 to LERC2_TILES
 *     8 ..     an entry of 16 bytes for each tile, number n at 8 + 16 * n:
 *                  0, 1      row of the tile in the field
 *                  2, 3      column
 *                  4         kind, that of the blob's header
 *                  5         depth less one (0 to 63), that of the blob's header
 *                  6, 7      zeros
 *                  8 .. 11   where the blob begins, from the pack's first byte
 *                  12 .. 15  the blob's length, which is the size that it declares
 *     then the blobs, in the order of the entries, without a gap, up to the end of the pack
 *
 * Entries rise strictly, by row, and within a row by column. The header of each blob must be one that lerc2_read_header
 * accepts, the checksum included. A pack without tiles is 01 and seven zeros. A pack may have more than 2^32 bytes (256
 * tiles of 16 MiB): a start and a length fit 32 bits, a blob's end and the pack's length do not.
 *
 * Opening judges all of that, and no body. Each tile is then a blob as any other:
 *
 *     lerc2_stage(pack + entry[LERC2_ENTRY_START], entry[LERC2_ENTRY_LENGTH], ...)
 *
 * It answers for it as for a file of its own. What a header earns does not come up in a pack that was opened and has not
 * changed since; all else does: 5 (room), 6 (mask), 1, 7 (ranges), 9, 1, 8, 10 (body). A place counts from the blob's
 * first byte, so that in the pack it is entry[LERC2_ENTRY_START] + place[0]. A tile that is refused leaves the others as
 * they are. A blob without a mask of its own may reuse the kept one, as always: which tile was read before is the
 * caller's affair, and with reuse false no tile depends on another. */

/* Whether these bytes, all of them, are a pack, and of how many tiles. It is one pass over the pack: each header is read,
 * and all bytes of its blob are summed. A wrong block under a true checksum is not found here, but where the tile is
 * staged.
 * Refuses 5 (place under 1), 5 (said under 1), 12 (a rule above is broken; bytes behind the last blob break one too).
 * Accepted: said[0] is the count of tiles, place[0] is 0.
 * Refused: said is as it was, place[0] is 0. */
uint32_t lerc2_pack_open(const uint8_t *pack, size_t pack_count, uint64_t *said, size_t said_count, uint64_t *place,
                         size_t place_count);

/* The entry `number`, counted from 0, of a pack of `tiles` tiles. It is for a pack that was opened, with the count that
 * this said; but any bytes and any count are answered, with what the entry's 16 bytes say.
 * Refuses 5 (place under 1), 5 (entry under 6), 12 (number at or above tiles; the 16 bytes, or the blob that they name, do
 * not lie within the pack). Nothing else is judged again.
 * Accepted: entry[0 .. 5] is row, column, kind, depth (the byte and one more), start and length. Start plus length is at
 *   most pack_count. place[0] is 0.
 * Refused: entry is as it was, place[0] is 0. */
uint32_t lerc2_pack_entry(const uint8_t *pack, size_t pack_count, size_t tiles, size_t number, uint64_t *entry,
                          size_t entry_count, uint64_t *place, size_t place_count);

/* A pack out of tiles: rows, columns and lengths have one number for each, in the pack's order, and bodies has the blobs,
 * end to end. Kind and depth of an entry are taken from the blob's header.
 * Refuses 5 (place under 1), 5 (said under 1), 12 (rows, columns and lengths are not as many as each other; there are more
 * than LERC2_TILES; the lengths do not add up to bodies_count; rows and columns do not rise strictly; a header is refused;
 * a length is not the size that its blob declares), 5 (pack under 8 + 16 * tiles + bodies_count).
 * Accepted: said[0] is the pack's length, 8 + 16 * tiles + bodies_count. The first said[0] bytes of pack are a pack that
 *   lerc2_pack_open accepts, the rest stay. place[0] is 0. Without tiles that is the empty pack.
 * Refused: pack and said are as they were, place[0] is 0. */
uint32_t lerc2_pack_write(const uint16_t *rows, size_t rows_count, const uint16_t *columns, size_t columns_count,
                          const size_t *lengths, size_t lengths_count, const uint8_t *bodies, size_t bodies_count,
                          uint8_t *pack, size_t pack_count, uint64_t *said, size_t said_count, uint64_t *place,
                          size_t place_count);

/* ---- A blob block by block. Header and ranges are given by value: they are held to the rules again, and not compared
 * with the blob; its checksum is not tested again. */

/* The mask of a blob.
 * Refuses 5 (place under 1), 5 (header under 11, said under 2), 3 (a field of 2^32 or more), 3, 4, 1 (the header),
 * 5 (kept or spare under the mask's length, reuse or not), 6.
 * Accepted: said[0] is LERC2_KEPT or LERC2_SPARE, whichever slice holds the mask, said[1] its length. The first
 *   said[1] bytes of spare are the new mask where said[0] is LERC2_SPARE, else spare is as it was. place[0] is 0.
 * Refused: spare and said are as they were, place[0] is 66 for 6 and 0 for all else. */
uint32_t lerc2_prepare_mask(const uint8_t *blob, size_t blob_count, const uint64_t *header, size_t header_count,
                            bool reuse, const uint8_t *kept, size_t kept_count, uint8_t *spare, size_t spare_count,
                            uint64_t *said, size_t said_count, uint64_t *place, size_t place_count);

/* The ranges of a blob; `valid` is not looked at.
 * Refuses 5 (place under 1), 5 (header under 11, ranges under 130), 3 (a field of 2^32 or more), 3, 4, 1 (the header),
 * 1 (the ranges do not fit), 7.
 * Accepted: ranges[0 .. 129] is the record, place[0] is 0.
 * Refused: ranges is as it was, place[0] is the place, see "Places". */
uint32_t lerc2_read_ranges(const uint8_t *blob, size_t blob_count, const uint64_t *header, size_t header_count,
                           uint64_t *ranges, size_t ranges_count, uint64_t *place, size_t place_count);

/* Checks every block, values included, then writes where each begins.
 * Refuses 5 (place under 1), 5 (header under 11, ranges under 130, said under 2), 3 (a field of 2^32 or more, a
 * constant mark above 1), 3, 4, 1 (the header), 5 (mask or list too short), 7 (the pairs below the depth), 10 (no valid
 * pixel, or the constant mark), 1, 8, 10 (sweep and mode byte), then block by block 1, 8, 9.
 * Accepted: said[0] is the count of blocks, said[1] where the last one ends, list[0 .. said[0] - 1] the starts.
 *   place[0] is 0.
 * Refused: list and said are as they were, place[0] is the place, see "Places"; that of the sweep byte is ranges[0]. */
uint32_t lerc2_walk(const uint8_t *blob, size_t blob_count, const uint64_t *header, size_t header_count,
                    const uint64_t *ranges, size_t ranges_count, const uint8_t *mask, size_t mask_count, size_t *list,
                    size_t list_count, uint64_t *said, size_t said_count, uint64_t *place, size_t place_count);

/* One block, at its listed start. Any order and any repeats give the same image.
 * Refuses 5 (place under 1), 5 (header under 11, ranges under 130, said under 1), 3 (a field of 2^32 or more, a
 * constant mark above 1), 3, 4, 1 (the header), 11 (number), 5 (mask, list or image too short), 7 (the pairs below the
 * depth), then the block's 1, 8, 9. The constant mark, `valid`, sweep and mode byte are not looked at.
 * Accepted: said[0] is the count of words written, which is the count of valid pixels of the block's tile; the valid
 *   cells of the block hold their words, and every other cell is as it was. place[0] is 0.
 * Refused: image and said are as they were, place[0] is list[number] for the block's 1, 8, 9 and 0 for all else. */
uint32_t lerc2_fill(const uint8_t *blob, size_t blob_count, const uint64_t *header, size_t header_count,
                    const uint64_t *ranges, size_t ranges_count, const uint8_t *mask, size_t mask_count,
                    const size_t *list, size_t list_count, size_t number, uint64_t *image, size_t image_count,
                    uint64_t *said, size_t said_count, uint64_t *place, size_t place_count);

/* ---- The arithmetic. A double is its bits. Rounding is to nearest, ties to even; what is 2^1024 - 2^970 and above
 * becomes infinity; an operand that is not finite is counted as if its exponent were one above the largest, but for an
 * infinity in lerc2_sum. */

/* a + b; an infinity and a finite number, either way round, add to that infinity, bit for bit */
uint64_t lerc2_sum(uint64_t a, uint64_t b);

/* 2 * q * a */
uint64_t lerc2_scaled(uint64_t a, uint32_t q);

/* a double as the bits of a float */
uint32_t lerc2_narrow(uint64_t v);

/* a word of a kind as a double. Kinds: 0 i8, 1 u8, 2 i16, 3 u16, 4 i32, 5 u32, 6 float, 7 double. Of a wider word the
 * low bits count; a kind above 7 counts as 7 */
uint64_t lerc2_number(uint64_t word, uint32_t kind);

/* A double as a stored word of a kind: integers are cut toward zero. A kind above 7 counts as 7.
 * Refuses 5 (place under 1), 5 (said under 1), 9 (the integers of the kind do not hold it).
 * Accepted: said[0] is the word, place[0] is 0. Refused: said is as it was, place[0] is 0: there is no blob. */
uint32_t lerc2_stored(uint64_t v, uint32_t kind, uint64_t *said, size_t said_count, uint64_t *place,
                      size_t place_count);

/* ---- The checksum of these bytes. That of a blob stands at 10, four bytes, the lowest first, and is that of its bytes
 * from 14 up to its size. It is never 0. */
uint32_t lerc2_checksum(const uint8_t *bytes, size_t count);

#ifdef __cplusplus
}
#endif

#endif
