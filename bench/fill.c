/* One tile of 8 x 8 pixels, in one packed block for each depth: its ranges are read, it is walked, its last block is filled
 * or all of it is read, so many times. Built by fill.sh, over this archive or an older one: a record of ranges is lent as it
 * was read, so that its length is the archive's own affair. */
#include "lerc2.h"

#include <stdio.h>
#include <stdlib.h>
#include <string.h>

#define SIDE 8
#define PIXELS (SIDE * SIDE)
#define BITS 3 /* of a count: 0 to 7 */
#define LEAST 10
#define MOST (LEAST + 2 * 7) /* of the greatest count, by an error of 1 */
#define BLOCK (4 + 4 + PIXELS * BITS / 8)
enum { RIGHT, WRONG, UNKNOWN, REFUSED }; /* how the program ends */
enum { U8 = 1, F32 = 6, DEPTHS = (LERC2_RANGES - LERC2_RANGES_MIN) / 2 };

static uint8_t blob[70 + (2 * 4 + BLOCK) * DEPTHS + 1], mask[PIXELS / 8], spare[PIXELS / 8];
static uint64_t header[LERC2_HEADER], ranges[LERC2_RANGES], image[PIXELS * DEPTHS], place[1];
static uint64_t said[LERC2_READ];
static size_t list[DEPTHS], size;
static int kind, depth;

/* ---- the blob */

static uint8_t *put(uint8_t *at, uint64_t v, int bytes) {
    for (int i = 0; i < bytes; i++) *at++ = (uint8_t)(v >> (8 * i));
    return at;
}

static uint64_t word(int number) {
    float real = (float)number;
    uint32_t bits;
    memcpy(&bits, &real, sizeof bits);
    return kind == F32 ? bits : (uint64_t)number;
}

static uint8_t *put_word(uint8_t *at, int number) { return put(at, word(number), kind == F32 ? 4 : 1); }

static uint8_t *put_real(uint8_t *at, double number) {
    uint64_t bits;
    memcpy(&bits, &number, sizeof bits);
    return put(at, bits, 8);
}

static int count_of(int pixel) { return pixel % 8; }

/* an offset and a packed count for each pixel */
static uint8_t *put_block(uint8_t *at) {
    at = put_word(put(at, 1, 1), LEAST);
    at = put(put(at, 0x80 + BITS, 1), PIXELS, 1);
    for (int pixel = 0; pixel < PIXELS; pixel += 8) {
        uint64_t eight = 0;
        for (int i = 0; i < 8; i++) eight |= (uint64_t)count_of(pixel + i) << (BITS * i);
        at = put(at, eight, BITS);
    }
    return at;
}

static void make(void) {
    uint8_t *at = blob + 70;
    for (int d = 0; d < depth; d++) at = put_word(at, LEAST);
    for (int d = 0; d < depth; d++) at = put_word(at, MOST);
    at = put(at, 0, 1);
    for (int d = 0; d < depth; d++) at = put_block(at);
    size = (size_t)(at - blob);
    const uint32_t fields[] = {SIDE, SIDE, (uint32_t)depth, PIXELS, SIDE, (uint32_t)size, (uint32_t)kind};
    memcpy(blob, "Lerc2 ", 6);
    at = put(blob + 6, 4, 8);
    for (size_t n = 0; n < sizeof fields / sizeof *fields; n++) at = put(at, fields[n], 4);
    at = put_real(put_real(put_real(at, 1), LEAST), MOST);
    put(at, 0, 4);
    put(blob + 10, lerc2_checksum(blob + 14, size - 14), 4);
}

/* ---- the calls */

static uint32_t prepare_mask(void) {
    return lerc2_prepare_mask(blob, size, header, LERC2_HEADER, false, spare, sizeof spare, mask, sizeof mask, said, 2, place, 1);
}

static uint32_t read_ranges(void) {
    return lerc2_read_ranges(blob, size, header, LERC2_HEADER, ranges, LERC2_RANGES, place, 1);
}

static uint32_t walk(void) {
    return lerc2_walk(blob, size, header, LERC2_HEADER, ranges, LERC2_RANGES, mask, sizeof mask, list, (size_t)depth, said, 2,
                      place, 1);
}

static uint32_t fill(void) {
    return lerc2_fill(blob, size, header, LERC2_HEADER, ranges, LERC2_RANGES, mask, sizeof mask, list, (size_t)depth,
                      (size_t)depth - 1, image, (size_t)(PIXELS * depth), said, 1, place, 1);
}

static uint32_t whole(void) {
    return lerc2_read(blob, size, false, mask, sizeof mask, spare, sizeof spare, list, (size_t)depth, image,
                      (size_t)(PIXELS * depth), said, LERC2_READ, place, 1);
}

/* what comes before a fill, once; the mask has every pixel, since they all are valid */
static uint32_t prepared(void) {
    uint32_t why = lerc2_read_header(blob, size, header, LERC2_HEADER, place, 1);
    if (why == 0) why = prepare_mask();
    if (why == 0) why = read_ranges();
    return why == 0 ? walk() : why;
}

/* the last depth of each pixel, and no other cell */
static int is_right(void) {
    if (fill() != 0 || said[0] != PIXELS) return 0;
    for (int c = 0; c < PIXELS * depth; c++)
        if (image[c] != (c % depth == depth - 1 ? word(LEAST + 2 * count_of(c / depth)) : 0)) return 0;
    return 1;
}

int main(int words, char **given) {
    static const struct {
        const char *name;
        uint32_t (*call)(void);
    } ways[] = {{"read_ranges", read_ranges}, {"walk", walk}, {"fill", fill}, {"read", whole}};
    if (words != 5) {
        fputs("fill: KIND (u8 or f32), DEPTH, WAY (read_ranges, walk, fill or read) and how many calls\n", stderr);
        return UNKNOWN;
    }
    kind = strcmp(given[1], "f32") == 0 ? F32 : U8;
    depth = atoi(given[2]);
    if (depth < 1 || depth > DEPTHS) return UNKNOWN;
    make();
    uint32_t why = prepared();
    if (why != 0) return printf("refused %u\n", why), REFUSED;
    if (!is_right()) return WRONG;
    for (size_t n = 0; n < sizeof ways / sizeof *ways; n++)
        for (int i = strcmp(given[3], ways[n].name) == 0 ? atoi(given[4]) : 0; i > 0; i--)
            if (ways[n].call() != 0) return WRONG;
    return RIGHT;
}
