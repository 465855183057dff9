/* lerc2_pack_open, lerc2_pack_entry and lerc2_pack_write, sentence by sentence, on packs that are made here: what each says,
 * what it leaves of every slice that it is lent, accepted and refused; every bit of a pack changed, every length but its own,
 * each rule broken by itself; counts of tiles that were made up; slices and records that are too short; what staging says of
 * the tiles. Bytes that are read stand right in front of a page that cannot be: one too many is not survived.
 *     pack         what is told above
 *     pack long    a pack of more than 2^32 bytes, too: its bytes are summed, which takes some seconds
 * Exit status: 0 as expected, 1 not so, 2 unknown words, or no such memory. */
#define _GNU_SOURCE /* memfd_create */
#include "../../include/lerc2.h"

#include <inttypes.h>
#include <stdio.h>
#include <stdlib.h>
#include <string.h>
#include <sys/mman.h>
#include <unistd.h>

/* the parts of a pack, and where the numbers of an entry stand */
enum { FRONT = 8, EACH = 16, ROW = 0, KIND = 4, DEPTH = 5, ZEROS = 6, START = 8, LENGTH = 12 };

/* three tiles, the last of which has a broken block; what is lent for writing has some bytes more than a pack of them */
enum { TILES = 3, LONGEST = 100, ROOM = 320, MARK = 0xA5 };

static void not_run(const char *why) {
    fprintf(stderr, "pack: %s\n", why);
    exit(2);
}

/* ---- what is expected of a call */

/* all that is written, with marks; no padding, since all of it is compared */
struct lent {
    uint64_t record[LERC2_ENTRY + 1], place[2];
    uint8_t pack[ROOM];
};

static struct lent marked(void) {
    struct lent l;
    memset(&l, MARK, sizeof l);
    return l;
}

static size_t asked;

/* whether the number and every lent byte are those that are expected */
static bool same(const char *what, uint32_t said, uint32_t number, const struct lent *after, const struct lent *expected) {
    asked++;
    if (said == number && memcmp(after, expected, sizeof *after) == 0) {
        return true;
    }
    printf("%s: %" PRIu32 " at %" PRIu64 ", and not %" PRIu32 "%s\n", what, said, after->place[0], number,
           said == number ? ", or a slice" : "");
    return false;
}

/* The same bytes in front of a page that cannot be read, until the next call. */
static const uint8_t *exact(const void *bytes, size_t count) {
    enum { MOST = 1 << 17 };
    static uint8_t *end;
    if (end == NULL) {
        size_t page = (size_t)sysconf(_SC_PAGESIZE);
        uint8_t *room = mmap(NULL, MOST + page, PROT_READ | PROT_WRITE, MAP_PRIVATE | MAP_ANONYMOUS, -1, 0);
        if (room == MAP_FAILED || mprotect(room + MOST, page, PROT_NONE) != 0) {
            not_run("no memory");
        }
        end = room + MOST;
    }
    return count > MOST ? not_run("a slice is too long"), NULL : memcpy(end - count, bytes, count);
}

/* ---- tiles and packs */

struct tile {
    uint16_t row, column;
    uint8_t kind, depth;
    size_t length;
    uint8_t blob[LONGEST];
};

/* so many bytes of a number, the lowest first; what comes behind them */
static uint8_t *put(uint8_t *at, uint64_t number, int bytes) {
    for (int k = 0; k < bytes; k++) {
        *at++ = (uint8_t)(number >> 8 * k);
    }
    return at;
}

/* a true checksum of a blob of this size */
static void seal(uint8_t *blob, size_t size) { put(blob + 10, lerc2_checksum(blob + 14, size - 14), 4); }

/* the header of a row of three pixels, all valid; what comes behind it */
static uint8_t *put_header(uint8_t *blob, uint8_t kind, uint8_t depth, size_t size) {
    const uint32_t fields[] = {4, 0, 1, 3, depth, 3, 8, (uint32_t)size, kind};
    uint8_t *at = memcpy(blob, "Lerc2 ", 6);
    at += 6;
    for (size_t n = 0; n < sizeof fields / sizeof *fields; n++) {
        at = put(at, fields[n], 4);
    }
    /* an error of 0.5, then 10 and 12 */
    at = put(put(put(at, 0x3FE0000000000000, 8), 0x4024000000000000, 8), 0x4028000000000000, 8);
    return put(at, 0, 4);
}

static struct tile made(uint16_t row, uint16_t column, uint8_t kind, uint8_t depth, const uint8_t *after, size_t count) {
    struct tile t = {row, column, kind, depth, 70 + count, {0}};
    memcpy(put_header(t.blob, kind, depth, t.length), after, count);
    seal(t.blob, t.length);
    return t;
}

static struct tile tiles[TILES];

static void make_tiles(void) {
    const uint8_t block[] = {10, 12, 0, 0, 1, 10, 0x82, 3, 0x24}, broken[] = {10, 12, 0, 0, 5, 10, 0x82, 3, 0x24};
    /* ranges of i16 and of two depths, the sweep byte, raw words */
    const uint8_t words[] = {10, 0, 10, 0, 12, 0, 12, 0, 1, 10, 0, 11, 0, 12, 0, 10, 0, 11, 0, 12, 0};
    tiles[0] = made(2, 513, 1, 1, block, sizeof block);
    tiles[1] = made(2, 514, 2, 2, words, sizeof words);
    tiles[2] = made(770, 0, 1, 1, broken, sizeof broken);
}

struct pack {
    size_t size;
    uint8_t bytes[ROOM];
};

static uint8_t *put_entry(uint8_t *at, const struct tile *t, size_t start) {
    at = put(put(at, t->row, 2), t->column, 2);
    at = put(put(put(at, t->kind, 1), t->depth - 1u, 1), 0, 2);
    return put(put(at, start, 4), t->length, 4);
}

/* by hand, of so many of these tiles */
static struct pack packed(const struct tile *t, size_t count) {
    struct pack p = {0};
    uint8_t *at = put(put(p.bytes, 1, 4), count, 4);
    size_t start = FRONT + EACH * count;
    for (size_t n = 0; n < count; start += t[n++].length) {
        at = put_entry(at, &t[n], start);
        memcpy(p.bytes + start, t[n].blob, t[n].length);
    }
    p.size = start;
    return p;
}

static struct pack right;

/* ---- opening */

static uint32_t opened(struct lent *l, const uint8_t *bytes, size_t size, size_t said, size_t place) {
    return lerc2_pack_open(exact(bytes, size), size, l->record, said, l->place, place);
}

static bool opens(const char *what, const uint8_t *bytes, size_t size, size_t count) {
    struct lent l = marked(), expected = l;
    expected.record[0] = count;
    expected.place[0] = 0;
    return same(what, opened(&l, bytes, size, 2, 2), 0, &l, &expected);
}

/* refused 12, whatever room is more than enough; and record and place come before it */
static bool is_none(const char *what, const uint8_t *bytes, size_t size) {
    struct lent l = marked(), expected = l;
    bool good = same(what, opened(&l, bytes, size, 0, 0), 5, &l, &expected);
    good &= same(what, opened(&l, bytes, size, 1, 0), 5, &l, &expected);
    expected.place[0] = 0;
    good &= same(what, opened(&l, bytes, size, 0, 2), 5, &l, &expected);
    good &= same(what, opened(&l, bytes, size, 1, 1), 12, &l, &expected);
    return good & same(what, opened(&l, bytes, size, 2, 2), 12, &l, &expected);
}

static bool right_one(void) {
    struct lent l = marked(), expected = l;
    bool good = same("no place", opened(&l, right.bytes, right.size, 1, 0), 5, &l, &expected);
    good &= same("no place, nor a record", opened(&l, right.bytes, right.size, 0, 0), 5, &l, &expected);
    expected.place[0] = 0;
    good &= same("no record", opened(&l, right.bytes, right.size, 0, 1), 5, &l, &expected);
    expected.record[0] = TILES;
    good &= same("just room", opened(&l, right.bytes, right.size, 1, 1), 0, &l, &expected);
    return good & opens("the right pack", right.bytes, right.size, TILES);
}

/* row and column of an entry as one number that rises */
static uint32_t rank(const struct pack *p, size_t number) {
    const uint8_t *at = p->bytes + FRONT + EACH * number + ROW;
    return (uint32_t)at[1] << 24 | (uint32_t)at[0] << 16 | (uint32_t)at[3] << 8 | at[2];
}

static bool is_position(size_t place) { return place >= FRONT && place < FRONT + EACH * TILES && (place - FRONT) % EACH < KIND; }

/* another bit makes no pack, but for rows and columns that still rise */
static bool each_bit(void) {
    bool good = true;
    for (size_t bit = 0; bit < 8 * right.size; bit++) {
        struct pack p = right;
        p.bytes[bit / 8] ^= (uint8_t)(1 << bit % 8);
        bool rises = rank(&p, 0) < rank(&p, 1) && rank(&p, 1) < rank(&p, 2);
        good &= is_position(bit / 8) && rises ? opens("another place in the field", p.bytes, p.size, TILES)
                                              : is_none("a changed bit", p.bytes, p.size);
    }
    return good;
}

static bool each_length(void) {
    bool good = true;
    for (size_t size = 0; size < ROOM; size++) {
        good &= size == right.size ? true : is_none("another length", right.bytes, size);
    }
    return good;
}

/* A number of the pack, in so many bytes. */
static const struct {
    const char *name;
    size_t place;
    int bytes;
    uint32_t number;
} breaches[] = {{"version 0", 0, 1, 0},
                {"version 2", 0, 1, 2},
                {"version 257", 0, 2, 257},
                {"no tiles", 4, 4, 0},
                {"a tile less", 4, 4, 2},
                {"a tile more", 4, 4, 4},
                {"256 tiles", 4, 4, 256},
                {"257 tiles", 4, 4, 257},
                {"entries that wrap", 4, 4, 0x10000003},
                {"the most that fits", 4, 4, UINT32_MAX},
                {"the same row and column", FRONT + EACH + 2, 2, 513},
                {"a lesser column", FRONT + EACH + 2, 2, 512},
                {"a lesser row", FRONT + EACH, 2, 1},
                {"a row above the next", FRONT + EACH, 2, 771},
                {"a row that is less by its low byte", FRONT + 2 * EACH, 2, 1},
                {"kind 0", FRONT + KIND, 1, 0},
                {"kind 8", FRONT + KIND, 1, 8},
                {"depth 2", FRONT + DEPTH, 1, 1},
                {"depth 256", FRONT + DEPTH, 1, 255},
                {"the depth itself", FRONT + EACH + DEPTH, 1, 2},
                {"a 1 where zeros are", FRONT + ZEROS, 1, 1},
                {"another", FRONT + ZEROS + 1, 1, 1},
                {"a start in front", FRONT + START, 4, 55},
                {"a start behind", FRONT + START, 4, 57},
                {"a start at the next blob", FRONT + START, 4, 135},
                {"a start far out", FRONT + 2 * EACH + START, 4, UINT32_MAX},
                {"a byte less", FRONT + LENGTH, 4, 78},
                {"a byte more", FRONT + LENGTH, 4, 80},
                {"a length of 0", FRONT + EACH + LENGTH, 4, 0},
                {"a length far out", FRONT + 2 * EACH + LENGTH, 4, UINT32_MAX}};

static bool each_breach(void) {
    bool good = true;
    for (size_t n = 0; n < sizeof breaches / sizeof *breaches; n++) {
        struct pack p = right;
        put(p.bytes + breaches[n].place, breaches[n].number, breaches[n].bytes);
        good &= is_none(breaches[n].name, p.bytes, p.size);
    }
    return good;
}

/* blobs whose header is refused, in packs that are right otherwise; the blob is sealed again, but for the last two */
static const struct {
    const char *name;
    size_t place;
    uint8_t byte;
} headers[] = {{"another key", 0, 'M'}, {"version 5", 6, 5},       {"no rows", 14, 0},           {"side 17", 30, 17},
               {"size 80", 34, 80},     {"size 78", 34, 78},       {"another checksum", 10, 77}, {"another byte", 78, 0x25}};

static struct tile spoilt(size_t n) {
    struct tile t = tiles[0];
    t.blob[headers[n].place] = headers[n].byte;
    if (headers[n].place != 10 && headers[n].place != 78) {
        seal(t.blob, headers[n].byte == 78 ? 78 : t.length);
    }
    return t;
}

static bool each_header(void) {
    bool good = true;
    for (size_t n = 0; n < sizeof headers / sizeof *headers; n++) {
        struct tile t[TILES] = {tiles[0], tiles[1], tiles[2]};
        t[0] = spoilt(n);
        struct pack p = packed(t, TILES);
        good &= is_none(headers[n].name, p.bytes, p.size);
        t[2] = t[0];
        t[2].row = 770;
        t[0] = tiles[0];
        p = packed(t, TILES);
        good &= is_none(headers[n].name, p.bytes, p.size);
    }
    return good;
}

/* entries that agree with each other and with the length, and not with the blobs */
static bool other_borders(void) {
    struct pack p = right;
    put(p.bytes + FRONT + LENGTH, 80, 4);
    put(put(p.bytes + FRONT + EACH + START, 136, 4), 90, 4);
    bool good = is_none("a byte of the next", p.bytes, p.size);
    p = right;
    put(p.bytes + FRONT + START, 226, 4);
    put(p.bytes + FRONT + 2 * EACH + START, 56, 4);
    good &= is_none("bodies in another order", p.bytes, p.size);
    p = right; /* a gap of one byte in front of the second blob */
    memmove(p.bytes + 136, right.bytes + 135, right.size - 135);
    put(p.bytes + FRONT + EACH + START, 136, 4);
    put(p.bytes + FRONT + 2 * EACH + START, 227, 4);
    return good & is_none("a gap", p.bytes, right.size + 1);
}

static bool without_tiles(void) {
    const struct pack p = packed(tiles, 0);
    bool good = p.size == FRONT && opens("no tiles", p.bytes, p.size, 0);
    for (size_t size = 0; size < 2 * FRONT; size++) {
        good &= size == FRONT ? true : is_none("no tiles, another length", p.bytes, size);
    }
    for (size_t bit = 0; bit < 8 * FRONT; bit++) {
        struct pack other = p;
        other.bytes[bit / 8] ^= (uint8_t)(1 << bit % 8);
        good &= is_none("no tiles, a changed bit", other.bytes, other.size);
    }
    return good;
}

/* ---- entries */

static uint32_t entry(struct lent *l, const struct pack *p, size_t count, size_t number, size_t record, size_t place) {
    return lerc2_pack_entry(exact(p->bytes, p->size), p->size, count, number, l->record, record, l->place, place);
}

/* row, column, kind, depth, start and length, or none */
static bool gives(const char *what, const struct pack *p, size_t count, size_t number, const uint64_t *numbers) {
    struct lent l = marked(), expected = l;
    expected.place[0] = 0;
    bool good = same(what, entry(&l, p, count, number, LERC2_ENTRY - 1, 1), 5, &l, &expected);
    if (numbers != NULL) {
        memcpy(expected.record, numbers, LERC2_ENTRY * sizeof *numbers);
    }
    good &= same(what, entry(&l, p, count, number, LERC2_ENTRY, 1), numbers != NULL ? 0 : 12, &l, &expected);
    l = marked();
    expected = l;
    good &= same(what, entry(&l, p, count, number, LERC2_ENTRY + 1, 0), 5, &l, &expected);
    return good & same(what, entry(&l, p, count, number, 0, 0), 5, &l, &expected);
}

static bool each_entry(void) {
    size_t start = FRONT + EACH * TILES;
    bool good = true;
    for (size_t n = 0; n < TILES; start += tiles[n++].length) {
        const struct tile *t = &tiles[n];
        const uint64_t numbers[] = {t->row, t->column, t->kind, t->depth, start, t->length};
        const size_t counts[] = {n + 1, TILES, TILES + 1, LERC2_TILES + 1, SIZE_MAX};
        for (size_t k = 0; k < sizeof counts / sizeof *counts; k++) {
            good &= gives("an entry", &right, counts[k], n, numbers);
        }
        good &= gives("an entry at the count", &right, n, n, NULL);
    }
    return good;
}

/* numbers at or above the count, however far out, and counts that were made up */
static bool no_entry(void) {
    const size_t numbers[] = {3, 4, 18, 19, 256, (size_t)1 << 28, (size_t)1 << 60, SIZE_MAX / 16, SIZE_MAX - 1, SIZE_MAX};
    bool good = true;
    for (size_t k = 0; k < sizeof numbers / sizeof *numbers; k++) {
        good &= gives("no such entry", &right, TILES, numbers[k], NULL);
        good &= gives("no such entry, any count", &right, SIZE_MAX, numbers[k], NULL);
    }
    return good;
}

/* what opening judges is not judged again: only that the blob lies within the pack */
static bool as_they_stand(void) {
    static const struct {
        uint32_t start, length;
        bool within;
    } blobs[] = {{56, 79, true},          {0, 305, true},          {305, 0, true},     {304, 1, true},
                 {0, 0, true},            {0, 306, false},         {306, 0, false},    {305, 1, false},
                 {1, UINT32_MAX, false},  {UINT32_MAX, 1, false},  {UINT32_MAX, UINT32_MAX, false}};
    bool good = true;
    for (size_t n = 0; n < sizeof blobs / sizeof *blobs; n++) {
        struct pack p = right;
        uint8_t *at = p.bytes + FRONT;
        put(put(put(at, 65535, 2), 65535, 2), 0x0909FFC8, 4);
        put(put(at + START, blobs[n].start, 4), blobs[n].length, 4);
        p.bytes[0] = 7;
        const uint64_t numbers[] = {65535, 65535, 200, 256, blobs[n].start, blobs[n].length};
        good &= gives("as it stands", &p, TILES, 0, blobs[n].within ? numbers : NULL);
    }
    return good;
}

/* Entries of a pack that is cut: the 16 bytes must be there, then the blob. */
static bool cut_entries(void) {
    bool good = true;
    for (size_t size = 0; size <= right.size; size++) {
        struct pack p = right;
        p.size = size;
        const uint64_t numbers[] = {2, 514, 2, 2, 135, 91};
        good &= gives("a pack that is cut", &p, TILES, 1, size >= 226 ? numbers : NULL);
        put(put(p.bytes + FRONT + EACH + START, 0, 4), 0, 4);
        const uint64_t nothing[] = {2, 514, 2, 2, 0, 0};
        good &= gives("a blob of no bytes", &p, TILES, 1, size >= FRONT + 2 * EACH ? nothing : NULL);
    }
    return good;
}

/* ---- writing */

/* what is given: one number more than there are tiles, for counts that differ */
struct given {
    uint16_t rows[TILES + 1], columns[TILES + 1];
    size_t lengths[TILES + 1], row_count, column_count, length_count, body_count;
    uint8_t bodies[ROOM];
};

static struct given usual(void) {
    struct given g = {.row_count = TILES, .column_count = TILES, .length_count = TILES};
    for (size_t n = 0; n < TILES; g.body_count += tiles[n++].length) {
        g.rows[n] = tiles[n].row;
        g.columns[n] = tiles[n].column;
        g.lengths[n] = tiles[n].length;
        memcpy(g.bodies + g.body_count, tiles[n].blob, tiles[n].length);
    }
    return g;
}

static uint32_t written(struct lent *l, const struct given *g, size_t room, size_t said, size_t place) {
    return lerc2_pack_write(g->rows, g->row_count, g->columns, g->column_count, g->lengths, g->length_count,
                            exact(g->bodies, g->body_count), g->body_count, l->pack, room, l->record, said, l->place, place);
}

/* the pack and not a byte more; a byte less is no room; record and place come first */
static bool writes(const char *what, const struct given *g, const struct pack *p) {
    struct lent l = marked(), expected = l;
    bool good = same(what, written(&l, g, ROOM, 1, 0), 5, &l, &expected);
    expected.place[0] = 0;
    good &= same(what, written(&l, g, ROOM, 0, 2), 5, &l, &expected);
    for (size_t room = 0; room < p->size; room++) {
        good &= same(what, written(&l, g, room, 2, 2), 5, &l, &expected);
    }
    expected.record[0] = p->size;
    memcpy(expected.pack, p->bytes, p->size);
    good &= same(what, written(&l, g, p->size, 1, 1), 0, &l, &expected);
    l = marked();
    return good & same(what, written(&l, g, ROOM, 2, 2), 0, &l, &expected) & opens(what, l.pack, p->size, g->row_count);
}

/* refused 12 with any room, and nothing is written */
static bool writes_none(const char *what, const struct given *g) {
    struct lent l = marked(), expected = l;
    bool good = same(what, written(&l, g, ROOM, 1, 0), 5, &l, &expected);
    expected.place[0] = 0;
    good &= same(what, written(&l, g, ROOM, 0, 1), 5, &l, &expected);
    good &= same(what, written(&l, g, 0, 1, 1), 12, &l, &expected);
    return good & same(what, written(&l, g, ROOM, 2, 2), 12, &l, &expected);
}

static bool right_writes(void) {
    struct given g = usual();
    bool good = writes("written", &g, &right);
    const struct pack none = packed(tiles, 0);
    g.row_count = g.column_count = g.length_count = g.body_count = 0;
    good &= writes("written, no tiles", &g, &none);
    g.body_count = 1;
    return good & writes_none("a body and no tiles", &g);
}

static bool wrong_counts(void) {
    bool good = true;
    for (int n = 0; n < 7; n++) {
        struct given g = usual();
        g.row_count -= n & 1;
        g.column_count -= n >> 1 & 1;
        g.length_count -= n >> 2 & 1;
        good &= n == 0 ? true : writes_none("counts that differ", &g);
        g = usual();
        g.rows[TILES] = 771;
        g.row_count += n & 1;
        g.column_count += n >> 1 & 1;
        g.length_count += n >> 2 & 1;
        good &= n == 0 ? true : writes_none("counts that differ", &g);
    }
    struct given g = usual(); /* one more of each, with a blob of no bytes */
    g.rows[TILES] = 771;
    g.row_count = g.column_count = g.length_count = TILES + 1;
    return good & writes_none("a blob of no bytes", &g);
}

static bool wrong_lengths(void) {
    static const size_t lengths[][TILES] = {{80, 91, 79},  {78, 91, 79},       {80, 90, 79},   {79, 90, 80},
                                            {79, 91, 78},  {79, 91, 80},       {91, 79, 79},   {0, 170, 79},
                                            {249, 0, 0},   {SIZE_MAX, 80, 170}, {79, 91, SIZE_MAX},
                                            {79, SIZE_MAX - 78, 249}};
    bool good = true;
    for (size_t n = 0; n < sizeof lengths / sizeof *lengths; n++) {
        struct given g = usual();
        memcpy(g.lengths, lengths[n], sizeof lengths[n]);
        good &= writes_none("other lengths", &g);
    }
    for (size_t count = 0; count < ROOM; count++) {
        struct given g = usual();
        good &= count == g.body_count ? true : (g.body_count = count, writes_none("other bodies", &g));
    }
    return good;
}

static bool wrong_order(void) {
    static const struct {
        uint16_t row, column;
        bool rises;
    } second[] = {{2, 513, false}, {2, 512, false}, {1, 514, false},  {0, 65535, false}, {770, 0, false}, {770, 1, false},
                  {771, 0, false}, {3, 0, true},    {2, 65535, true}, {258, 1, true},    {769, 9, true}};
    bool good = true;
    for (size_t n = 0; n < sizeof second / sizeof *second; n++) {
        struct given g = usual();
        struct tile t[TILES] = {tiles[0], tiles[1], tiles[2]};
        g.rows[1] = t[1].row = second[n].row;
        g.columns[1] = t[1].column = second[n].column;
        const struct pack p = packed(t, TILES);
        good &= second[n].rises ? writes("another order", &g, &p) : writes_none("tiles that do not rise", &g);
    }
    return good;
}

static bool wrong_headers(void) {
    bool good = true;
    for (size_t n = 0; n < sizeof headers / sizeof *headers; n++) {
        struct given g = usual();
        const struct tile t = spoilt(n);
        memcpy(g.bodies, t.blob, t.length);
        good &= writes_none(headers[n].name, &g);
        g = usual();
        memcpy(g.bodies + g.body_count - t.length, t.blob, t.length);
        good &= writes_none(headers[n].name, &g);
    }
    return good;
}

/* ---- the most tiles, and one more */

/* so many tiles, all of one blob: rows of sixteen */
static bool many(size_t count) {
    enum { MOST = LERC2_TILES + 1, BYTES = FRONT + (EACH + LONGEST) * MOST };
    static uint8_t bodies[LONGEST * MOST], by_hand[BYTES], pack[BYTES];
    uint16_t rows[MOST], columns[MOST];
    size_t lengths[MOST], size = tiles[0].length, start = FRONT + EACH * count, all = start + size * count;
    uint64_t said = 7, place = 7;
    uint8_t *at = put(put(by_hand, 1, 4), count, 4);
    for (size_t n = 0; n < count; n++) {
        struct tile t = tiles[0];
        rows[n] = t.row = (uint16_t)(n / 16);
        columns[n] = t.column = (uint16_t)(n % 16);
        lengths[n] = size;
        at = put_entry(at, &t, start + size * n);
        memcpy(bodies + size * n, t.blob, size);
        memcpy(by_hand + start + size * n, t.blob, size);
    }
    memset(pack, MARK, sizeof pack);
    uint32_t number = lerc2_pack_write(rows, count, columns, count, lengths, count, exact(bodies, size * count), size * count,
                                       pack, sizeof pack, &said, 1, &place, 1);
    bool good = count <= LERC2_TILES
                    ? number == 0 && said == all && memcmp(pack, by_hand, all) == 0 && pack[all] == MARK
                    : number == 12 && said == 7 && pack[0] == MARK;
    good &= place == 0;
    asked++;
    if (!good) {
        printf("%zu tiles are written: %" PRIu32 "\n", count, number);
    }
    return good & (count <= LERC2_TILES ? opens("many tiles", by_hand, all, count) : is_none("too many tiles", by_hand, all));
}

/* ---- the tiles, by what an entry says of them */

static bool staged(void) {
    uint64_t said, place, e[LERC2_ENTRY];
    bool good = lerc2_pack_open(right.bytes, right.size, &said, 1, &place, 1) == 0;
    for (size_t n = 0; n < TILES; n++) {
        good &= lerc2_pack_entry(right.bytes, right.size, said, n, e, LERC2_ENTRY, &place, 1) == 0;
        const uint8_t *blob = right.bytes + e[LERC2_ENTRY_START];
        size_t size = e[LERC2_ENTRY_LENGTH], list[2];
        uint64_t answer[LERC2_STAGED], image[6] = {0};
        uint8_t kept[1] = {0}, spare[1];
        uint32_t number = lerc2_stage(exact(blob, size), size, false, kept, 1, spare, 1, list, 2, image, 6, answer,
                                      LERC2_STAGED, &place, 1);
        bool as_told = n < 2 ? number == 0 && place == 0 && answer[LERC2_KIND] == e[LERC2_ENTRY_KIND] &&
                                   answer[LERC2_DEPTH] == e[LERC2_ENTRY_DEPTH] && answer[LERC2_SIZE] == size
                             : number == 8 && place == 74;
        asked++;
        if (!as_told) {
            printf("tile %zu is staged: %" PRIu32 " at %" PRIu64 "\n", n, number, place);
        }
        good &= as_told;
    }
    return good;
}

/* ---- more than 2^32 bytes */

enum { BLOB = 1 << 24, TABLE = FRONT + EACH * LERC2_TILES };

/* The memory of one blob of 16 MiB stands for all that is between the first page behind the entries and the last one. */
static uint8_t *long_pack(size_t size, size_t page) {
    int file = memfd_create("pack", 0);
    size_t most = (size + page - 1) / page * page, first = 2 * page;
    uint8_t *all = mmap(NULL, most, PROT_NONE, MAP_PRIVATE | MAP_ANONYMOUS | MAP_NORESERVE, -1, 0);
    if (file < 0 || ftruncate(file, BLOB) != 0 || all == MAP_FAILED) {
        not_run("no such memory");
    }
    for (size_t at = 0, count; at < most; at += count) {
        bool own = at < first || at >= most - page;
        size_t offset = at % BLOB;
        count = own ? page : BLOB - offset < most - page - at ? BLOB - offset : most - page - at;
        void *got = own ? mmap(all + at, page, PROT_READ | PROT_WRITE, MAP_PRIVATE | MAP_ANONYMOUS | MAP_FIXED, -1, 0)
                        : mmap(all + at, count, PROT_READ | PROT_WRITE, MAP_SHARED | MAP_FIXED, file, (off_t)offset);
        if (got == MAP_FAILED) {
            not_run("no such memory");
        }
    }
    close(file);
    return all;
}

/* 256 tiles, the last of which begins below 2^32 and ends above it */
static bool long_one(void) {
    size_t page = (size_t)sysconf(_SC_PAGESIZE), size = TABLE + (size_t)BLOB * LERC2_TILES;
    uint8_t *pack = long_pack(size, page), *at = put(put(pack, 1, 4), LERC2_TILES, 4), *one = calloc(BLOB, 1);
    if (one == NULL) {
        not_run("no memory");
    }
    put_header(one, 1, 1, BLOB);
    seal(one, BLOB);
    for (size_t n = 0; n < LERC2_TILES; n++) {
        struct tile t = {0, (uint16_t)n, 1, 1, BLOB, {0}};
        at = put_entry(at, &t, TABLE + (size_t)BLOB * n);
    }
    /* the first and the last blob; all others share their memory */
    memcpy(pack + TABLE, one, BLOB);
    memcpy(pack + size - BLOB, one, BLOB);
    free(one);
    uint64_t said = 7, place = 7, last[LERC2_ENTRY];
    bool good = lerc2_pack_open(pack, size, &said, 1, &place, 1) == 0 && said == LERC2_TILES && place == 0;
    good &= lerc2_pack_entry(pack, size, said, 255, last, LERC2_ENTRY, &place, 1) == 0;
    good &= last[LERC2_ENTRY_START] == size - BLOB && last[LERC2_ENTRY_LENGTH] == BLOB && size > UINT32_MAX;
    /* the length, and a blob's end, are not judged by their low 32 bits */
    good &= lerc2_pack_open(pack, size - ((size_t)1 << 32), &said, 1, &place, 1) == 12;
    good &= lerc2_pack_entry(pack, size - 1, said, 255, last, LERC2_ENTRY, &place, 1) == 12;
    pack[size - 1] ^= 1;
    good &= lerc2_pack_open(pack, size, &said, 1, &place, 1) == 12 && said == LERC2_TILES;
    asked += 5;
    if (!good) {
        printf("a pack of more than 2^32 bytes\n");
    }
    return good;
}

int main(int argc, char **argv) {
    bool with_long = argc == 2 && strcmp(argv[1], "long") == 0;
    if (argc > 1 && !with_long) {
        fprintf(stderr, "pack: unknown word %s; usage: pack [long]\n", argv[1]);
        return 2;
    }
    make_tiles();
    right = packed(tiles, TILES);
    bool good = right_one() & each_bit() & each_length() & each_breach() & each_header() & other_borders() & without_tiles();
    good &= each_entry() & no_entry() & as_they_stand() & cut_entries();
    good &= right_writes() & wrong_counts() & wrong_lengths() & wrong_order() & wrong_headers();
    good &= many(LERC2_TILES - 1) & many(LERC2_TILES) & many(LERC2_TILES + 1) & staged();
    good &= with_long ? long_one() : true;
    printf("%zu calls on packs: %s\n", asked, good ? "as expected" : "not as expected");
    return good ? 0 : 1;
}
