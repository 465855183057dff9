/* lerc2_stage and lerc2_publish, sentence by sentence, on blobs that are made here: what each leaves of every slice that it
 * is lent, accepted and refused; that one after the other they are lerc2_read; records forged number by number, answers of
 * other blobs, a spare and a list that were changed, and what is not looked at; slices and records that are too short.
 * Exit status: 0 as expected, 1 not so. */
#include "../../include/lerc2.h"

#include <inttypes.h>
#include <stdio.h>
#include <string.h>

enum { LONGEST = 120, MARK = 7, MASK = 4, STARTS = 4, CELLS = 18 };

/* the bits of some doubles */
#define HALF 0x3FE0000000000000
#define TEN 0x4024000000000000
#define TWELVE 0x4028000000000000
#define LARGE 0x4072C00000000000 /* 300, which is no u8 */

/* All that is lent, with marks; no padding, since all of it is compared. The kept mask has two pixels of three. */
struct lent {
    uint64_t staged[LERC2_STAGED + 1], said[3], place[2], image[CELLS];
    size_t list[STARTS];
    uint8_t kept[MASK], spare[MASK];
};

/* how many elements of each slice are lent */
struct room {
    size_t kept, spare, list, image, staged, said, place;
};

static const struct room usual = {MASK, MASK, STARTS, CELLS, LERC2_STAGED + 1, 3, 2};

/* A row of u8 in tiles of 8, and what is expected of it: number and place, then answer, mask in force, starts and cells,
 * where a 0 is a cell that stays. */
struct row {
    const char *name;
    bool reuse;
    uint32_t columns, valid;
    uint64_t least, greatest;
    size_t mask, body;
    uint8_t bytes[48]; /* the mask section and what comes behind it */
    uint32_t number;
    uint64_t place, end, kind, blocks, in_force, length;
    uint8_t bits[2];
    size_t starts[2];
    uint8_t cells[16];
};

static const struct row rows[] = {
    {"two blocks", false, 16, 9, TEN, TWELVE, 6, 8, {2, 0, 0xFF, 0x80, 0, 0x80, 10, 12, 0, 0, 3, 10, 7, 11}, 0, 0, 84,
     LERC2_BLOCKS, 2, LERC2_SPARE, 2, {0xFF, 0x80}, {80, 82}, {10, 10, 10, 10, 10, 10, 10, 10, 11}},
    {"all valid", true, 3, 3, TEN, TWELVE, 0, 9, {10, 12, 0, 0, 1, 10, 0x82, 3, 0x24}, 0, 0, 79, LERC2_BLOCKS, 1,
     LERC2_SPARE, 1, {0xFF}, {74}, {10, 11, 12}},
    {"a reused mask", true, 3, 2, TEN, TWELVE, 0, 7, {10, 12, 0, 0, 0, 11, 12}, 0, 0, 77, LERC2_BLOCKS, 1, LERC2_KEPT, 1,
     {0x60}, {74}, {0, 11, 12}},
    {"a raw body", false, 3, 2, TEN, TWELVE, 5, 5, {1, 0, 0xA0, 0, 0x80, 10, 12, 1, 11, 12}, 0, 0, 80, LERC2_RAW, 0,
     LERC2_SPARE, 1, {0xA0}, {0}, {11, 0, 12}},
    /* no prediction: symbols 10, 11, 12 have the codes 0, 10, 11, and these are the bits too; a word follows them */
    {"a Huffman image", true, 3, 3, TEN, TWELVE, 0, 35,
     {10, 12, 0, 2, 2, 0, 0, 0, 13, 0, 0, 0, 10, 0, 0, 0, 13, 0, 0, 0, 0x82, 3, 0x29, 0, 0, 0, 0x58, 0, 0, 0, 0x58, 1, 2, 3, 4},
     0, 0, 105, LERC2_HUFFMAN, 0, LERC2_SPARE, 1, {0xFF}, {0}, {10, 11, 12}},
    /* symbols 1 and 11 have the codes 0 and 1; the bits 1, 0 say 11, and 1 more than the last value, behind a hole */
    {"a Huffman image, by differences", false, 3, 2, TEN, TWELVE, 5, 36,
     {1, 0, 0xA0, 0, 0x80, 10, 12, 0, 1, 2, 0, 0, 0, 13, 0, 0, 0, 1, 0, 0, 0, 12, 0, 0, 0, 0x81, 11, 1, 4, 0, 0, 0, 0x40,
      0, 0, 0, 0x80, 0, 0, 0, 0}, 0, 0, 111, LERC2_HUFFMAN, 0, LERC2_SPARE, 1, {0xA0}, {0}, {11, 0, 12}},
    {"a constant body", false, 10, 10, TEN, TEN, 0, 0, {0}, 0, 0, 70, LERC2_CONSTANT, 0, LERC2_SPARE, 2, {0xFF, 0xFF}, {0},
     {10, 10, 10, 10, 10, 10, 10, 10, 10, 10}},
    {"an empty body", true, 10, 0, TEN, TEN, 0, 0, {0}, 0, 0, 70, LERC2_EMPTY, 0, LERC2_SPARE, 2, {0, 0}, {0}, {0}},
    /* refused: what is new in the spare is given still */
    {"one pixel more", false, 16, 9, TEN, TWELVE, 6, 8, {2, 0, 0xFF, 0xC0, 0, 0x80, 10, 12, 0, 0, 3, 10, 7, 11}, 6, 66, 0,
     0, 0, 0, 0, {0}, {0}, {0}},
    {"no mask", false, 3, 2, TEN, TWELVE, 0, 7, {10, 12, 0, 0, 0, 11, 12}, 6, 66, 0, 0, 0, 0, 0, {0}, {0}, {0}},
    {"ranges cut", false, 16, 9, TEN, TWELVE, 6, 1, {2, 0, 0xFF, 0x80, 0, 0x80, 10}, 1, 76, 0, 0, 0, LERC2_SPARE, 2,
     {0xFF, 0x80}, {0}, {0}},
    {"ranges crossed", false, 16, 9, TEN, TWELVE, 6, 3, {2, 0, 0xFF, 0x80, 0, 0x80, 12, 10, 0}, 7, 77, 0, 0, 0, LERC2_SPARE,
     2, {0xFF, 0x80}, {0}, {0}},
    {"a constant that does not fit", false, 10, 10, LARGE, LARGE, 0, 0, {0}, 9, 0, 0, 0, 0, LERC2_SPARE, 2, {0xFF, 0xFF},
     {0}, {0}},
    {"another sweep byte", false, 16, 9, TEN, TWELVE, 6, 3, {2, 0, 0xFF, 0x80, 0, 0x80, 10, 12, 2}, 8, 78, 0, 0, 0,
     LERC2_SPARE, 2, {0xFF, 0x80}, {0}, {0}},
    {"another mode", false, 16, 9, TEN, TWELVE, 6, 4, {2, 0, 0xFF, 0x80, 0, 0x80, 10, 12, 0, 3}, 8, 79, 0, 0, 0, LERC2_SPARE,
     2, {0xFF, 0x80}, {0}, {0}},
    {"no table", false, 16, 9, TEN, TWELVE, 6, 4, {2, 0, 0xFF, 0x80, 0, 0x80, 10, 12, 0, 1}, 1, 79, 0, 0, 0, LERC2_SPARE, 2,
     {0xFF, 0x80}, {0}, {0}},
    /* of 10 and 11 with the codes 0 and 10: the bits 11 begin none */
    {"an unknown code", true, 3, 3, TEN, TWELVE, 0, 35,
     {10, 12, 0, 2, 2, 0, 0, 0, 13, 0, 0, 0, 10, 0, 0, 0, 12, 0, 0, 0, 0x82, 2, 9, 0, 0, 0, 0x40, 0, 0, 0, 0x58, 1, 2, 3, 4}, 8,
     73, 0, 0, 0, LERC2_SPARE, 1, {0xFF}, {0}, {0}},
    {"the word behind the symbols cut", true, 3, 3, TEN, TWELVE, 0, 34,
     {10, 12, 0, 2, 2, 0, 0, 0, 13, 0, 0, 0, 10, 0, 0, 0, 13, 0, 0, 0, 0x82, 3, 0x29, 0, 0, 0, 0x58, 0, 0, 0, 0x58, 1, 2, 3}, 1,
     73, 0, 0, 0, LERC2_SPARE, 1, {0xFF}, {0}, {0}},
    {"raw words cut", false, 3, 2, TEN, TWELVE, 5, 4, {1, 0, 0xA0, 0, 0x80, 10, 12, 1, 11}, 1, 79, 0, 0, 0, LERC2_SPARE, 1,
     {0xA0}, {0}, {0}},
    {"a wrong block", false, 16, 9, TEN, TWELVE, 6, 8, {2, 0, 0xFF, 0x80, 0, 0x80, 10, 12, 0, 0, 3, 10, 3, 11}, 8, 82, 0, 0,
     0, LERC2_SPARE, 2, {0xFF, 0x80}, {0}, {0}},
    {"a wrong block, reused", true, 3, 2, TEN, TWELVE, 0, 7, {10, 12, 0, 0, 4, 11, 12}, 8, 74, 0, 0, 0, LERC2_KEPT, 1,
     {0x60}, {0}, {0}},
    /* by a mask without the ninth pixel nothing is missing */
    {"a block cut", false, 16, 9, TEN, TWELVE, 6, 14,
     {2, 0, 0xFF, 0x80, 0, 0x80, 10, 12, 0, 0, 0, 10, 10, 10, 10, 10, 10, 10, 10, 4}, 1, 89, 0, 0, 0, LERC2_SPARE, 2,
     {0xFF, 0x80}, {0}, {0}},
};
enum { ROWS = sizeof rows / sizeof *rows, TWO = 0, REUSED = 2 };

/* each with room for more bytes than it has */
static struct blob {
    uint8_t bytes[LONGEST];
    size_t size;
} blobs[ROWS];

/* so many bytes of a number, the lowest first; what comes behind them */
static uint8_t *put(uint8_t *at, uint64_t number, int bytes) {
    for (int k = 0; k < bytes; k++) {
        *at++ = (uint8_t)(number >> 8 * k);
    }
    return at;
}

static struct blob made(const struct row *r) {
    struct blob b = {{'L', 'e', 'r', 'c', '2', ' ', 4}, 70 + r->mask + r->body};
    const uint32_t fields[] = {1, r->columns, 1, r->valid, 8, (uint32_t)b.size, 1};
    uint8_t *at = b.bytes + 14;
    for (size_t n = 0; n < sizeof fields / sizeof *fields; n++) {
        at = put(at, fields[n], 4);
    }
    at = put(put(put(at, HALF, 8), r->least, 8), r->greatest, 8);
    memcpy(put(at, r->mask, 4), r->bytes, r->mask + r->body);
    put(b.bytes + 10, lerc2_checksum(b.bytes + 14, b.size - 14), 4);
    return b;
}

static struct lent marked(void) {
    struct lent l;
    memset(&l, MARK, sizeof l);
    l.kept[0] = 0x60;
    return l;
}

static uint32_t stage(struct lent *l, const struct blob *b, bool reuse, struct room r) {
    return lerc2_stage(b->bytes, b->size, reuse, l->kept, r.kept, l->spare, r.spare, l->list, r.list, l->image, r.image,
                       l->staged, r.staged, l->place, r.place);
}

static uint32_t publish(struct lent *l, const struct blob *b, bool reuse, struct room r) {
    return lerc2_publish(b->bytes, b->size, reuse, l->staged, r.staged, l->kept, r.kept, l->spare, r.spare, l->list, r.list,
                         l->image, r.image, l->said, r.said, l->place, r.place);
}

static size_t asked;

/* whether number and every lent byte are those that are expected */
static bool same(const struct row *r, const char *what, uint32_t said, uint32_t number, const struct lent *after,
                 const struct lent *expected) {
    asked++;
    if (said == number && memcmp(after, expected, sizeof *after) == 0) {
        return true;
    }
    printf("%s, %s: %" PRIu32 " at %" PRIu64 ", and not %" PRIu32 " at %" PRIu64 "%s\n", r->name, what, said, after->place[0],
           number, expected->place[0], said == number && after->place[0] == expected->place[0] ? ", or a slice" : "");
    return false;
}

/* a publish that is refused: no byte but the place is another */
static bool refused(const struct row *r, const char *what, struct lent *l, const struct blob *b, bool reuse, struct room room,
                    uint32_t number, uint64_t place) {
    struct lent expected = *l;
    if (room.place > 0) {
        expected.place[0] = place;
    }
    uint32_t said = publish(l, b, reuse, room);
    return same(r, what, said, number, l, &expected);
}

/* a stage that is refused at 0, before the mask: the same */
static bool refused_stage(const struct row *r, const char *what, const struct blob *b, struct room room, uint32_t number) {
    struct lent l = marked(), expected = l;
    if (room.place > 0) {
        expected.place[0] = 0;
    }
    return same(r, what, stage(&l, b, r->reuse, room), number, &l, &expected);
}

/* a publish of what is not as staging left it */
static bool not_staged(const struct row *r, const char *what, struct lent l) {
    return refused(r, what, &l, &blobs[r - rows], r->reuse, usual, 3, 0);
}

static bool accepted(const struct row *r, const char *what, struct lent l, const struct lent *before) {
    struct lent expected = l;
    memcpy(expected.image, before->image, sizeof l.image);
    memcpy(expected.kept, before->kept, sizeof l.kept);
    memcpy(expected.said, before->said, sizeof l.said);
    expected.place[0] = 0;
    uint32_t said = publish(&l, &blobs[r - rows], r->reuse, usual);
    return same(r, what, said, 0, &l, &expected);
}

/* ---- what is expected of a row, by hand */

static struct lent expected_staged(const struct row *r) {
    struct lent l = marked();
    l.place[0] = r->place;
    if (r->in_force == LERC2_SPARE) {
        memcpy(l.spare, r->bits, r->length);
    }
    if (r->number == 0) {
        const uint64_t header[LERC2_HEADER] = {1, r->columns, 1,        r->valid,    8,      70 + r->mask + r->body,
                                               1, HALF,       r->least, r->greatest, r->mask};
        const uint64_t behind[] = {r->blocks, r->end, r->kind, r->in_force, r->length};
        memcpy(l.staged, header, sizeof header);
        memcpy(l.staged + LERC2_HEADER, behind, sizeof behind);
        memcpy(l.list, r->starts, r->blocks * sizeof *l.list);
    }
    return l;
}

static struct lent expected_published(const struct row *r) {
    struct lent l = expected_staged(r);
    l.said[0] = r->end;
    l.said[1] = r->valid;
    memcpy(l.kept, r->bits, r->length);
    for (size_t c = 0; c < 16; c++) {
        l.image[c] = r->cells[c] != 0 ? r->cells[c] : l.image[c];
    }
    return l;
}

/* staged, published, and published once more; from the same state a whole read */
static bool one_after_the_other(const struct row *r) {
    const struct blob *b = &blobs[r - rows];
    struct lent two = marked(), whole = two, expected = expected_staged(r);
    bool right = same(r, "staged", stage(&two, b, r->reuse, usual), r->number, &two, &expected);
    uint32_t of_read = lerc2_read(b->bytes, b->size, r->reuse, whole.kept, MASK, whole.spare, MASK, whole.list, STARTS,
                                  whole.image, CELLS, whole.staged, LERC2_READ, whole.place, 2);
    if (r->number == 0) {
        expected = expected_published(r);
        for (int n = 0; n < 2; n++) {
            right &= same(r, n == 0 ? "published" : "once more", publish(&two, b, r->reuse, usual), 0, &two, &expected);
        }
    }
    /* the read's record is the answer's front, and it says no words */
    memset(two.staged + LERC2_READ, MARK, sizeof two.staged - LERC2_READ * sizeof *two.staged);
    memset(two.said, MARK, sizeof two.said);
    return right & same(r, "a whole read", of_read, r->number, &whole, &two);
}

/* what the blob earns comes first, whatever is handed over, and nothing is written, the spare not either */
static bool earned_first(const struct row *r) {
    struct lent l = expected_staged(&rows[TWO]);
    const struct blob *b = &blobs[r - rows];
    bool right = refused(r, "another's answer", &l, b, r->reuse, usual, r->number, r->place);
    l.spare[0] = 0xFF;
    l.spare[1] = 0;
    l.list[0] = 0;
    right &= refused(r, "another's answer, a mask of fewer", &l, b, r->reuse, usual, r->number, r->place);
    l = marked();
    return right & refused(r, "no answer", &l, b, r->reuse, usual, r->number, r->place);
}

/* ---- what staging did not give */

static bool forged(const struct row *r) {
    const struct lent good = expected_staged(r);
    bool right = true;
    for (size_t n = 0; n < LERC2_STAGED; n++) {
        const uint64_t true_one = good.staged[n];
        const uint64_t high = (uint64_t)1 << 32, highest = (uint64_t)1 << 63;
        const uint64_t others[] = {true_one + 1,    true_one - 1,       true_one ^ 2, true_one ^ high,
                                   true_one * high, true_one ^ highest, ~true_one,    UINT64_MAX};
        for (size_t k = 0; k < sizeof others / sizeof *others; k++) {
            struct lent l = good;
            l.staged[n] = others[k];
            right &= true_one == others[k] || not_staged(r, "a forged number", l);
        }
        struct lent l = good;
        l.staged[n] = 0;
        right &= true_one == 0 || not_staged(r, "a number that is 0", l);
    }
    struct lent l = marked(); /* as a stage that was refused leaves its record */
    memcpy(l.spare, good.spare, sizeof l.spare);
    memcpy(l.list, good.list, sizeof l.list);
    right &= not_staged(r, "a refused answer", l);
    l = good;
    l.staged[LERC2_STAGED] = 0;
    const struct lent after = expected_published(r);
    return right & accepted(r, "another number behind the answer", l, &after);
}

/* each bit of the mask; behind it, and where the kept mask is reused, none counts */
static bool changed_spare(const struct row *r) {
    const struct lent good = expected_staged(r), after = expected_published(r);
    bool right = true;
    for (size_t bit = 0; bit < 8 * MASK; bit++) {
        struct lent l = good;
        l.spare[bit / 8] ^= (uint8_t)(1 << bit % 8);
        bool counts = r->in_force == LERC2_SPARE && bit < 8 * r->length;
        right &= counts ? not_staged(r, "a changed spare", l) : accepted(r, "a spare that does not count", l, &after);
    }
    return right;
}

static bool changed_list(const struct row *r) {
    const struct lent good = expected_staged(r), after = expected_published(r);
    bool right = true;
    for (size_t n = 0; n < STARTS; n++) {
        const size_t start = good.list[n], others[] = {0, start - 1, start + 1, start ^ (size_t)1 << 32, SIZE_MAX};
        for (size_t k = 0; k < sizeof others / sizeof *others; k++) {
            struct lent l = good;
            l.list[n] = others[k];
            right &= n < r->blocks ? not_staged(r, "a changed list", l) : accepted(r, "a list that does not count", l, &after);
        }
    }
    return right;
}

/* each answer, spare and list with each other blob */
static bool of_another(const struct row *r) {
    bool right = true;
    for (size_t n = 0; n < ROWS; n++) {
        struct lent l = expected_staged(&rows[n]);
        if (rows[n].number == 0 && &rows[n] != r) {
            right &= not_staged(r, rows[n].name, l);
        }
    }
    return right;
}

/* ---- short slices and records */

static bool short_ones(const struct row *r) {
    const struct lent good = expected_staged(r);
    const struct blob *b = &blobs[r - rows];
    const size_t length = (r->columns + 7) / 8;
    bool right = true;
    for (int n = 0; n < 7; n++) {
        struct room room = {length, length, length, r->columns, LERC2_STAGED, 2, 1};
        size_t *const slices[] = {&room.kept, &room.spare, &room.list, &room.image, &room.staged, &room.said, &room.place};
        --*slices[n];
        struct lent l = good;
        right &= refused(r, "publish, a short slice", &l, b, r->reuse, room, 5, 0);
        right &= n == 5 || refused_stage(r, "stage, a short slice", b, room, 5); /* it says nothing else */
    }
    struct room room = {length, length, length, r->columns, LERC2_STAGED, 2, 1}; /* enough */
    struct lent l = marked(), expected = expected_staged(r);
    right &= same(r, "stage, just room", stage(&l, b, r->reuse, room), 0, &l, &expected);
    expected = expected_published(r);
    return right & same(r, "publish, just room", publish(&l, b, r->reuse, room), 0, &l, &expected);
}

/* Each blob that ends early, and one of no bytes; records come before it, and the place before these. */
static bool cut(const struct row *r) {
    bool right = true;
    for (size_t size = 0; size < blobs[r - rows].size; size++) {
        struct blob b = blobs[r - rows];
        struct lent l = expected_staged(r);
        b.size = size;
        right &= refused_stage(r, "stage, cut", &b, usual, 1);
        right &= refused(r, "publish, cut", &l, &b, r->reuse, usual, 1, 0);
        l.staged[LERC2_STAGED_END] ^= 1;
        right &= refused(r, "publish, cut, a forged answer", &l, &b, r->reuse, usual, 1, 0);
        struct room room = usual;
        room.said = 1;
        right &= refused(r, "publish, cut, a short record", &l, &b, r->reuse, room, 5, 0);
        room.place = 0;
        right &= refused(r, "publish, cut, no place", &l, &b, r->reuse, room, 5, 0);
    }
    return right;
}

/* what the header earns: before room, and before 3 */
static bool headers(const struct row *r) {
    static const struct {
        size_t at;
        uint8_t byte;
        uint32_t number;
    } wrong[] = {{0, 'M', 2}, {6, 5, 2}, {38, 8, 3}, {30, 17, 4}, {34, 200, 1}, {10, 1, 13}, {70, 0x55, 13}};
    bool right = true;
    for (size_t n = 0; n < sizeof wrong / sizeof *wrong; n++) {
        struct blob b = blobs[r - rows];
        if (wrong[n].at < b.size) {
            b.bytes[wrong[n].at] = wrong[n].byte;
            struct lent l = expected_staged(r);
            struct room none = {0, 0, 0, 0, LERC2_STAGED, 2, 1};
            right &= refused_stage(r, "stage, a wrong header", &b, none, wrong[n].number);
            l.staged[LERC2_STAGED_END] ^= 1;
            right &= refused(r, "publish, a wrong header", &l, &b, r->reuse, none, wrong[n].number, 0);
        }
    }
    return right;
}

/* ---- between the two */

/* some blocks of a body in blocks, in any order, and all of them */
static bool filled_between(const struct row *r) {
    const struct blob *b = &blobs[r - rows];
    const struct lent after = expected_published(r);
    bool right = true;
    for (size_t fills = 1; r->blocks > 0 && fills <= 3; fills++) {
        struct lent l = expected_staged(r);
        uint64_t ranges[LERC2_RANGES], place, words;
        const uint8_t *mask = r->in_force == LERC2_SPARE ? l.spare : l.kept;
        uint32_t said = lerc2_read_ranges(b->bytes, b->size, l.staged, LERC2_HEADER, ranges, LERC2_RANGES, &place, 1);
        for (size_t n = 0; n < fills; n++) {
            said |= lerc2_fill(b->bytes, b->size, l.staged, LERC2_HEADER, ranges, LERC2_RANGES, mask, r->length, l.list,
                               r->blocks, (fills + n) % r->blocks, l.image, CELLS, &words, 1, &place, 1);
        }
        right &= said == 0 && accepted(r, "filled between", l, &after);
    }
    return right;
}

/* a kept mask that is reused: of as many pixels it is published by, of others the blob earns its number */
static bool changed_kept(void) {
    const struct row *r = &rows[REUSED];
    struct lent l = expected_staged(r), after = expected_published(r);
    l.kept[0] = after.kept[0] = 0xBF; /* the first pixel and the third, and bits behind them */
    after.image[0] = 11;
    after.image[1] = l.image[1];
    bool right = accepted(r, "another kept mask", l, &after);
    l.kept[0] = 0xE0;
    right &= refused(r, "a kept mask of three", &l, &blobs[REUSED], true, usual, 6, 66);
    l = expected_staged(r);
    right &= refused(r, "not reused any more", &l, &blobs[REUSED], false, usual, 6, 66);
    l = expected_staged(&rows[TWO]);
    after = expected_published(&rows[TWO]);
    memset(l.kept, 0, sizeof l.kept);
    memset(after.kept + 2, 0, sizeof l.kept - 2);
    return right & accepted(&rows[TWO], "a kept mask that does not count", l, &after);
}

int main(void) {
    bool right = true;
    for (size_t n = 0; n < ROWS; n++) {
        blobs[n] = made(&rows[n]);
    }
    for (const struct row *r = rows; r < rows + ROWS; r++) {
        right &= one_after_the_other(r);
        right &= r->number == 0 ? forged(r) & changed_spare(r) & changed_list(r) & of_another(r) & short_ones(r) & cut(r) &
                                      headers(r) & filled_between(r)
                                : earned_first(r);
    }
    right &= changed_kept();
    printf("%zu calls of stage and publish: %s\n", asked, right ? "as expected" : "not as expected");
    return right ? 0 : 1;
}
