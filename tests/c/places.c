/* What every function that can refuse a blob does with its last slice, the place (pack.c has those for packs): each is called on
 * the rules' own blob, which comes from standard input (crates/lerc2/stdin), with no room for a place, with a record that is too
 * short, rightly, on a blob whose block is wrong, and on blobs whose checksum is false: those that read the header say 13 at 0
 * and leave every slice as it was, those that have a header by value do not look.
 * Exit status: 0 as expected, 1 not so, 2 there is another blob on standard input. */
#include "../../include/lerc2.h"

#include <inttypes.h>
#include <stdio.h>
#include <string.h>

/* the blob's size, and where its one block begins */
enum { SIZE = 79, FLAG = 74, MARK = 7 };

/* where the checksum stands, four bytes, the lowest first, and the first byte that is summed */
enum { FIELD = 10, FIRST = 14 };

static uint8_t right[SIZE + 1], wrong[SIZE], unsealed[SIZE];

/* all that is lent, with marks */
struct lent {
    uint64_t header[LERC2_HEADER], ranges[LERC2_RANGES], staged[LERC2_STAGED], image[4], said[LERC2_RANGES], place[3];
    uint8_t kept[4], spare[4]; /* no padding, since all of it is compared */
    size_t list[2];
};

/* how a function is called: the blob, and how many numbers said and place have room for */
struct how {
    const uint8_t *blob;
    size_t said, place;
};

typedef uint32_t call(struct lent *l, struct how h);

static uint32_t folded(uint32_t sum) { return (sum & 0xFFFF) + (sum >> 16); }

/* The checksum as Esri's code has it: words of two bytes, the first one high, and their running sums. There are fewer than 359
 * words, which is where its sums are folded before the end, and one byte more. */
static uint32_t checksum(const uint8_t *blob) {
    uint32_t low = 0xFFFF, high = 0xFFFF;
    for (size_t k = FIRST; k + 1 < SIZE; k += 2) {
        low += (uint32_t)blob[k] << 8 | blob[k + 1];
        high += low;
    }
    low = folded(low) + ((uint32_t)blob[SIZE - 1] << 8);
    high = folded(high) + low;
    return folded(high) << 16 | folded(low);
}

static uint32_t field_of(const uint8_t *blob) {
    return blob[FIELD] | (uint32_t)blob[FIELD + 1] << 8 | (uint32_t)blob[FIELD + 2] << 16 | (uint32_t)blob[FIELD + 3] << 24;
}

static void set_field(uint8_t *blob, uint32_t field) {
    for (int k = 0; k < 4; k++) {
        blob[FIELD + k] = (uint8_t)(field >> 8 * k);
    }
}

static uint32_t read_header(struct lent *l, struct how h) {
    return lerc2_read_header(h.blob, SIZE, l->said, h.said, l->place, h.place);
}

static uint32_t read_all(struct lent *l, struct how h) {
    return lerc2_read(h.blob, SIZE, false, l->kept, 4, l->spare, 4, l->list, 2, l->image, 4, l->said, h.said, l->place,
                      h.place);
}

static uint32_t stage(struct lent *l, struct how h) {
    return lerc2_stage(h.blob, SIZE, false, l->kept, 4, l->spare, 4, l->list, 2, l->image, 4, l->said, h.said, l->place,
                       h.place);
}

/* with what staging of the right blob leaves */
static uint32_t publish(struct lent *l, struct how h) {
    const uint8_t spare[1] = {0xFF};
    const size_t list[1] = {FLAG};
    return lerc2_publish(h.blob, SIZE, false, l->staged, LERC2_STAGED, l->kept, 4, spare, 1, list, 1, l->image, 4, l->said,
                         h.said, l->place, h.place);
}

static uint32_t prepare_mask(struct lent *l, struct how h) {
    return lerc2_prepare_mask(h.blob, SIZE, l->header, LERC2_HEADER, false, l->kept, 4, l->spare, 4, l->said, h.said, l->place,
                              h.place);
}

static uint32_t read_ranges(struct lent *l, struct how h) {
    return lerc2_read_ranges(h.blob, SIZE, l->header, LERC2_HEADER, l->said, h.said, l->place, h.place);
}

static uint32_t walk(struct lent *l, struct how h) {
    const uint8_t mask[1] = {0xE0};
    return lerc2_walk(h.blob, SIZE, l->header, LERC2_HEADER, l->ranges, LERC2_RANGES, mask, 1, l->list, 2, l->said, h.said,
                      l->place, h.place);
}

static uint32_t fill_at(struct lent *l, struct how h, size_t start) {
    const uint8_t mask[1] = {0xE0};
    const size_t list[1] = {start};
    return lerc2_fill(h.blob, SIZE, l->header, LERC2_HEADER, l->ranges, LERC2_RANGES, mask, 1, list, 1, 0, l->image, 4, l->said,
                      h.said, l->place, h.place);
}

static uint32_t fill(struct lent *l, struct how h) { return fill_at(l, h, FLAG); }

static uint32_t fill_far(struct lent *l, struct how h) { return fill_at(l, h, SIZE_MAX); }

/* a number that fits its kind, or one that does not, by the blob */
static uint32_t stored(struct lent *l, struct how h) {
    return lerc2_stored(h.blob == wrong ? 0x4072C00000000000 : 0x4024000000000000, 1, l->said, h.said, l->place, h.place);
}

/* the numbers that a function says, and what it gives on the wrong blob */
static const struct entry {
    const char *name;
    call *function;
    size_t said;
    uint32_t number;
    uint64_t place;
} entries[] = {{"read_header", read_header, LERC2_HEADER, 0, 0}, {"read", read_all, LERC2_READ, 8, FLAG},
               {"stage", stage, LERC2_STAGED, 8, FLAG},          {"publish", publish, 2, 8, FLAG},
               {"prepare_mask", prepare_mask, 2, 0, 0},          {"read_ranges", read_ranges, LERC2_RANGES, 0, 0},
               {"walk", walk, 2, 8, FLAG},                       {"fill", fill, 1, 8, FLAG},
               {"fill far out", fill_far, 1, 1, SIZE_MAX},       {"stored", stored, 1, 9, 0}};

/* marks everywhere, but for the records that are read */
static struct lent marked(void) {
    struct lent l;
    uint64_t place, image[3] = {0};
    uint8_t masks[2] = {0};
    size_t start;
    memset(&l, MARK, sizeof l);
    lerc2_stage(right, SIZE, false, &masks[0], 1, &masks[1], 1, &start, 1, image, 3, l.staged, LERC2_STAGED, &place, 1);
    lerc2_read_header(right, SIZE, l.header, LERC2_HEADER, &place, 1);
    lerc2_read_ranges(right, SIZE, l.header, LERC2_HEADER, l.ranges, LERC2_RANGES, &place, 1);
    return l;
}

/* whether the number, the place and the marks behind it are those expected, and after a refusal of a record all else is kept */
static bool one(const struct entry *e, const char *what, struct how h, uint32_t number, uint64_t place, bool kept) {
    struct lent before = marked(), after = before, expected = before;
    expected.place[0] = h.place == 0 ? before.place[0] : place;
    uint32_t said = e->function(&after, h);
    bool places = memcmp(after.place, expected.place, sizeof after.place) == 0;
    bool same = said == number && places && (!kept || memcmp(&after, &expected, sizeof after) == 0);
    if (!same) {
        printf("%s, %s: %" PRIu32 " at %" PRIu64 "\n", e->name, what, said, after.place[0]);
    }
    return same;
}

/* every bit of the field the other way round, one by one, and a field of 0: whatever is lent stays */
static bool false_checksums(const struct entry *e) {
    bool reads = e->function == read_header || e->function == read_all || e->function == stage || e->function == publish;
    bool far = e->function == fill_far, same = true;
    uint32_t number = reads ? 13 : far ? 1 : 0;
    uint64_t place = far ? e->place : 0;
    struct how usual = {unsealed, e->said, 3};
    for (int bit = 0; bit <= 32; bit++) {
        set_field(unsealed, bit < 32 ? field_of(right) ^ (uint32_t)1 << bit : 0);
        same &= one(e, "a false checksum", usual, number, place, reads || far);
    }
    same &= one(e, "a false checksum, no place", (struct how){unsealed, e->said, 0}, 5, 0, true);
    same &= one(e, "a false checksum, a short record", (struct how){unsealed, e->said - 1, 3}, 5, 0, true);
    return same;
}

/* a false checksum comes before room, and room before all else */
static bool before_room(void) {
    struct lent after = marked(), expected = after;
    const uint8_t *blobs[2] = {unsealed, wrong};
    uint32_t said[2];
    for (int n = 0; n < 2; n++) {
        said[n] = lerc2_read(blobs[n], SIZE, false, after.kept, 0, after.spare, 0, after.list, 0, after.image, 0, after.said,
                             LERC2_READ, after.place, 3);
    }
    expected.place[0] = 0;
    bool same = said[0] == 13 && said[1] == 5 && memcmp(&after, &expected, sizeof after) == 0;
    if (!same) {
        printf("read, no room: %" PRIu32 ", and %" PRIu32 " with a true checksum\n", said[0], said[1]);
    }
    return same;
}

/* a fill far out is refused on any blob */
static bool all(const struct entry *e) {
    bool far = e->function == fill_far, same = true;
    struct how usual = {right, e->said, 3};
    same &= one(e, "no place", (struct how){right, e->said, 0}, 5, 0, true);
    same &= one(e, "no place, nor a record", (struct how){right, 0, 0}, 5, 0, true);
    same &= one(e, "a short record", (struct how){right, e->said - 1, 3}, 5, 0, true);
    same &= one(e, "a place of one number", (struct how){right, e->said, 1}, far ? 1 : 0, far ? e->place : 0, far);
    same &= one(e, "the right blob", usual, far ? 1 : 0, far ? e->place : 0, far);
    usual.blob = wrong;
    return same & one(e, "the wrong blob", usual, e->number, e->place, false);
}

int main(void) {
    if (fread(right, 1, SIZE + 1, stdin) != SIZE || right[FLAG] != 1 || field_of(right) != checksum(right)) {
        fprintf(stderr, "places: standard input is not the rules' own blob, crates/lerc2/stdin\n");
        return 2;
    }
    memcpy(wrong, right, SIZE);
    wrong[FLAG] ^= 4; /* other check bits */
    set_field(wrong, checksum(wrong));
    memcpy(unsealed, right, SIZE);
    bool same = true;
    for (size_t n = 0; n < sizeof entries / sizeof *entries; n++) {
        same &= all(&entries[n]) & false_checksums(&entries[n]);
    }
    same &= before_room();
    printf(same ? "as expected\n" : "not as expected\n");
    return same ? 0 : 1;
}
