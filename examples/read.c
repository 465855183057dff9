/* One blob from standard input, its cells as text to standard output; a refusal is one line with its number and its place.
 * Exit status: 0 decoded, 1 refused, 2 not read (no memory, or the float unit is not as it must be), 3 the output was lost.
 *
 * The blob is read into staged buffers. The tile is changed only when the blob was accepted, so that a caller that
 * holds an older tile keeps it whole whatever comes in. */
#include "../include/lerc2.h"

#include <inttypes.h>
#include <stdio.h>
#include <stdlib.h>
#include <string.h>

struct tile {
    uint64_t said[LERC2_READ];
    uint8_t *mask;
    uint64_t *image;
};

static void *room(size_t count, size_t size) {
    void *p = calloc(count ? count : 1, size);
    if (p == NULL) {
        fprintf(stderr, "read: no memory\n");
        exit(2);
    }
    return p;
}

/* the sizes that follow from a header that was accepted, so that no product wraps */
static size_t pixels(const uint64_t *h) { return h[LERC2_ROWS] * h[LERC2_COLUMNS]; }

static size_t cells(const uint64_t *h) { return pixels(h) * h[LERC2_DEPTH]; }

static size_t mask_length(const uint64_t *h) { return (pixels(h) + 7) / 8; }

static size_t strips(uint64_t side, uint64_t n) { return (n + side - 1) / side; }

static size_t blocks(const uint64_t *h) {
    return strips(h[LERC2_SIDE], h[LERC2_ROWS]) * strips(h[LERC2_SIDE], h[LERC2_COLUMNS]) * h[LERC2_DEPTH];
}

/* 0 and a new tile, or the number of the refusal, its place and the tile as it was */
static uint32_t read_tile(const uint8_t *blob, size_t size, struct tile *tile, uint64_t *place) {
    uint64_t header[LERC2_HEADER] = {0};
    uint32_t refused = lerc2_read_header(blob, size, header, LERC2_HEADER, place, 1);
    if (refused != 0) {
        return refused;
    }
    struct tile staged = {{0}, room(mask_length(header), 1), room(cells(header), sizeof(uint64_t))};
    uint8_t *spare = room(mask_length(header), 1);
    size_t *list = room(blocks(header), sizeof(size_t));
    refused = lerc2_read(blob, size, false, staged.mask, mask_length(header), spare, mask_length(header), list,
                         blocks(header), staged.image, cells(header), staged.said, LERC2_READ, place, 1);
    free(list);
    free(spare);
    struct tile old = refused == 0 ? *tile : staged;
    if (refused == 0) {
        *tile = staged; /* published, all of it at once */
    }
    free(old.mask);
    free(old.image);
    return refused;
}

static void print_tile(const struct tile *t) {
    const uint64_t *h = t->said;
    printf("width %" PRIu64 " height %" PRIu64 " depth %" PRIu64 " kind %" PRIu64 " valid %" PRIu64 "\n",
           h[LERC2_COLUMNS], h[LERC2_ROWS], h[LERC2_DEPTH], h[LERC2_KIND], h[LERC2_VALID]);
    printf("blocks %" PRIu64 "\n", h[LERC2_READ_BLOCKS]);
    for (size_t c = 0; c < cells(h); c++) {
        size_t p = c / h[LERC2_DEPTH];
        if (t->mask[p / 8] >> (7 - p % 8) & 1) {
            printf("cell %zu %" PRIu64 "\n", c, t->image[c]);
        } else {
            printf("cell %zu -\n", c);
        }
    }
    printf("end %" PRIu64 "\n", h[LERC2_READ_END]);
}

/* what was written counts once it is out */
static int status_of(int status) { return fflush(stdout) == 0 && !ferror(stdout) ? status : 3; }

int main(void) {
    enum { MOST = 16777216 };
    if (!lerc2_float_ready(0)) {
        fprintf(stderr, "read: the float unit rounds otherwise or flushes small numbers (include/lerc2.h)\n");
        return 2;
    }
    uint8_t *blob = room(MOST, 1);
    size_t size = fread(blob, 1, MOST, stdin);
    struct tile tile = {{0}, NULL, NULL};
    uint64_t place = 0;
    uint32_t refused = read_tile(blob, size, &tile, &place);
    free(blob);
    if (refused != 0) {
        printf("refused %" PRIu32 " at %" PRIu64 "\n", refused, place);
        return status_of(1);
    }
    print_tile(&tile);
    free(tile.mask);
    free(tile.image);
    return status_of(0);
}
