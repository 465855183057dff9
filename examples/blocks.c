/* One blob from standard input, block by block: header, mask, ranges, walk, then each block from the last to the first.
 * Writes what each step said and the cells, '-' for one that is not valid; the first refusal is one line with the step,
 * its number and its place. Exit status: 0 decoded, 1 refused, 2 not read (the float unit is not as it must be), 3 output
 * lost. */
#include "../include/lerc2.h"

#include <inttypes.h>
#include <stdio.h>
#include <stdlib.h>

/* room for small tiles: of a larger one the mask, the list or the image is refused 5; a blob of more bytes is cut here,
 * and its header is refused 1 */
enum { BYTES = 65536, MASK = 512, CELLS = 4096 };

static uint8_t blob[BYTES], kept[MASK], spare[MASK];
static uint64_t header[LERC2_HEADER], ranges[LERC2_RANGES], image[CELLS], said[2], place[1];
static size_t list[CELLS];

/* what was written counts once it is out */
static int status_of(int status) { return fflush(stdout) == 0 && !ferror(stdout) ? status : 3; }

static void step(const char *name, uint32_t refused) {
    if (refused != 0) {
        printf("%s refused %" PRIu32 " at %" PRIu64 "\n", name, refused, place[0]);
        exit(status_of(1));
    }
}

/* the image holds words of valid pixels alone; the others were never written */
static void print_cells(const uint8_t *mask) {
    for (size_t c = 0; c < header[LERC2_ROWS] * header[LERC2_COLUMNS] * header[LERC2_DEPTH]; c++) {
        size_t p = c / header[LERC2_DEPTH];
        if (mask[p / 8] >> (7 - p % 8) & 1) {
            printf("cell %zu %" PRIu64 "\n", c, image[c]);
        } else {
            printf("cell %zu -\n", c);
        }
    }
}

int main(void) {
    if (!lerc2_float_ready(0)) {
        fprintf(stderr, "blocks: the float unit rounds otherwise or flushes small numbers (include/lerc2.h)\n");
        return 2;
    }
    size_t size = fread(blob, 1, BYTES, stdin);
    step("header", lerc2_read_header(blob, size, header, LERC2_HEADER, place, 1));
    step("mask", lerc2_prepare_mask(blob, size, header, LERC2_HEADER, false, kept, MASK, spare, MASK, said, 2, place, 1));
    const uint8_t *mask = said[0] == LERC2_KEPT ? kept : spare;
    size_t length = said[1];
    printf("mask %zu\n", length);
    step("ranges", lerc2_read_ranges(blob, size, header, LERC2_HEADER, ranges, LERC2_RANGES, place, 1));
    printf("body at %" PRIu64 "\n", ranges[LERC2_RANGES_AT]);
    step("walk", lerc2_walk(blob, size, header, LERC2_HEADER, ranges, LERC2_RANGES, mask, length, list, CELLS, said, 2,
                            place, 1));
    size_t count = said[0];
    printf("blocks %zu end %" PRIu64 "\n", count, said[1]);
    for (size_t n = count; 0 < n; n--) {
        step("fill", lerc2_fill(blob, size, header, LERC2_HEADER, ranges, LERC2_RANGES, mask, length, list, CELLS, n - 1,
                                image, CELLS, said, 2, place, 1));
        printf("block %zu at %zu words %" PRIu64 "\n", n - 1, list[n - 1], said[0]);
    }
    print_cells(mask);
    return status_of(0);
}
