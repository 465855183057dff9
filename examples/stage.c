/* One blob from standard input in two calls: it is staged, while a unit could still steer by the old tile, and then
 * published. Writes what was staged, what was published and the cells, '-' for one that is not valid; a refusal is one
 * line with the call, its number and its place, and the tile is the old one then. Exit status: 0 decoded, 1 refused, 2 not
 * read (the float unit is not as it must be), 3 output lost. */
#include "../include/lerc2.h"

#include <inttypes.h>
#include <stdio.h>
#include <stdlib.h>

/* room for small tiles: a larger one is refused 5; a blob of more bytes is cut here, and refused 1 */
enum { BYTES = 65536, MASK = 512, CELLS = 4096 };

/* the tile, which others look at under a lock, */
static uint8_t kept[MASK];
static uint64_t image[CELLS];

/* and what they never see: the blob, and what staging leaves */
static uint8_t blob[BYTES], spare[MASK];
static uint64_t staged[LERC2_STAGED], said[2], place[1];
static size_t list[CELLS];

/* what was written counts once it is out */
static int status_of(int status) { return fflush(stdout) == 0 && !ferror(stdout) ? status : 3; }

static void step(const char *name, uint32_t refused) {
    if (refused != 0) {
        printf("%s refused %" PRIu32 " at %" PRIu64 "\n", name, refused, place[0]);
        exit(status_of(1));
    }
}

/* by the answer alone: the tile is not changed yet */
static void print_staged(void) {
    static const char *const bodies[] = {"empty", "constant", "raw", "in blocks", "a Huffman image"};
    printf("width %" PRIu64 " height %" PRIu64 " depth %" PRIu64 " kind %" PRIu64 " valid %" PRIu64 "\n",
           staged[LERC2_COLUMNS], staged[LERC2_ROWS], staged[LERC2_DEPTH], staged[LERC2_KIND], staged[LERC2_VALID]);
    printf("body %s\n", bodies[staged[LERC2_STAGED_BODY]]);
    printf("blocks %" PRIu64 " end %" PRIu64 "\n", staged[LERC2_STAGED_BLOCKS], staged[LERC2_STAGED_END]);
    printf("mask %s %" PRIu64 "\n", staged[LERC2_STAGED_MASK] == LERC2_KEPT ? "kept" : "new", staged[LERC2_STAGED_LENGTH]);
}

/* the image holds words of valid pixels alone; the others were never written */
static void print_cells(void) {
    for (size_t c = 0; c < staged[LERC2_ROWS] * staged[LERC2_COLUMNS] * staged[LERC2_DEPTH]; c++) {
        size_t p = c / staged[LERC2_DEPTH];
        if (kept[p / 8] >> (7 - p % 8) & 1) {
            printf("cell %zu %" PRIu64 "\n", c, image[c]);
        } else {
            printf("cell %zu -\n", c);
        }
    }
}

int main(void) {
    if (!lerc2_float_ready(0)) {
        fprintf(stderr, "stage: the float unit rounds otherwise or flushes small numbers (include/lerc2.h)\n");
        return 2;
    }
    size_t size = fread(blob, 1, BYTES, stdin);
    /* nothing that others look at is written: they may go on */
    step("stage", lerc2_stage(blob, size, false, kept, MASK, spare, MASK, list, CELLS, image, CELLS, staged, LERC2_STAGED,
                              place, 1));
    print_staged();
    /* here a unit takes the lock under which others look at the tile, and behind the call it gives it back */
    step("publish", lerc2_publish(blob, size, false, staged, LERC2_STAGED, kept, MASK, spare, MASK, list, CELLS, image,
                                  CELLS, said, 2, place, 1));
    printf("published end %" PRIu64 " words %" PRIu64 "\n", said[0], said[1]);
    print_cells();
    return status_of(0);
}
