/* A pack of tiles from standard input: it is opened, each tile is staged, and published where it was accepted. Writes a
 * table of the field, a line for each tile, and a last line that counts. Exit status: 0 every tile was accepted, 1 the pack
 * or a tile was refused, 2 not run (unknown words, no memory, an input that cannot be read, or the float unit is not as it
 * must be), 3 the output was lost.
 *
 * A tile that is refused does not keep the others from being read: each is a blob of its own. */
#include "../include/lerc2.h"

#include <inttypes.h>
#include <stdio.h>
#include <stdlib.h>
#include <string.h>

static const char usage[] =
    "pack: reads a pack of Lerc2 version 4 tiles\n"
    "\n"
    "  pack < field.pack    opens the pack, stages each tile and publishes those that are accepted, and writes a table\n"
    "  pack --help          this text\n"
    "\n"
    "The table has a line of names, then a line for each tile:\n"
    "  row, column    where the tile stands in the field\n"
    "  kind           what a sample is: i8, u8, i16, u16, i32, u32, f32 or f64\n"
    "  size           rows x columns x depth of the tile, in cells\n"
    "  answer         'accepted', or 'refused N at P': why, as a number, and where to look, from the first byte of the\n"
    "                 tile's blob\n"
    "The last line counts: 'T tiles, A accepted, R refused'.\n"
    "A pack that is refused gives the one line 'refused 12 at 0'. The README has a table of numbers and places.\n"
    "\n"
    "Exit status: 0 every tile was accepted, 1 the pack or a tile was refused, 2 not run, 3 the output was lost.\n";

/* The room for one tile, as large as its header says. Here the tiles take turns; a unit has a mask and an image for each. */
struct room {
    size_t mask_count, list_count, image_count;
    uint8_t *kept, *spare;
    size_t *list;
    uint64_t *image;
};

/* where a tile was refused, or 0 and 0 */
struct answer {
    uint32_t refused;
    uint64_t place;
};

/* what was written counts once it is out */
static int status_of(int status) { return fflush(stdout) == 0 && !ferror(stdout) ? status : 3; }

static void not_run(const char *why) {
    fprintf(stderr, "pack: %s\n", why);
    exit(2);
}

static void *room_for(size_t count, size_t size) {
    void *p = calloc(count ? count : 1, size);
    if (p == NULL) {
        not_run("no memory");
    }
    return p;
}

/* ---- the input */

/* all of standard input, which may be more than 2^32 bytes */
static uint8_t *input(size_t *size) {
    size_t room = 65536;
    uint8_t *bytes = room_for(room, 1);
    *size = 0;
    for (size_t got; (got = fread(bytes + *size, 1, room - *size, stdin)) > 0;) {
        *size += got;
        if (*size == room) {
            uint8_t *more = room <= SIZE_MAX / 2 ? realloc(bytes, 2 * room) : NULL;
            if (more == NULL) {
                not_run("no memory");
            }
            bytes = more;
            room *= 2;
        }
    }
    if (ferror(stdin)) {
        not_run("standard input cannot be read");
    }
    return bytes;
}

/* ---- one tile */

/* the sizes that follow from a header that was accepted, so that no product wraps */
static size_t strips(uint64_t side, uint64_t n) { return (n + side - 1) / side; }

static struct room made(const uint64_t *h) {
    size_t pixels = h[LERC2_ROWS] * h[LERC2_COLUMNS], mask = (pixels + 7) / 8, cells = pixels * h[LERC2_DEPTH];
    size_t blocks = strips(h[LERC2_SIDE], h[LERC2_ROWS]) * strips(h[LERC2_SIDE], h[LERC2_COLUMNS]) * h[LERC2_DEPTH];
    return (struct room){mask,
                         blocks,
                         cells,
                         room_for(mask, 1),
                         room_for(mask, 1),
                         room_for(blocks, sizeof(size_t)),
                         room_for(cells, sizeof(uint64_t))};
}

static void given_back(struct room r) {
    free(r.kept);
    free(r.spare);
    free(r.list);
    free(r.image);
}

/* all of the checking, then all of the writing: in between a unit takes the lock under which others look at the tile */
static struct answer read_tile(const uint8_t *blob, size_t size, struct room r) {
    uint64_t staged[LERC2_STAGED], said[2], place = 0;
    uint32_t refused = lerc2_stage(blob, size, false, r.kept, r.mask_count, r.spare, r.mask_count, r.list, r.list_count,
                                   r.image, r.image_count, staged, LERC2_STAGED, &place, 1);
    if (refused == 0) {
        refused = lerc2_publish(blob, size, false, staged, LERC2_STAGED, r.kept, r.mask_count, r.spare, r.mask_count,
                                r.list, r.list_count, r.image, r.image_count, said, 2, &place, 1);
    }
    return (struct answer){refused, place};
}

/* ---- the table */

static void print_line(const uint64_t *entry, const uint64_t *h, struct answer a) {
    static const char *const kinds[] = {"i8", "u8", "i16", "u16", "i32", "u32", "f32", "f64"};
    char size[64];
    snprintf(size, sizeof size, "%" PRIu64 "x%" PRIu64 "x%" PRIu64, h[LERC2_ROWS], h[LERC2_COLUMNS], h[LERC2_DEPTH]);
    printf("%5" PRIu64 " %6" PRIu64 " %-4s %-14s ", entry[LERC2_ENTRY_ROW], entry[LERC2_ENTRY_COLUMN],
           kinds[entry[LERC2_ENTRY_KIND]], size);
    if (a.refused == 0) {
        printf("accepted\n");
    } else {
        printf("refused %" PRIu32 " at %" PRIu64 "\n", a.refused, a.place);
    }
}

/* The tile of a number; whether it was accepted. Entry and header are there, since the pack was opened. */
static bool tell_tile(const uint8_t *pack, size_t size, size_t tiles, size_t number) {
    uint64_t entry[LERC2_ENTRY], header[LERC2_HEADER], place;
    if (lerc2_pack_entry(pack, size, tiles, number, entry, LERC2_ENTRY, &place, 1) != 0) {
        not_run("an entry is missing");
    }
    const uint8_t *blob = pack + entry[LERC2_ENTRY_START];
    size_t length = entry[LERC2_ENTRY_LENGTH];
    if (lerc2_read_header(blob, length, header, LERC2_HEADER, &place, 1) != 0) {
        not_run("a header is missing");
    }
    struct room room = made(header);
    struct answer answer = read_tile(blob, length, room);
    given_back(room);
    print_line(entry, header, answer);
    return answer.refused == 0;
}

static int tell_pack(const uint8_t *pack, size_t size) {
    uint64_t tiles, place;
    uint32_t refused = lerc2_pack_open(pack, size, &tiles, 1, &place, 1);
    if (refused != 0) {
        printf("refused %" PRIu32 " at %" PRIu64 "\n", refused, place);
        return 1;
    }
    size_t accepted = 0;
    printf("%5s %6s %-4s %-14s %s\n", "row", "column", "kind", "size", "answer");
    for (size_t number = 0; number < tiles; number++) {
        accepted += tell_tile(pack, size, tiles, number);
    }
    printf("%" PRIu64 " tiles, %zu accepted, %zu refused\n", tiles, accepted, (size_t)tiles - accepted);
    return accepted == tiles ? 0 : 1;
}

int main(int argc, char **argv) {
    if (argc == 2 && (strcmp(argv[1], "--help") == 0 || strcmp(argv[1], "-h") == 0)) {
        fputs(usage, stdout);
        return status_of(0);
    }
    if (argc > 1) {
        not_run("no word is known but --help; the pack comes from standard input: pack < field.pack");
    }
    if (!lerc2_float_ready(0)) {
        not_run("the float unit rounds otherwise or flushes small numbers (include/lerc2.h)");
    }
    size_t size;
    uint8_t *pack = input(&size);
    int status = tell_pack(pack, size);
    free(pack);
    return status_of(status);
}
