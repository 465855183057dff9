/* A pack of 256 copies of one blob, opened so many times, or the checksum of each blob so many times. Built by pack.sh. */
#include "lerc2.h"

#include <stdio.h>
#include <stdlib.h>
#include <string.h>

#define TILES LERC2_TILES
#define MOST (1 << 16)
static uint8_t blob[MOST], bodies[TILES * MOST], pack[8 + 16 * TILES + TILES * MOST];

static void put(uint8_t *at, uint64_t v, int count) {
    for (int i = 0; i < count; i++) at[i] = (uint8_t)(v >> (8 * i));
}

/* the blob with more bytes behind its body, up to a size, and with another minimum and maximum; its checksum is true */
static void shape(size_t size, double least, double most) {
    put(blob + 34, size, 4);
    memcpy(blob + 50, &least, 8);
    memcpy(blob + 58, &most, 8);
    put(blob + 10, lerc2_checksum(blob + 14, size - 14), 4);
}

static size_t packed(size_t size) {
    uint16_t rows[TILES], columns[TILES];
    size_t lengths[TILES];
    uint64_t said[1], place[1];
    for (int i = 0; i < TILES; i++) {
        rows[i] = (uint16_t)(i / 16);
        columns[i] = (uint16_t)(i % 16);
        lengths[i] = size;
        memcpy(bodies + (size_t)i * size, blob, size);
    }
    uint32_t why = lerc2_pack_write(rows, TILES, columns, TILES, lengths, TILES, bodies, TILES * size, pack, sizeof pack, said, 1, place, 1);
    return why == 0 ? said[0] : 0;
}

int main(int words, char **word) {
    if (words != 6) return 2;
    size_t size = strtoul(word[2], NULL, 10);
    int rounds = atoi(word[5]);
    if (fread(blob, 1, MOST, stdin) < 70 || size > MOST) return 2;
    shape(size, atof(word[3]), atof(word[4]));
    size_t count = packed(size);
    if (count == 0) return 1;
    for (int i = 0; i < rounds; i++) {
        uint64_t said[1], place[1];
        if (!strcmp(word[1], "open")) {
            if (lerc2_pack_open(pack, count, said, 1, place, 1) != 0) return 1;
        } else {
            for (int k = 0; k < TILES; k++) {
                volatile uint32_t kept = lerc2_checksum(bodies + (size_t)k * size + 14, size - 14);
                (void)kept;
            }
        }
    }
    return 0;
}
