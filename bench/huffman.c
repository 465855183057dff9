/* A Huffman image of bytes: looked at, or read so many times by one side. Standard input is the blob. Built by huffman.sh. */
#include "lerc2.h"

#include <Lerc_c_api.h>
#include <stdio.h>
#include <stdlib.h>
#include <string.h>

#define MOST (1 << 24)
enum { SAME, DIFFERENT, WRONG, OTHER }; /* how the program ends: OTHER where there is no Huffman image */

static uint8_t blob[MOST + 1], *kept, *spare, *valid, *samples;
static uint64_t header[LERC2_HEADER], staged[LERC2_STAGED], said[LERC2_READ], place[1], *image;
static size_t count, *list, pixels, cells, mask_bytes, blocks;

static void *room(size_t n, size_t size) {
    void *got = calloc(n + 1, size);
    if (got == NULL) exit(WRONG);
    return got;
}

static uint32_t make_room(void) {
    uint32_t why = lerc2_read_header(blob, count, header, LERC2_HEADER, place, 1);
    if (why != 0) return why;
    size_t side = header[LERC2_SIDE];
    pixels = header[LERC2_ROWS] * header[LERC2_COLUMNS];
    cells = pixels * header[LERC2_DEPTH];
    mask_bytes = (pixels + 7) / 8;
    blocks = (header[LERC2_ROWS] + side - 1) / side * ((header[LERC2_COLUMNS] + side - 1) / side) * header[LERC2_DEPTH];
    kept = room(mask_bytes, 1), spare = room(mask_bytes, 1), valid = room(pixels, 1), samples = room(cells, 8);
    list = room(blocks, sizeof *list), image = room(cells, sizeof *image);
    return 0;
}

static uint32_t stage(void) {
    return lerc2_stage(blob, count, false, kept, mask_bytes, spare, mask_bytes, list, blocks, image, cells, staged, LERC2_STAGED,
                       place, 1);
}

static uint32_t publish(void) {
    return lerc2_publish(blob, count, false, staged, LERC2_STAGED, kept, mask_bytes, spare, mask_bytes, list, blocks, image, cells,
                         said, LERC2_READ, place, 1);
}

static uint32_t whole(void) {
    return lerc2_read(blob, count, false, kept, mask_bytes, spare, mask_bytes, list, blocks, image, cells, said, LERC2_READ, place,
                      1);
}

/* it is asked for a mask only where a pixel is not valid, as that costs it much */
static uint32_t esri(void) {
    int masks = header[LERC2_VALID] < pixels;
    return lerc_decode(blob, (unsigned)count, masks, masks ? valid : NULL, (int)header[LERC2_DEPTH], (int)header[LERC2_COLUMNS],
                       (int)header[LERC2_ROWS], 1, (unsigned)header[LERC2_KIND], samples);
}

/* ---- what it is */

static uint64_t little(const uint8_t *at, int bytes) {
    uint64_t v = 0;
    for (int i = 0; i < bytes; i++) v += (uint64_t)at[i] << (8 * i);
    return v;
}

/* the mode, whether pixels are not valid, how many codes there are and how long they are; the blob was accepted */
static void tell(void) {
    const uint8_t *at = blob + 70 + header[LERC2_MASK] + 2 * header[LERC2_DEPTH] + 1;
    const char *masked = header[LERC2_VALID] < pixels ? ", masked" : "";
    printf("%zu\t%dx%d", pixels, (int)header[LERC2_ROWS], (int)header[LERC2_COLUMNS]);
    if (header[LERC2_DEPTH] > 1) printf("x%d", (int)header[LERC2_DEPTH]);
    printf("\t%d%s, ", *at, masked);
    uint64_t n = little(at + 13, 4) - little(at + 9, 4);
    int first = at[17], width = first % 32, counted = first / 64 == 0 ? 4 : 3 - first / 64;
    if (first & 32) {
        puts("lengths by a table");
        return;
    }
    const uint8_t *bits = at + 18 + counted;
    uint64_t codes = 0, least = 32, most = 0;
    for (uint64_t k = 0; k < n; k++) {
        uint64_t length = 0;
        for (uint64_t i = 0; i < (uint64_t)width; i++) {
            uint64_t bit = k * width + i;
            length += (uint64_t)(bits[bit / 8] >> bit % 8 & 1) << i;
        }
        if (length == 0) continue;
        codes++;
        if (length < least) least = length;
        if (length > most) most = length;
    }
    printf("%d of %d to %d bits\n", (int)codes, (int)least, (int)most);
}

/* the same pixels are valid, and their cells hold the same bytes */
static int compared(void) {
    for (size_t p = 0; p < pixels; p++) {
        int ours = kept[p / 8] >> (7 - p % 8) & 1, theirs = header[LERC2_VALID] < pixels ? valid[p] != 0 : 1;
        if (ours != theirs) return printf("pixel %zu is valid for one of both alone\n", p), DIFFERENT;
        for (size_t c = p * header[LERC2_DEPTH]; ours && c < (p + 1) * header[LERC2_DEPTH]; c++)
            if (image[c] != samples[c]) return printf("cell %zu is %d, and %d of Esri\n", c, (int)image[c], samples[c]), DIFFERENT;
    }
    return SAME;
}

static int look(void) {
    uint32_t why = make_room();
    if (why == 0) why = stage();
    if (why != 0) return printf("refused, %u\n", why), OTHER;
    if (staged[LERC2_STAGED_BODY] != LERC2_HUFFMAN) return puts("no Huffman image"), OTHER;
    /* by two calls, then by one: cells that are not written differ */
    if ((why = publish()) != 0) return printf("published with %u\n", why), DIFFERENT;
    if ((why = esri()) != 0) return printf("status %u of Esri\n", why), DIFFERENT;
    if (compared() != SAME) return DIFFERENT;
    memset(image, 255, cells * sizeof *image);
    memset(kept, 255, mask_bytes);
    if ((why = whole()) != 0) return printf("read with %u\n", why), DIFFERENT;
    if (compared() != SAME) return DIFFERENT;
    tell();
    return SAME;
}

int main(int words, char **word) {
    uint32_t (*way)(void) = NULL;
    count = fread(blob, 1, sizeof blob, stdin);
    if (words == 2 && !strcmp(word[1], "look")) return look();
    if (words == 3 && !strcmp(word[1], "stage")) way = stage;
    if (words == 3 && !strcmp(word[1], "publish")) way = publish;
    if (words == 3 && !strcmp(word[1], "read")) way = whole;
    if (words == 3 && !strcmp(word[1], "esri")) way = esri;
    if (way == NULL) {
        fputs("huffman: look, or WAY (stage, publish, read, esri) and how many calls\n", stderr);
        return WRONG;
    }
    if (make_room() != 0 || (way == publish && stage() != 0)) return DIFFERENT;
    for (int i = atoi(word[2]); i > 0; i--)
        if (way() != 0) return DIFFERENT;
    return SAME;
}
