/* lerc2_checksum against a plain loop that is written from the rule: over each length up to two groups of words and some
 * bytes, of FF and of noise, and over bytes whose checksum is known, most of them such that a rule that is nearly the
 * same gives another (the rows are those of tests/checksum/rows.py).
 * Exit status: 0 as expected, 1 not so. */
#include "../../include/lerc2.h"

#include <inttypes.h>
#include <stdbool.h>
#include <stdio.h>
#include <string.h>

enum { GROUP = 359, LONGEST = 1440, FRONT = 8, BEHIND = 8 };

/* x mod 65,536 + x div 65,536 */
static uint64_t folded(uint64_t x) { return x % 65536 + x / 65536; }

static uint32_t by_rule(const uint8_t *bytes, size_t count) {
    uint64_t a = 65535, b = 65535;
    for (size_t word = 0; word < count / 2; word++) {
        a += 256 * (uint64_t)bytes[2 * word] + bytes[2 * word + 1];
        b += a;
        if ((word + 1) % GROUP == 0 || word + 1 == count / 2) {
            a = folded(a);
            b = folded(b);
        }
    }
    if (count % 2 == 1) {
        a += 256 * (uint64_t)bytes[count - 1];
        b += a;
    }
    return (uint32_t)(folded(b) * 65536 % 4294967296 | folded(a));
}

static size_t asked;

/* whether loop and function give this; the bytes stand at each address modulo 8, with others around them */
static bool gives(const char *what, const uint8_t *bytes, size_t count, uint32_t expected) {
    static uint8_t room[FRONT + LONGEST + BEHIND];
    uint32_t said = by_rule(bytes, count);
    for (size_t front = 0; front < FRONT && said == expected; front++) {
        memset(room, (int)(37 * front + 1), sizeof room);
        memcpy(room + front, bytes, count);
        said = lerc2_checksum(room + front, count);
    }
    if (said != expected) {
        printf("%s, %zu bytes: %08" PRIX32 ", and not %08" PRIX32 "\n", what, count, said, expected);
    }
    asked++;
    return said == expected;
}

static bool each_length(const char *what, const uint8_t *bytes) {
    bool same = true;
    for (size_t count = 0; count <= LONGEST; count++) {
        same &= gives(what, bytes, count, by_rule(bytes, count));
    }
    return same;
}

static bool lengths(void) {
    static uint8_t full[LONGEST], noise[LONGEST];
    bool same = true;
    memset(full, 0xFF, LONGEST);
    for (uint64_t seed = 1; seed <= 3; seed++) {
        uint64_t state = seed;
        for (size_t k = 0; k < LONGEST; k++) {
            state = state * 6364136223846793005 + 1442695040888963407;
            noise[k] = (uint8_t)(state >> 56);
        }
        same &= each_length("noise", noise);
    }
    return each_length("FF", full) & same;
}

/* FF over and over, then others, and the checksum of all */
static const struct {
    size_t full, count;
    uint8_t last[6];
    uint32_t checksum;
} strings[] = {{0, 0, {0}, 0xFFFFFFFF},
               {0, 2, {'a', 'b'}, 0x61626162},
               {512, 3, {0x01, 0x00, 0xFF}, 0x01010000},
               {0, 5, {0x00, 0x01, 0x80, 0x7E, 0xFF}, 0x00007F80},
               {38, 5, {0x00, 0xD8, 0xFF, 0x3B, 0xFF}, 0x0000FF14},
               {38, 5, {0x00, 0xD9, 0xFF, 0x3A, 0xFF}, 0x0001FF14}};

static bool known_strings(void) {
    uint8_t bytes[LONGEST];
    bool same = true;
    for (size_t n = 0; n < sizeof strings / sizeof *strings; n++) {
        memset(bytes, 0xFF, strings[n].full);
        memcpy(bytes + strings[n].full, strings[n].last, strings[n].count);
        same &= gives("a known string", bytes, strings[n].full + strings[n].count, strings[n].checksum);
    }
    return same;
}

/* a raw row of u8: 0, 255, one value over and over, and the last three cells */
static const struct {
    uint32_t columns;
    uint8_t most, last[3];
    uint32_t checksum;
} rows[] = {{8, 255, {0, 93, 128}, 0x00003EBD},
            {48, 249, {71, 146, 255}, 0x0000FE6E},
            {64, 198, {20, 184, 255}, 0x0001FE64},
            {560, 255, {202, 153, 255}, 0xDA630000},
            {564, 255, {190, 153, 255}, 0x873D0000},
            {8, 253, {67, 100, 0}, 0x0000FFBF},
            {540, 241, {175, 80, 255}, 0xF32F0000},
            {660, 255, {158, 152, 255}, 0xFBF50000},
            {662, 255, {152, 152, 255}, 0xA4650001}};

/* so many bytes of a number, the lowest first; what comes behind them */
static uint8_t *put(uint8_t *at, uint64_t number, int bytes) {
    for (int k = 0; k < bytes; k++) {
        *at++ = (uint8_t)(number >> 8 * k);
    }
    return at;
}

/* the bytes of a blob from 14 on: a row of u8, whose body is so many bytes; least and greatest are the bits of doubles */
static uint8_t *put_header(uint8_t *at, uint32_t columns, uint32_t body, uint64_t least, uint64_t greatest) {
    const uint32_t fields[] = {1, columns, 1, columns, 8, 70 + body, 1};
    for (size_t n = 0; n < sizeof fields / sizeof *fields; n++) {
        at = put(at, fields[n], 4);
    }
    at = put(at, 0x3FE0000000000000, 8); /* an error of 0.5 */
    return put(put(put(at, least, 8), greatest, 8), 0, 4);
}

static bool known_rows(void) {
    uint8_t bytes[LONGEST];
    bool same = true;
    for (size_t n = 0; n < sizeof rows / sizeof *rows; n++) {
        const uint8_t first[] = {0, 255, 1, 0, 255}; /* the ranges, the sweep byte, two cells */
        uint8_t *at = put_header(bytes, rows[n].columns, 3 + rows[n].columns, 0, 0x406FE00000000000);
        memcpy(at, first, sizeof first);
        memset(at + 5, rows[n].most, rows[n].columns - 5);
        memcpy(at + rows[n].columns, rows[n].last, 3);
        same &= gives("a row", bytes, 59 + rows[n].columns, rows[n].checksum);
    }
    /* four cells in a raw block: ranges, sweep and mode byte, flag byte, cells */
    const uint8_t block[] = {5, 144, 0, 0, 0, 5, 23, 139, 144};
    memcpy(put_header(bytes, 4, sizeof block, 0x4014000000000000, 0x4062000000000000), block, sizeof block);
    return gives("a row in a block", bytes, 56 + sizeof block, 0x000065E1) & same;
}

int main(void) {
    bool same = lengths() & known_strings() & known_rows();
    printf("%zu strings of bytes: %s\n", asked, same ? "as expected" : "not as expected");
    return same ? 0 : 1;
}
