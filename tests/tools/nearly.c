/* A stand-in for lerc2_checksum, for tests/tools/run.sh: right as it is, and by one word to gcc nearly right, so that
 * tests/c/checksum.c is seen to tell. */
#include "../../include/lerc2.h"

/* the words of a group, what the sums begin with, what an odd byte is worth, whether an open group is folded */
#ifndef WORDS
#define WORDS 359
#endif
#ifndef BEGIN
#define BEGIN 65535
#endif
#ifndef ODD
#define ODD 256
#endif
#ifndef OPEN
#define OPEN 1
#endif
/* how the halves are put together */
#ifndef JOINED
#define JOINED(high, low) ((high) << 16 | (low))
#endif

static uint32_t folded(uint32_t sum) { return (sum & 0xFFFF) + (sum >> 16); }

uint32_t lerc2_checksum(const uint8_t *bytes, size_t count) {
    uint32_t low = BEGIN, high = BEGIN;
    for (size_t left = count / 2, words; left > 0; left -= words) {
        words = left < WORDS ? left : WORDS;
        for (size_t k = 0; k < words; k++, bytes += 2) {
            low += (uint32_t)bytes[0] << 8 | bytes[1];
            high += low;
        }
        if (OPEN || words == WORDS) {
            low = folded(low);
            high = folded(high);
        }
    }
    if (count % 2 == 1) {
        low += (uint32_t)ODD * bytes[0];
        high += low;
    }
    low = folded(low);
    high = folded(high);
    return JOINED(high, low);
}
