/* Checksums of so many bytes, by the proved reader or by Esri's own function, counted or timed. Built by checksum.sh. */
#include "common.h"
#include "lerc2.h"

#include <stdio.h>
#include <stdlib.h>
#include <string.h>

/* Lerc2::ComputeChecksumFletcher32 of Esri's library, which its C interface does not offer */
uint32_t esri_checksum(const uint8_t *bytes, int count) __asm__("_ZN6LercNS5Lerc225ComputeChecksumFletcher32EPKhi");

#define MOST (1 << 20)
#define ROUNDS 200
static uint8_t bytes[MOST];

static uint32_t by(const char *side, size_t count) {
    return !strcmp(side, "proved") ? lerc2_checksum(bytes, count) : esri_checksum(bytes, (int)count);
}

/* the best of many rounds, in nanoseconds for each byte */
static double timed(const char *side, size_t count) {
    double best = 1e300;
    for (int i = 0; i < ROUNDS; i++) {
        double from = now();
        volatile uint32_t kept = by(side, count);
        double took = now() - from;
        (void)kept;
        if (took < best) best = took;
    }
    return best / (double)count;
}

int main(int words, char **word) {
    if (words == 4 && (!strcmp(word[1], "proved") || !strcmp(word[1], "esri"))) {
        size_t count = strtoul(word[2], NULL, 10);
        if (count > MOST) return 2;
        for (size_t i = 0; i < MOST; i++) bytes[i] = (uint8_t)rnd();
        if (!strcmp(word[3], "time")) return printf("%.3f\n", timed(word[1], count)) < 0;
        return printf("%08X\n", by(word[1], count)) < 0;
    }
    fputs("checksum: SIDE (proved, esri), COUNT, and once or time\n", stderr);
    return 2;
}
