// Nanoseconds for packed counts in the plain form: 256 values, widths 0 to 31, least of many rounds, beside a reader
// that goes bit by bit, whose values must agree. Built by measure.sh.
#include "common.h"

#include <stdio.h>
#include <stdlib.h>
#include <string.h>

uint64_t measured_decode(const uint8_t *s, size_t len, size_t start, uint32_t *out);
uint64_t measured_inspect(const uint8_t *s, size_t len, size_t start);

static uint32_t bitwise(const uint8_t *p, size_t bit, int w) {
    uint32_t v = 0;
    for (int i = 0; i < w; i++, bit++) v |= (uint32_t)(p[bit / 8] >> (bit % 8) & 1) << i;
    return v;
}

int main(void) {
    static uint8_t s[8192];
    static uint32_t out[256];
    double worst = 0;
    for (int w = 0; w <= 31; w++) {
        size_t len = 3 + (256 * w + 7) / 8 + 64;
        for (size_t i = 0; i < len; i++) s[i] = (uint8_t)rnd();
        s[0] = 64 + w, s[1] = 0, s[2] = 1;
        if (measured_decode(s, len, 0, out) != 256) return printf("refused at width %d\n", w), 1;
        for (int k = 0; k < 256; k++)
            if (out[k] != bitwise(s + 3, (size_t)k * w, w)) return printf("wrong at width %d, value %d\n", w, k), 1;
        double best = 1e18, look = 1e18, plain = 1e18;
        volatile uint64_t sink = 0;
        for (int r = 0; r < 400; r++) {
            double t = now();
            for (int i = 0; i < 50; i++) sink += measured_decode(s, len, 0, out);
            if ((t = (now() - t) / 50) < best) best = t;
            t = now();
            for (int i = 0; i < 50; i++) sink += measured_inspect(s, len, 0);
            if ((t = (now() - t) / 50) < look) look = t;
            t = now();
            for (int k = 0; k < 256; k++) out[k] = bitwise(s + 3, (size_t)k * w, w);
            sink += out[sink & 255];
            if ((t = now() - t) < plain) plain = t;
        }
        if (w >= 3 && w <= 20 && best / 256 > worst) worst = best / 256;
        if (w % 4 == 0 || w == 31)
            printf("width %2d: %5.2f ns a value, inspect %5.1f ns, bit by bit %5.2f ns a value\n", w, best / 256, look, plain / 256);
    }
    printf("worst of 3 to 20 bits: %.2f ns a value\n", worst);
    return 0;
}
