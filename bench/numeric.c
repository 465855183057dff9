// Nanoseconds of the word arithmetic, least of 200 rounds over 4,096 operands, beside the machine's own binary64.
// Built by measure.sh.
#include "common.h"

#include <stdio.h>
#include <string.h>

uint64_t measured_plus(uint64_t a, uint64_t b);
uint64_t measured_scale(uint64_t a, uint32_t q);
uint32_t measured_narrow(uint64_t v);
uint64_t measured_number(uint64_t v, uint32_t kind);

#define N 4096
static uint64_t a[N], b[N];
static uint32_t q[N];

static uint64_t bits(double x) {
    uint64_t u;
    memcpy(&u, &x, 8);
    return u;
}

static double value(uint64_t u) {
    double x;
    memcpy(&x, &u, 8);
    return x;
}

static void fill(int mode) {
    for (int i = 0; i < N; i++) {
        q[i] = rnd() % 4096;
        if (mode == 0) a[i] = bits((double)(rnd() % 4096) / 8), b[i] = bits((double)(rnd() % 4096) * 0.02);
        if (mode == 1) a[i] = bits((double)(rnd() % 2000000) / 37.0 - 20000.0), b[i] = bits((double)(rnd() % 100000) / 3.0);
        if (mode == 2) a[i] = rnd(), b[i] = rnd(), q[i] = (uint32_t)rnd();
    }
}

#define LEAST(slot, call)                       \
    t = now();                                  \
    for (int i = 0; i < N; i++) x += (call);    \
    t = (now() - t) / N;                        \
    if (t < best[slot]) best[slot] = t;

int main(void) {
    const char *names[] = {"steps", "mixed", "any bits"};
    volatile uint64_t sink = 0;
    for (int mode = 0; mode < 3; mode++) {
        fill(mode);
        double best[5] = {1e9, 1e9, 1e9, 1e9, 1e9}, t;
        for (int r = 0; r < 200; r++) {
            uint64_t x = 0;
            LEAST(0, measured_plus(a[i], b[i]))
            LEAST(1, measured_scale(a[i], q[i]))
            LEAST(2, measured_narrow(a[i]))
            LEAST(3, measured_number(b[i], i % 8))
            LEAST(4, bits(value(a[i]) + value(b[i])))
            sink += x;
        }
        printf("%-8s plus %4.1f  scale %4.1f  narrow %4.1f  number %4.1f  machine's add %4.1f ns\n", names[mode], best[0], best[1],
               best[2], best[3], best[4]);
    }
    return 0;
}
