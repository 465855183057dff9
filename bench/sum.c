// 200,000 sums of one sort of finite numbers, or the same loop without them. Built and counted by sum.sh.
#include "lerc2.h"

#include <stdio.h>
#include <string.h>

#define N 200000
static uint64_t a[N], b[N];

// xorshift: the same numbers each time
static uint64_t any(void) {
    static uint64_t s = 88172645463325252u;
    s ^= s << 13;
    s ^= s >> 7;
    s ^= s << 17;
    return s;
}

static uint64_t bits(double x) {
    uint64_t u;
    memcpy(&u, &x, 8);
    return u;
}

// exponent field 2047 would not be finite
static uint64_t finite(uint64_t w) { return (w >> 52 & 2047) == 2047 ? w ^ (uint64_t)1 << 60 : w; }

static void fill(const char *sort) {
    for (int i = 0; i < N; i++) {
        double x = (double)(any() % 100000) / 7, y = (double)(any() % 100000) / 3;
        if (!strcmp(sort, "any")) {
            a[i] = finite(any());
            b[i] = finite(any());
        } else {
            int signs = !strcmp(sort, "positive") ? 0 : !strcmp(sort, "opposite") ? 1 : (int)(any() % 4);
            a[i] = bits(signs & 1 ? -x : x);
            b[i] = bits(signs & 2 ? -y : y);
        }
    }
}

int main(int count, char **words) {
    static const char *const sorts[][2] = {{"positive", "positive, below 100,000"}, {"opposite", "of opposite signs, the same magnitudes"},
        {"either", "of any signs, the same magnitudes"}, {"any", "any finite bits"}};
    uint64_t all = 0;
    for (int k = 0; count == 3 && k < 4; k++) {
        if (strcmp(words[1], sorts[k][0])) continue;
        if (!strcmp(words[2], "name")) return puts(sorts[k][1]) < 0;
        fill(words[1]);
        if (!strcmp(words[2], "sum")) {
            for (int i = 0; i < N; i++) all ^= lerc2_sum(a[i], b[i]);
        } else {
            for (int i = 0; i < N; i++) all ^= a[i] + b[i];
        }
        return printf("%llx\n", (unsigned long long)all) < 0;
    }
    fputs("sum: SORT and sum, none or name\n", stderr);
    return 2;
}
