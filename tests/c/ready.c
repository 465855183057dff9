/* Whether lerc2_float_ready tells a float unit that was changed: each mode is set, asked for, and set back.
 *     ready            for the archive that uses the machine's float unit: ready in no other mode
 *     ready words      for one that computes over whole numbers alone: ready in every mode
 * Exit status: 0 as expected, 1 not so, 2 unknown words, or a mode could not be set. */
#include "../../include/lerc2.h"

#include <fenv.h>
#include <stdio.h>
#include <string.h>

/* what a mode changes: the rounding, or bits of the control register */
struct mode {
    const char *name;
    int rounding;
    uint64_t bits;
};

#if defined(__x86_64__)
#include <pmmintrin.h>
#include <xmmintrin.h>

static void set_bits(uint64_t bits) {
    _MM_SET_FLUSH_ZERO_MODE(bits & _MM_FLUSH_ZERO_MASK);
    _MM_SET_DENORMALS_ZERO_MODE(bits & _MM_DENORMALS_ZERO_MASK);
}

static uint64_t get_bits(void) { return _mm_getcsr() & (_MM_FLUSH_ZERO_MASK | _MM_DENORMALS_ZERO_MASK); }

#define FLUSHING                                                                                                       \
    {"flush to zero", FE_TONEAREST, _MM_FLUSH_ZERO_ON}, {"denormals are zeros", FE_TONEAREST, _MM_DENORMALS_ZERO_ON}, \
        {"both", FE_TONEAREST, _MM_FLUSH_ZERO_ON | _MM_DENORMALS_ZERO_ON},
#elif defined(__aarch64__)
/* FZ, which flushes operands and results */
enum { FZ = 1 << 24 };

static uint64_t get_fpcr(void) {
    uint64_t fpcr;
    __asm__ volatile("mrs %0, fpcr" : "=r"(fpcr));
    return fpcr;
}

static void set_bits(uint64_t bits) {
    uint64_t fpcr = (get_fpcr() & ~(uint64_t)FZ) | bits;
    __asm__ volatile("msr fpcr, %0" : : "r"(fpcr));
}

static uint64_t get_bits(void) { return get_fpcr() & FZ; }

#define FLUSHING {"flush to zero", FE_TONEAREST, FZ},
#else
#error "x86-64 or arm64"
#endif

static const struct mode modes[] = {{"upward", FE_UPWARD, 0},
                                    {"downward", FE_DOWNWARD, 0},
                                    {"toward zero", FE_TOWARDZERO, 0},
                                    FLUSHING {"to nearest", FE_TONEAREST, 0}};

/* 0 where what is asked in this mode is said, 1 where not, 2 where it could not be set */
static int differs(const struct mode *mode, bool expected) {
    bool set = fesetround(mode->rounding) == 0;
    set_bits(mode->bits);
    set = set && get_bits() == mode->bits;
    bool ready = lerc2_float_ready(0);
    set_bits(0);
    bool back = fesetround(FE_TONEAREST) == 0 && lerc2_float_ready(0);
    printf("%s: %s%s\n", mode->name, ready ? "ready" : "not ready", back ? "" : ", and not ready afterwards");
    return !set ? 2 : ready != expected || !back;
}

int main(int argc, char **argv) {
    bool words = argc == 2 && strcmp(argv[1], "words") == 0;
    if (argc > 1 && !words) {
        fprintf(stderr, "ready: unknown word %s; usage: ready [words]\n", argv[1]);
        return 2;
    }
    int status = lerc2_float_ready(0) ? 0 : 1;
    for (size_t n = 0; n < sizeof modes / sizeof *modes && status < 2; n++) {
        bool usual = modes[n].rounding == FE_TONEAREST && modes[n].bits == 0;
        int said = differs(&modes[n], words || usual);
        status = status < said ? said : status;
    }
    printf(status == 0 ? "as expected\n" : "not as expected\n");
    return status;
}
