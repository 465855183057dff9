/* How much stack the functions of the C interface use: each is called on a stack of its own, painted before, and the
 * lowest byte that has changed tells. Blobs are the files named; for each blob and function a line with name and bytes,
 * the return address of the call included. For tests/stack/run.py. */
#include "../../include/lerc2.h"

#include <stdio.h>
#include <stdlib.h>
#include <string.h>
#include <ucontext.h>

enum { STACK = 1 << 18, PAINT = 0xA5, BYTES = 1 << 20, MASK = 1 << 14, CELLS = 1 << 16 };

static uint8_t stack[STACK] __attribute__((aligned(16)));
static uint8_t blob[BYTES], kept[MASK], spare[MASK];
static uint8_t bodies[2 * BYTES], pack[3 * BYTES];
static uint64_t header[LERC2_HEADER], ranges[LERC2_RANGES], staged[LERC2_STAGED], image[CELLS], said[LERC2_READ], place[1];
static uint64_t entry[LERC2_ENTRY];
static size_t size, list[CELLS], count, length;
static const uint8_t *mask;

/* where the return address of the last call stands: a stop in front of each function notes it */
uintptr_t return_address;
#define NOTED(function)                                                                                               \
    extern __typeof__(function) noted_##function;                                                                     \
    __asm__(".text\n.globl noted_" #function "\nnoted_" #function ":\n\tmov %rsp, return_address(%rip)\n\tjmp " #function "\n")

NOTED(lerc2_read_header);
NOTED(lerc2_read);
NOTED(lerc2_stage);
NOTED(lerc2_publish);
NOTED(lerc2_prepare_mask);
NOTED(lerc2_read_ranges);
NOTED(lerc2_walk);
NOTED(lerc2_fill);
NOTED(lerc2_pack_open);
NOTED(lerc2_pack_entry);
NOTED(lerc2_pack_write);
NOTED(lerc2_float_ready);
NOTED(lerc2_sum);
NOTED(lerc2_scaled);
NOTED(lerc2_narrow);
NOTED(lerc2_number);
NOTED(lerc2_stored);
NOTED(lerc2_checksum);

static uint32_t answer;

static void call_read_header(void) { answer = noted_lerc2_read_header(blob, size, header, LERC2_HEADER, place, 1); }

static void call_prepare_mask(void) {
    answer = noted_lerc2_prepare_mask(blob, size, header, LERC2_HEADER, false, kept, MASK, spare, MASK, said, 2, place, 1);
}

static void call_read_ranges(void) {
    answer = noted_lerc2_read_ranges(blob, size, header, LERC2_HEADER, ranges, LERC2_RANGES, place, 1);
}

static void call_walk(void) {
    answer = noted_lerc2_walk(blob, size, header, LERC2_HEADER, ranges, LERC2_RANGES, mask, length, list, CELLS, said, 2, place,
                              1);
}

static void call_fill(void) {
    for (size_t n = 0; n < count; n++) {
        answer |= noted_lerc2_fill(blob, size, header, LERC2_HEADER, ranges, LERC2_RANGES, mask, length, list, CELLS, n, image,
                                   CELLS, said, 1, place, 1);
    }
}

static void call_read(void) {
    answer = noted_lerc2_read(blob, size, false, kept, MASK, spare, MASK, list, CELLS, image, CELLS, said, LERC2_READ, place,
                              1);
}

static void call_stage(void) {
    answer = noted_lerc2_stage(blob, size, false, kept, MASK, spare, MASK, list, CELLS, image, CELLS, staged, LERC2_STAGED,
                               place, 1);
}

static void call_publish(void) {
    answer = noted_lerc2_publish(blob, size, false, staged, LERC2_STAGED, kept, MASK, spare, MASK, list, CELLS, image, CELLS,
                                 said, 2, place, 1);
}

/* a pack of the blob twice, which is opened and asked for its second tile */
static size_t packed;

static void call_pack_write(void) {
    static const uint16_t rows[] = {0, 0}, columns[] = {0, 1};
    const size_t lengths[] = {header[LERC2_SIZE], header[LERC2_SIZE]};
    answer = noted_lerc2_pack_write(rows, 2, columns, 2, lengths, 2, bodies, 2 * lengths[0], pack, sizeof pack, said, 1, place,
                                    1);
}

static void call_pack_open(void) { answer = noted_lerc2_pack_open(pack, packed, said, 1, place, 1); }

static void call_pack_entry(void) {
    answer = noted_lerc2_pack_entry(pack, packed, 2, 1, entry, LERC2_ENTRY, place, 1);
}

/* operands that are far apart, that cancel, that are small and that are not finite */
static const uint64_t operands[] = {0, 1, 0x3FF0000000000000, 0xBFF0000000000001, 0x4340000000000000, 0x7FE0000000000000,
                                    0x7FF0000000000000, 0x8000000000000000, 0xC05FE00000000000, 0x3810000000000001};
enum { OPERANDS = sizeof(operands) / sizeof(operands[0]) };
static uint64_t result;

static void call_float_ready(void) {
    for (size_t n = 0; n < OPERANDS; n++) {
        result += noted_lerc2_float_ready(operands[n]);
    }
}

static void call_sum(void) {
    for (size_t n = 0; n < OPERANDS * OPERANDS; n++) {
        result += noted_lerc2_sum(operands[n / OPERANDS], operands[n % OPERANDS]);
    }
}

static void call_scaled(void) {
    for (size_t n = 0; n < OPERANDS * OPERANDS; n++) {
        result += noted_lerc2_scaled(operands[n / OPERANDS], (uint32_t)operands[n % OPERANDS] + 3 * (uint32_t)n);
    }
}

static void call_narrow(void) {
    for (size_t n = 0; n < OPERANDS; n++) {
        result += noted_lerc2_narrow(operands[n]);
    }
}

static void call_number(void) {
    for (size_t n = 0; n < OPERANDS * 8; n++) {
        result += noted_lerc2_number(operands[n / 8], (uint32_t)n % 8);
    }
}

static void call_stored(void) {
    for (size_t n = 0; n < OPERANDS * 8; n++) {
        result += noted_lerc2_stored(operands[n / 8], (uint32_t)n % 8, said, 1, place, 1);
    }
}

/* nothing, an odd byte, an open group of 359 words, whole ones */
static void call_checksum(void) {
    static const size_t counts[] = {0, 1, 2, 3, 716, 717, 718, 719, 720, 1436, 1437, BYTES - 1, BYTES};
    for (size_t n = 0; n < sizeof(counts) / sizeof(counts[0]); n++) {
        result += noted_lerc2_checksum(blob, counts[n]);
    }
}

static ucontext_t here, there;
static void (*call)(void);

/* Room above the call, so that what leads to it and away from it stays above what is measured. */
static void aside(void) {
    uint8_t above[4096];
    __asm__ volatile("" : : "r"(above) : "memory");
    call();
    __asm__ volatile("" : : "r"(above) : "memory");
}

/* One call on the painted stack; 0 where it was refused, since the next one builds on it. */
static int used(const char *name, void (*function)(void)) {
    memset(stack, PAINT, STACK);
    call = function;
    answer = 0;
    getcontext(&there);
    there.uc_stack.ss_sp = stack;
    there.uc_stack.ss_size = STACK;
    there.uc_link = &here;
    makecontext(&there, aside, 0);
    swapcontext(&here, &there);
    size_t lowest = 0;
    while (stack[lowest] == PAINT) {
        lowest++;
    }
    if (lowest == 0) {
        fprintf(stderr, "painted: %s used all of the stack\n", name);
        exit(1);
    }
    printf("%s %zu\n", name, (size_t)(return_address + 8 - (uintptr_t)(stack + lowest)));
    return answer == 0;
}

static void use_pack(void) {
    memcpy(bodies, blob, header[LERC2_SIZE]);
    memcpy(bodies + header[LERC2_SIZE], blob, header[LERC2_SIZE]);
    if (used("lerc2_pack_write", call_pack_write)) {
        packed = said[0];
        used("lerc2_pack_open", call_pack_open);
        used("lerc2_pack_entry", call_pack_entry);
    }
}

static void use_blob(const char *path) {
    FILE *file = fopen(path, "rb");
    if (file == NULL) {
        perror(path);
        exit(1);
    }
    size = fread(blob, 1, BYTES, file);
    fclose(file);
    used("lerc2_read", call_read);
    used("lerc2_stage", call_stage);
    used("lerc2_publish", call_publish);
    if (!used("lerc2_read_header", call_read_header)) {
        return;
    }
    use_pack();
    if (!used("lerc2_prepare_mask", call_prepare_mask)) {
        return;
    }
    mask = said[0] == LERC2_KEPT ? kept : spare;
    length = said[1];
    if (!used("lerc2_read_ranges", call_read_ranges) || !used("lerc2_walk", call_walk)) {
        return;
    }
    count = said[0];
    used("lerc2_fill", call_fill);
}

int main(int words, char **word) {
    for (int n = 1; n < words; n++) {
        use_blob(word[n]);
    }
    used("lerc2_float_ready", call_float_ready);
    used("lerc2_sum", call_sum);
    used("lerc2_scaled", call_scaled);
    used("lerc2_narrow", call_narrow);
    used("lerc2_number", call_number);
    used("lerc2_stored", call_stored);
    used("lerc2_checksum", call_checksum);
    return 0;
}
