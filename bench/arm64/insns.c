/* Counts the instructions that a program runs, for qemu-user's -plugin: the last lines are `insns N`, and with the word
 * functions=on the functions that most of them are in. Debian ships no header for plugins; what is used is declared here. */
#include <stdint.h>
#include <stdio.h>
#include <stdlib.h>
#include <string.h>

struct block;
struct instruction;
extern void qemu_plugin_register_vcpu_tb_trans_cb(uint64_t, void (*)(uint64_t, struct block *));
extern void qemu_plugin_register_atexit_cb(uint64_t, void (*)(uint64_t, void *), void *);
extern size_t qemu_plugin_tb_n_insns(const struct block *);
extern struct instruction *qemu_plugin_tb_get_insn(const struct block *, size_t);
extern const char *qemu_plugin_insn_symbol(const struct instruction *);
extern void qemu_plugin_register_vcpu_insn_exec_inline(struct instruction *, int, void *, uint64_t);

#define SHOWN __attribute__((visibility("default")))
SHOWN int qemu_plugin_version = 1;

enum { ADD = 0, MOST = 4096, LISTED = 12 };
static struct {
    char *name;
    uint64_t count;
} functions[MOST];
static size_t used;
static int listing;

/* where an instruction is counted; all in one place unless functions are asked for */
static size_t place(const char *name) {
    if (!listing || name == NULL) {
        name = "?";
    }
    for (size_t i = 0; i < used; i++) {
        if (strcmp(functions[i].name, name) == 0) {
            return i;
        }
    }
    if (used == MOST) {
        return 0;
    }
    functions[used].name = strdup(name);
    return used++;
}

static void translated(uint64_t id, struct block *block) {
    (void)id;
    for (size_t i = 0; i < qemu_plugin_tb_n_insns(block); i++) {
        struct instruction *each = qemu_plugin_tb_get_insn(block, i);
        uint64_t *count = &functions[place(qemu_plugin_insn_symbol(each))].count;
        qemu_plugin_register_vcpu_insn_exec_inline(each, ADD, count, 1);
    }
}

static int by_count(const void *a, const void *b) {
    uint64_t x = functions[*(const size_t *)a].count, y = functions[*(const size_t *)b].count;
    return x < y ? 1 : x > y ? -1 : 0;
}

static void ended(uint64_t id, void *unused) {
    (void)id;
    (void)unused;
    static size_t order[MOST];
    uint64_t sum = 0;
    for (size_t i = 0; i < used; i++) {
        order[i] = i;
        sum += functions[i].count;
    }
    qsort(order, used, sizeof order[0], by_count);
    for (size_t i = 0; listing && i < used && i < LISTED; i++) {
        uint64_t count = functions[order[i]].count;
        fprintf(stderr, "%14llu %5.1f%% %s\n", (unsigned long long)count, 100.0 * (double)count / (double)sum,
                functions[order[i]].name);
    }
    fprintf(stderr, "insns %llu\n", (unsigned long long)sum);
}

SHOWN int qemu_plugin_install(uint64_t id, const void *info, int argc, char **argv) {
    (void)info;
    for (int i = 0; i < argc; i++) {
        listing = listing || strcmp(argv[i], "functions=on") == 0;
    }
    place(NULL);
    qemu_plugin_register_vcpu_tb_trans_cb(id, translated);
    qemu_plugin_register_atexit_cb(id, ended, NULL);
    return 0;
}
