/* Measures how many calls of the C library one processor makes in a second: the best of five runs of a fifth of a second each. */
#define _POSIX_C_SOURCE 199309L
#include <cgfile.h>

#include <stdio.h>
#include <stdlib.h>
#include <string.h>
#include <time.h>

#define BYTES(text) (const uint8_t *)(text), sizeof(text) - 1

static const char stat_text[] =
    "anon 1234567\nfile 7654321\nkernel 4096\nkernel_stack 16384\npagetables 40960\nsec_pagetables 0\npercpu 1024\nsock 0\n"
    "vmalloc 0\nshmem 0\nzswap 0\nzswapped 0\nfile_mapped 4096\nfile_dirty 0\nfile_writeback 0\nswapcached 0\nanon_thp 0\n"
    "file_thp 0\nshmem_thp 0\ninactive_anon 1200000\nactive_anon 34567\ninactive_file 7000000\nactive_file 654321\n"
    "unevictable 0\nslab_reclaimable 100\nslab_unreclaimable 200\nslab 300\nworkingset_refault_anon 0\n"
    "workingset_refault_file 0\nworkingset_activate_anon 0\nworkingset_activate_file 0\nworkingset_restore_anon 0\n"
    "workingset_restore_file 0\nworkingset_nodereclaim 0\npgscan 0\npgsteal 0\npgfault 100\npgmajfault 1\n";

static uint8_t out[4096];
static size_t used, taken, path_len;
static uint64_t at, number;

static uint32_t setting(void) {
    return cgfile_setting(1, BYTES("cpu.max"), BYTES("max 100000\n"), out, sizeof out, &used, &at);
}

static uint32_t file(void) {
    return cgfile_file(1, BYTES("cpu.weight"), BYTES("100\n"), out, sizeof out, &used, &at);
}

static uint32_t current(void) {
    return cgfile_number(1, BYTES("memory.current"), BYTES("1234567\n"), BYTES(""), &number, &at);
}

static uint32_t anon(void) {
    return cgfile_number(1, BYTES("memory.stat"), BYTES(stat_text), BYTES("anon"), &number, &at);
}

static uint32_t json(void) {
    return cgfile_json(1, BYTES("a/cpu.max"), BYTES("max 100000\n"), out, sizeof out, &used, &at);
}

static uint32_t explain(void) {
    return cgfile_explain(1, BYTES("cpu.max"), true, BYTES("500\n"), out, sizeof out, &used);
}

static uint32_t first(void) {
    return cgfile_first(1, BYTES("a/cpu.max\0max 100000\nb/cpu.weight\0"), false, true, out, sizeof out, &used, &taken,
                        &path_len, &at);
}

static uint32_t kind(void) { return cgfile_kind(1, BYTES("memory.max"), false, out, sizeof out, &used); }

static double now(void) {
    struct timespec time;
    clock_gettime(CLOCK_MONOTONIC, &time);
    return (double)time.tv_sec + (double)time.tv_nsec / 1e9;
}

static void measure(const char *name, uint32_t (*call)(void)) {
    double best = 0;
    for (int run = 0; run < 5; run++) {
        double began = now(), took;
        long calls = 0;
        do {
            for (int each = 0; each < 1000; each++)
                if (call() != CGFILE_DONE)
                    exit(1);
            calls += 1000;
            took = now() - began;
        } while (took < 0.2);
        if ((double)calls / took > best)
            best = (double)calls / took;
    }
    printf("%-32s %6.2f million calls a second\n", name, best / 1e6);
}

int main(void) {
    measure("cgfile_setting, cpu.max", setting);
    measure("cgfile_file, cpu.weight", file);
    measure("cgfile_number, memory.current", current);
    measure("cgfile_number, memory.stat", anon);
    measure("cgfile_json, cpu.max", json);
    measure("cgfile_explain, cpu.max", explain);
    measure("cgfile_first, cpu.max as JSON", first);
    measure("cgfile_kind, memory.max", kind);
    return 0;
}
