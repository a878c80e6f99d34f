/* Each call of the C library with each of its allocations refused in turn: want of memory must be told, nothing written to the
 * buffer, and all memory given back. Linked with --wrap of malloc, realloc and free. */
#include <cgfile.h>

#include <stdio.h>
#include <string.h>

#define BYTES(text) (const uint8_t *)(text), sizeof(text) - 1

void *__real_malloc(size_t size);
void *__real_realloc(void *block, size_t size);
void __real_free(void *block);

/* How many allocations are still given; none is refused where that is negative. And how many blocks are out. */
static long left = -1, live;

static int is_refused(void) {
    if (left == 0)
        return 1;
    if (left > 0)
        left--;
    return 0;
}

void *__wrap_malloc(size_t size) {
    void *block = is_refused() ? NULL : __real_malloc(size);
    live += block != NULL;
    return block;
}

void *__wrap_realloc(void *block, size_t size) {
    if (is_refused())
        return NULL;
    live += block == NULL;
    return __real_realloc(block, size);
}

void __wrap_free(void *block) {
    live -= block != NULL;
    __real_free(block);
}

static uint8_t out[4096];
static size_t used, taken, path_len;
static uint64_t at, number;

static uint32_t setting(void) {
    return cgfile_setting(1, BYTES("cgroup.subtree_control"), BYTES("+cpu -io +memory\n"), out, sizeof out, &used, &at);
}

static uint32_t file(void) {
    return cgfile_file(1, BYTES("io.stat"), BYTES("8:16 rbytes=1 wbytes=2\n8:0 rbytes=3\n"), out, sizeof out, &used, &at);
}

static uint32_t numbers(void) {
    return cgfile_number(1, BYTES("memory.stat"), BYTES("anon 1\na_key_that_is_longer_than_most_of_them 2\n"),
                         BYTES("anon"), &number, &at);
}

static uint32_t json(void) {
    return cgfile_json(1, BYTES("a/cgroup.controllers"), BYTES("cpu io memory\n"), out, sizeof out, &used, &at);
}

static uint32_t explain(void) {
    return cgfile_explain(1, BYTES("io.stat"), false, BYTES("8:16 rbytes=1 wbytes=2\n8:0 rbytes=x\n"), out, sizeof out, &used);
}

static uint32_t first(void) {
    return cgfile_first(1, BYTES("a/memory.stat\0anon 1\na/memory.stat\0file 2\na/cpu.max\0"), false, true, out, sizeof out,
                        &used, &taken, &path_len, &at);
}

static int tried(const char *name, uint32_t (*call)(void)) {
    for (long given = 0;; given++) {
        memset(out, 0xEE, sizeof out);
        left = given;
        live = 0;
        uint32_t status = call();
        left = -1;
        if (live != 0) {
            printf("%s: %ld blocks lost after %ld allocations\n", name, live, given);
            return 1;
        }
        if (status == CGFILE_DONE) {
            printf("%s: each of %ld allocations refused in turn\n", name, given);
            return given == 0;
        }
        if (status != CGFILE_NO_MEMORY || out[0] != 0xEE) {
            printf("%s: status %u after %ld allocations\n", name, (unsigned)status, given);
            return 1;
        }
    }
}

int main(void) {
    return tried("cgfile_setting", setting) | tried("cgfile_file", file) | tried("cgfile_number", numbers)
           | tried("cgfile_json", json) | tried("cgfile_explain", explain) | tried("cgfile_first", first);
}
