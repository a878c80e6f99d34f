/* Each group's memory limits, from a snapshot on standard input, as `grep -rZ '' /sys/fs/cgroup` prints one: a line for each, its
 * path, a colon and a space, and the number of bytes or "max". The snapshot may be of any length: what is kept of it is the
 * entry that is being read. Where it is refused or cut, the place is told on standard error, and the status is 1; after a
 * read or a write that failed it is 3, and without memory 4.
 *
 *     cc -o limits limits.c $(pkg-config --cflags --libs cgfile)
 *     LC_ALL=C grep -rZ '' /sys/fs/cgroup 2> /dev/null | ./limits
 */
#include <cgfile.h>

#include <inttypes.h>
#include <stdio.h>
#include <stdlib.h>
#include <string.h>

static const char *const limits[] = {"memory.min",  "memory.low",       "memory.high",     "memory.max",
                                     "memory.swap.high", "memory.swap.max", "memory.zswap.max"};

/* What came of the snapshot and isn't dropped yet, and the text of an entry's file. */
struct bytes {
    uint8_t *at;
    size_t len, room;
};

static void make_room(struct bytes *bytes, size_t room) {
    if (room <= bytes->room)
        return;
    bytes->at = realloc(bytes->at, room);
    bytes->room = room;
    if (bytes->at == NULL) {
        fputs("out of memory\n", stderr);
        exit(4);
    }
}

static bool is_limit(const uint8_t *name, size_t len) {
    for (size_t place = 0; place < sizeof limits / sizeof *limits; place++)
        if (strlen(limits[place]) == len && memcmp(limits[place], name, len) == 0)
            return true;
    return false;
}

/* Prints the limit of a file, if it is one. The entry was read, so its text is a file of its name. */
static void print_limit(const uint8_t *path, size_t path_len, const uint8_t *text, size_t len) {
    size_t start = path_len;
    while (start > 0 && path[start - 1] != '/')
        start--;
    if (!is_limit(path + start, path_len - start))
        return;
    uint64_t number, at;
    uint32_t status = cgfile_number(1, path + start, path_len - start, text, len, (const uint8_t *)"", 0, &number, &at);
    if (status != CGFILE_DONE && status != CGFILE_MAX)
        return;
    fwrite(path, 1, path_len, stdout);
    if (status == CGFILE_MAX)
        puts(": max");
    else
        printf(": %" PRIu64 "\n", number);
}

int main(void) {
    struct bytes snapshot = {0}, text = {0};
    uint64_t dropped = 0;
    bool is_end = false;
    make_room(&snapshot, 65536);
    make_room(&text, 4096);
    for (;;) {
        size_t start = 0, used, taken, path_len;
        uint64_t at;
        uint32_t status;
        do {
            status = cgfile_first(1, snapshot.at + start, snapshot.len - start, is_end, false, text.at, text.room, &used,
                                  &taken, &path_len, &at);
            if (status == CGFILE_DONE) {
                print_limit(snapshot.at + start, path_len, text.at, used);
                start += taken;
            } else if (status == CGFILE_NO_ROOM) {
                make_room(&text, used);
            }
        } while (status == CGFILE_DONE || status == CGFILE_NO_ROOM);
        if (status == CGFILE_END)
            return fflush(stdout) == 0 && !ferror(stdout) ? 0 : 3;
        if (status == CGFILE_NO_MEMORY) {
            fputs("out of memory\n", stderr);
            return 4;
        }
        if (status != CGFILE_MORE) {
            fprintf(stderr, "%s at %" PRIu64 "\n", status == CGFILE_CUT ? "cut" : "stopped", dropped + start + at);
            return 1;
        }
        dropped += start;
        snapshot.len -= start;
        memmove(snapshot.at, snapshot.at + start, snapshot.len);
        if (snapshot.len > snapshot.room / 2)
            make_room(&snapshot, 2 * snapshot.room);
        size_t came = fread(snapshot.at + snapshot.len, 1, snapshot.room - snapshot.len, stdin);
        if (ferror(stdin)) {
            fputs("read fault\n", stderr);
            return 3;
        }
        snapshot.len += came;
        is_end = came == 0;
    }
}
