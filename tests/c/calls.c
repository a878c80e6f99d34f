/* What the calls of the C library answer, right use and bad: each row says what is wanted. Prints each row that differs, and
 * last how many there were; the status is 1 where any differs. */
#include <cgfile.h>

#include <stdio.h>
#include <string.h>

#define BYTES(text) (const uint8_t *)(text), sizeof(text) - 1
#define UNSET 99

static int rows, wrong;
static uint8_t out[4096];
static size_t used, taken, path_len;
static uint64_t at, number;

/* The buffer is filled with a byte that no answer has, so that a byte past the answer that was written shows. */
static void begin(void) {
    memset(out, 0xEE, sizeof out);
    used = taken = path_len = UNSET;
    at = number = UNSET;
}

static void row(int line, int is_right) {
    rows++;
    if (!is_right) {
        wrong++;
        printf("tests/c/calls.c:%d differs\n", line);
    }
}

static int holds(const char *text, size_t len) {
    for (size_t place = len; place < sizeof out; place++)
        if (out[place] != 0xEE)
            return 0;
    return used == len && memcmp(out, text, len) == 0;
}

static int is_clean(void) {
    for (size_t place = 0; place < sizeof out; place++)
        if (out[place] != 0xEE)
            return 0;
    return 1;
}

#define ROW(is_right) row(__LINE__, is_right)
#define GIVES(call, text) (begin(), ROW((call) == CGFILE_DONE && holds(text, sizeof(text) - 1)))
#define TELLS(call, status, place) (begin(), ROW((call) == (status) && at == (place) && is_clean()))
#define LACKS(call, room) (begin(), ROW((call) == CGFILE_NO_ROOM && used == (room) && is_clean()))

static uint32_t setting(uint32_t profile, const char *name, const uint8_t *line, size_t line_len, size_t room) {
    return cgfile_setting(profile, (const uint8_t *)name, strlen(name), line, line_len, out, room, &used, &at);
}

static uint32_t file(uint32_t profile, const char *name, const uint8_t *text, size_t text_len, size_t room) {
    return cgfile_file(profile, (const uint8_t *)name, strlen(name), text, text_len, out, room, &used, &at);
}

static uint32_t json(uint32_t profile, const char *path, const uint8_t *text, size_t text_len, size_t room) {
    return cgfile_json(profile, (const uint8_t *)path, strlen(path), text, text_len, out, room, &used, &at);
}

static uint32_t value(const char *name, const char *key, const uint8_t *text, size_t text_len) {
    return cgfile_number(1, (const uint8_t *)name, strlen(name), text, text_len, (const uint8_t *)key, strlen(key),
                         &number, &at);
}

static uint32_t kind(uint32_t profile, const char *name, bool is_written, size_t room) {
    return cgfile_kind(profile, (const uint8_t *)name, strlen(name), is_written, out, room, &used);
}

static uint32_t explain(uint32_t profile, const char *name, bool is_written, const uint8_t *text, size_t text_len,
                        size_t room) {
    return cgfile_explain(profile, (const uint8_t *)name, strlen(name), is_written, text, text_len, out, room, &used);
}

static void settings(void) {
    GIVES(setting(1, "memory.max", BYTES("15E\n"), 21), "17293822569102704640\n");
    GIVES(setting(1, "io.max", BYTES("8:16 wiops=7 rbps=max\n"), sizeof out), "8:16 rbps=max wiops=7\n");
    GIVES(setting(2, "cpuset.cpus", BYTES("4,0-3\n"), sizeof out), "0-4\n");
    GIVES(setting(1, "my.file", BYTES("any thing\n"), sizeof out), "any thing\n");
    TELLS(setting(1, "memory.max", BYTES("16E\n"), sizeof out), CGFILE_REFUSED, 2);
    TELLS(setting(1, "cpu.weight", BYTES("10001\n"), sizeof out), CGFILE_REFUSED, 4);
    TELLS(setting(1, "cpu.weight", BYTES("100\n\n"), sizeof out), CGFILE_REFUSED, 4);
    TELLS(setting(1, "cpu.weight", BYTES("100"), sizeof out), CGFILE_CUT, 3);
    TELLS(setting(1, "cpu.weight", BYTES(""), sizeof out), CGFILE_CUT, 0);
    TELLS(setting(1, "cpu.stat", BYTES("usage_usec 1\n"), sizeof out), CGFILE_NO_FORM, UNSET);
    TELLS(setting(0, "cpu.max", BYTES("max\n"), sizeof out), CGFILE_NO_PROFILE, UNSET);
    TELLS(setting(4, "cpu.max", BYTES("max\n"), sizeof out), CGFILE_NO_PROFILE, UNSET);
    TELLS(setting(4294967295u, "cpu.max", BYTES("max\n"), sizeof out), CGFILE_NO_PROFILE, UNSET);
    LACKS(setting(1, "memory.max", BYTES("15E\n"), 20), 21);
    LACKS(setting(1, "memory.max", BYTES("15E\n"), 0), 21);
    /* a name of no bytes is outside the table */
    GIVES(setting(1, "", BYTES("any thing\n"), sizeof out), "any thing\n");
    TELLS(setting(1, "", BYTES("a\0"), sizeof out), CGFILE_REFUSED, 1);
    /* a profile has its own greatest list number */
    TELLS(setting(1, "cpuset.cpus", BYTES("65536\n"), sizeof out), CGFILE_REFUSED, 4);
    GIVES(setting(2, "cpuset.cpus", BYTES("65536\n"), sizeof out), "65536\n");
    /* and its own names */
    GIVES(setting(2, "hugetlb.2MB.max", BYTES("2M\n"), sizeof out), "2M\n");
    GIVES(setting(3, "hugetlb.2MB.max", BYTES("2M\n"), sizeof out), "2097152\n");
}

static void files(void) {
    GIVES(file(1, "cpu.weight", BYTES("100\n"), 4), "100\n");
    GIVES(file(1, "cpuset.cpus", BYTES("0-3,5\n"), sizeof out), "0-3,5\n");
    GIVES(file(1, "cgroup.controllers", BYTES(""), 1), "\n");
    GIVES(file(1, "cgroup.procs", BYTES(""), 0), "");
    GIVES(file(1, "", BYTES("\n"), sizeof out), "\n");
    TELLS(file(1, "cpuset.cpus", BYTES("0-3,4\n"), sizeof out), CGFILE_REFUSED, 5);
    TELLS(file(1, "cpu.weight", BYTES("100"), sizeof out), CGFILE_CUT, 3);
    TELLS(file(1, "cgroup.kill", BYTES("1\n"), sizeof out), CGFILE_NO_FORM, UNSET);
    TELLS(file(4, "cpu.weight", BYTES("100\n"), sizeof out), CGFILE_NO_PROFILE, UNSET);
    LACKS(file(1, "cpu.weight", BYTES("100\n"), 3), 4);
    LACKS(file(1, "cgroup.controllers", BYTES(""), 0), 1);
}

static void numbers(void) {
    begin();
    ROW(value("memory.current", "", BYTES("42\n")) == CGFILE_DONE && number == 42);
    begin();
    ROW(value("memory.max", "", BYTES("18446744073709551615\n")) == CGFILE_DONE && number == UINT64_MAX);
    begin();
    ROW(value("memory.max", "", BYTES("max\n")) == CGFILE_MAX && number == UNSET);
    begin();
    ROW(value("memory.stat", "file", BYTES("anon 1\nfile 2\n")) == CGFILE_DONE && number == 2);
    begin();
    ROW(value("memory.stat", "fil", BYTES("anon 1\nfile 2\n")) == CGFILE_NONE && number == UNSET);
    begin();
    ROW(value("memory.stat", "", BYTES("anon 1\n")) == CGFILE_NONE && number == UNSET);
    begin();
    ROW(value("memory.current", "anon", BYTES("42\n")) == CGFILE_NONE && number == UNSET);
    begin();
    ROW(value("my.file", "", BYTES("42\n")) == CGFILE_NONE && number == UNSET);
    TELLS(value("memory.current", "", BYTES("42x\n")), CGFILE_REFUSED, 2);
    TELLS(value("memory.stat", "anon", BYTES("anon 1\nanon 2\n")), CGFILE_REFUSED, 11);
    TELLS(value("memory.stat", "anon", BYTES("anon 1")), CGFILE_CUT, 6);
    TELLS(value("cgroup.kill", "", BYTES("1\n")), CGFILE_NO_FORM, UNSET);
    begin();
    ROW(cgfile_number(4, BYTES("pids.max"), BYTES("1\n"), BYTES(""), &number, &at) == CGFILE_NO_PROFILE);
}

static void lines(void) {
    GIVES(json(1, "a/cpu.max", BYTES("max 100000\n"), sizeof out),
          "{\"kind\":\"cpu_max\",\"path\":\"a/cpu.max\",\"value\":{\"period\":100000,\"quota\":\"max\"}}\n");
    GIVES(json(1, "cgroup.freeze", BYTES("1\n"), 54),
          "{\"kind\":\"number\",\"path\":\"cgroup.freeze\",\"value\":1}\n");
    LACKS(json(1, "cgroup.freeze", BYTES("1\n"), 50), 51);
    TELLS(json(1, "a/cpu.weight", BYTES("10001\n"), sizeof out), CGFILE_REFUSED, 4);
    TELLS(json(1, "a/cpu.weight", BYTES("1"), sizeof out), CGFILE_CUT, 1);
    TELLS(json(1, "a/cgroup.kill", BYTES("1\n"), sizeof out), CGFILE_NO_FORM, UNSET);
    TELLS(json(1, "a/", BYTES("1\n"), sizeof out), CGFILE_BAD_PATH, UNSET);
    TELLS(json(1, "", BYTES("1\n"), sizeof out), CGFILE_BAD_PATH, UNSET);
    TELLS(json(1, "a\nb/cpu.weight", BYTES("1\n"), sizeof out), CGFILE_BAD_PATH, UNSET);
    TELLS(json(1, "a/cgroup.procs", BYTES(""), sizeof out), CGFILE_NO_LINES, UNSET);
    TELLS(json(0, "a/cpu.max", BYTES("max 100000\n"), sizeof out), CGFILE_NO_PROFILE, UNSET);
}

static void explained(void) {
    GIVES(explain(1, "cpu.weight", false, BYTES("10001\n"), 70),
          "cgfile: line 1, cpu.weight, byte 5: '1' where newline or '0' may come\n");
    GIVES(explain(1, "cpu.weight", false, BYTES("100"), sizeof out),
          "cgfile: line 1, cpu.weight, byte 4: the end where newline or '0' to '9' may come\n");
    GIVES(explain(1, "cpu.weight", false, BYTES("1\n1\n"), sizeof out),
          "cgfile: line 2, cpu.weight, byte 1: '1' where nothing may come\n");
    GIVES(explain(1, "cpuset.cpus", false, BYTES("0-3,4\n"), sizeof out),
          "cgfile: line 1, cpuset.cpus, byte 6: newline where '0' to '9' may come\n");
    GIVES(explain(1, "memory.max", false, BYTES("x"), sizeof out),
          "cgfile: line 1, memory.max, byte 1: 'x' where '0' to '9' or 'm' may come\n");
    GIVES(explain(1, "cgroup.type", false, BYTES("domain x\n"), sizeof out),
          "cgfile: line 1, cgroup.type, byte 8: 'x' where 'i' or 't' may come\n");
    GIVES(explain(1, "memory.stat", false, BYTES("anon 1\nanon 2\n"), sizeof out),
          "cgfile: line 2, memory.stat, byte 5: space where '!' to '<' or '>' to '~' may come\n");
    GIVES(explain(1, "x", false, BYTES("a\0"), sizeof out),
          "cgfile: line 1, x, byte 2: NUL where any byte but NUL may come\n");
    GIVES(explain(1, "", true, BYTES("a\0"), sizeof out),
          "cgfile: line 1, , byte 2: NUL where any byte but NUL may come\n");
    GIVES(explain(1, "cpu.max", true, BYTES("500\n"), sizeof out),
          "cgfile: line 1, cpu.max, byte 4: newline where '0' to '9' may come\n");
    GIVES(explain(1, "cpu.pressure", true, BYTES("some 9999999 2"), sizeof out),
          "cgfile: line 1, cpu.pressure, byte 14: '2' where '1' or '9' may come\n");
    GIVES(explain(1, "cpuset.cpus", true, BYTES("65536\n"), sizeof out),
          "cgfile: line 1, cpuset.cpus, byte 5: '6' where newline, ',', '-' or '0' to '5' may come\n");
    LACKS(explain(1, "cpu.weight", false, BYTES("10001\n"), 69), 70);
    LACKS(explain(1, "cpu.weight", false, BYTES("10001\n"), 0), 70);
    TELLS(explain(1, "cpu.weight", false, BYTES("100\n"), sizeof out), CGFILE_WHOLE, UNSET);
    TELLS(explain(2, "cpuset.cpus", true, BYTES("65536\n"), sizeof out), CGFILE_WHOLE, UNSET);
    TELLS(explain(1, "cgroup.procs", false, BYTES(""), 0), CGFILE_WHOLE, UNSET);
    TELLS(explain(1, "", false, BYTES("\n"), sizeof out), CGFILE_WHOLE, UNSET);
    TELLS(explain(1, "cgroup.kill", false, BYTES("x"), sizeof out), CGFILE_NO_FORM, UNSET);
    TELLS(explain(1, "cpu.stat", true, BYTES("x"), sizeof out), CGFILE_NO_FORM, UNSET);
    TELLS(explain(0, "cpu.weight", false, BYTES("x"), sizeof out), CGFILE_NO_PROFILE, UNSET);
    TELLS(explain(4294967295u, "cpu.weight", true, BYTES("x"), sizeof out), CGFILE_NO_PROFILE, UNSET);
}

static uint32_t first(const uint8_t *bytes, size_t len, bool is_end, bool is_json, size_t room) {
    return cgfile_first(1, bytes, len, is_end, is_json, out, room, &used, &taken, &path_len, &at);
}

#define FIRST(call, text, took, path) (GIVES(call, text), ROW(taken == (took) && path_len == (path)))

static void streams(void) {
    FIRST(first(BYTES("a/cpu.max\0max 100000\nb/cpu.weight\0"), false, false, sizeof out), "max 100000\n", 21, 9);
    FIRST(first(BYTES("a/cpu.max\0max 100000\n"), true, false, 11), "max 100000\n", 21, 9);
    FIRST(first(BYTES("a/cpu.max\0max 100000\nb/cpu.weight\00010001\n"), true, true, sizeof out),
          "{\"kind\":\"cpu_max\",\"path\":\"a/cpu.max\",\"value\":{\"period\":100000,\"quota\":\"max\"}}\n", 21, 9);
    FIRST(first(BYTES("a/memory.stat\0anon 1\na/memory.stat\0file 2\n"), true, false, sizeof out), "anon 1\nfile 2\n",
          42, 13);
    LACKS(first(BYTES("a/cpu.max\0max 100000\n"), true, false, 10), 11);
    ROW(taken == 21 && path_len == 9);
    TELLS(first(BYTES("a/cpu.max\0max 100000\n"), false, false, sizeof out), CGFILE_MORE, UNSET);
    TELLS(first(BYTES("a/cpu.max\0max 100000\nb/cpu.weight"), false, false, sizeof out), CGFILE_MORE, UNSET);
    TELLS(first(BYTES(""), false, false, sizeof out), CGFILE_MORE, UNSET);
    TELLS(first(BYTES(""), true, false, sizeof out), CGFILE_END, UNSET);
    TELLS(first(BYTES("a/cpu.max\0max 100000"), true, false, sizeof out), CGFILE_CUT, 20);
    TELLS(first(BYTES("a/cpu.max"), true, false, sizeof out), CGFILE_CUT, 9);
    TELLS(first(BYTES("a/cpu.weight\00010001\n"), false, false, sizeof out), CGFILE_REFUSED, 17);
    TELLS(first(BYTES("a/cpu.max\0max 100000\nb/\0"), false, false, sizeof out), CGFILE_REFUSED, 23);
    TELLS(first(BYTES("\n"), false, false, sizeof out), CGFILE_REFUSED, 0);
    begin();
    ROW(cgfile_first(4, BYTES(""), true, false, out, sizeof out, &used, &taken, &path_len, &at) == CGFILE_NO_PROFILE);
}

static void kinds(void) {
    GIVES(kind(1, "memory.max", false, 5), "limit");
    GIVES(kind(1, "memory.max", true, sizeof out), "size_limit");
    GIVES(kind(1, "memory.numa_stat", false, sizeof out), "raw");
    GIVES(kind(2, "memory.numa_stat", false, sizeof out), "nested");
    GIVES(kind(1, "a/memory.max", false, sizeof out), "raw");
    LACKS(kind(1, "memory.max", false, 4), 5);
    begin();
    ROW(kind(1, "cgroup.kill", false, sizeof out) == CGFILE_NO_FORM && is_clean() && used == UNSET);
    begin();
    ROW(kind(1, "cpu.stat", true, sizeof out) == CGFILE_NO_FORM && is_clean() && used == UNSET);
    begin();
    ROW(kind(4, "cpu.stat", false, sizeof out) == CGFILE_NO_PROFILE && is_clean() && used == UNSET);
    ROW(cgfile_known(BYTES("cpu.weight")));
    ROW(cgfile_known(BYTES("cpuset.cpus.partition")));
    ROW(!cgfile_known(BYTES("cpu.weigh")));
    ROW(!cgfile_known(BYTES("a/cpu.weight")));
    ROW(!cgfile_known(BYTES("")));
    ROW(!cgfile_known(BYTES("hugetlb.2MB.max")));
}

int main(void) {
    settings();
    files();
    numbers();
    lines();
    explained();
    streams();
    kinds();
    printf("%d rows, %d differ\n", rows, wrong);
    return wrong != 0;
}
