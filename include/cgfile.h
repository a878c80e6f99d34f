/*
 * cgfile: reads the interface files of Linux control groups (cgroup v2) exactly.
 *
 * The calls work on bytes that the caller lends. They keep nothing, have no state, open no file, and may be made from
 * any thread at any time. Each is proved to meet what is said of it here, and never to read or write past what it is
 * lent; docs/C.md says what that rests on.
 *
 * What the caller owes:
 * - A pointer with a length points to that many bytes, and is never NULL, even where the length is 0. No NUL need end
 *   them. A pointer without one points to a number that is aligned as its type is.
 * - What a call writes (out, used, at, ..) overlaps nothing else that it is lent.
 * - No length is greater than PTRDIFF_MAX. A bool is 0 or 1, as C hands it over.
 * - malloc, realloc and free are those of one allocator. Memory is taken and given back within a call.
 *
 * NAME is the name of an interface file alone, without a folder: "cpu.max", not "a/cpu.max". A name outside the file
 * table is that of a file of raw lines, of which nearly all texts are some: so a path, or a typing error, as a name
 * checks nothing. Ask cgfile_known() where a name must be one of the table.
 *
 * PROFILE is 1, 2 or 3. Grammars 1 and 2 differ in the greatest number of a list (65535 or 1048575) and in
 * memory.numa_stat (raw lines, or nested keys). 3 is the kernel profile: 2 with more files that kernels of today print,
 * as hugetlb.2MB.max, with (unknown) for a device that is gone, and with values of io.stat below 0. 1 is what the program takes where none is named.
 *
 * Unless a call says otherwise:
 * - With CGFILE_DONE the answer lies in the first *used of the out_len bytes at out; the others are as they were.
 * - With any other status all bytes at out are as they were.
 * - *used is told with CGFILE_DONE and with CGFILE_NO_ROOM alone, and *at with those that say so.
 */
#ifndef CGFILE_H
#define CGFILE_H

#include <stdbool.h>
#include <stddef.h>
#include <stdint.h>

#ifdef __cplusplus
extern "C" {
#endif

enum cgfile_status {
    /* Done. */
    CGFILE_DONE = 0,
    /* Refused: *at is the place, counted from 0, of the first byte after which no text of the grammar continues. Some
     * text begins with the bytes before it. */
    CGFILE_REFUSED = 1,
    /* Cut: the bytes end before a text does, so some text begins with them. *at is their number. */
    CGFILE_CUT = 2,
    /* A file of the name can't be read, or written. */
    CGFILE_NO_FORM = 3,
    /* The answer is longer than out_len bytes. *used is how many it has. */
    CGFILE_NO_ROOM = 4,
    /* Memory was refused: at a byte with which a text continues, or for the answer, where the bytes have one. */
    CGFILE_NO_MEMORY = 5,
    /* No profile has the number. */
    CGFILE_NO_PROFILE = 6,
    /* The file has no such number. */
    CGFILE_NONE = 7,
    /* The number is "max". */
    CGFILE_MAX = 8,
    /* The path is empty, has a NUL or a newline, or ends with '/'. */
    CGFILE_BAD_PATH = 9,
    /* The file has no line, as an empty cgroup.procs. */
    CGFILE_NO_LINES = 10,
    /* No entry is whole yet: more bytes are wanted. */
    CGFILE_MORE = 11,
    /* The stream has ended. */
    CGFILE_END = 12,
    /* With the byte at *at its record has more than 1048576 bytes. */
    CGFILE_TOO_LONG = 13,
    /* With the record that the NUL at *at begins the entry has more than 1000000 records. */
    CGFILE_TOO_MANY = 14,
    /* The byte at *at is the 1073741825th of those that the call was lent. */
    CGFILE_TOO_MUCH = 15,
    /* The bytes are a text, so there is nothing to explain. */
    CGFILE_WHOLE = 16,
};

/*
 * The canonical text of one write to the file NAME, whose whole text the line is, with its newline: sizes in bytes,
 * two decimals, the limits of a device in one order, the maximal ranges of a set in order.
 *
 * CGFILE_DONE: the line is a write to the file, and the text lies at out.
 * CGFILE_REFUSED, CGFILE_CUT: it is none; of the writes to the file.
 * CGFILE_NO_FORM: no file of the name can be written.
 * CGFILE_NO_ROOM: the line is a write to the file. CGFILE_NO_MEMORY. CGFILE_NO_PROFILE. No other.
 */
uint32_t cgfile_setting(uint32_t profile, const uint8_t *name, size_t name_len, const uint8_t *line, size_t line_len,
                        uint8_t *out, size_t out_len, size_t *used, uint64_t *at);

/*
 * The canonical text of the file NAME whose whole text this is. It is that very text, except that a list of words
 * without a byte is printed as one empty line.
 *
 * CGFILE_DONE: the text is a file of the name, and its canonical text lies at out.
 * CGFILE_REFUSED, CGFILE_CUT: it is none; of the files of the name.
 * CGFILE_NO_FORM: no file of the name can be read.
 * CGFILE_NO_ROOM: the text is a file of the name. CGFILE_NO_MEMORY. CGFILE_NO_PROFILE. No other.
 */
uint32_t cgfile_file(uint32_t profile, const uint8_t *name, size_t name_len, const uint8_t *text, size_t text_len,
                     uint8_t *out, size_t out_len, size_t *used, uint64_t *at);

/*
 * The number of the key in a flat keyed file, as "anon" in memory.stat; and where the key has no byte, that of a file of
 * one number or of one limit, as memory.current and memory.max.
 *
 * CGFILE_DONE: the text is a file of the name, and *number is told.
 * CGFILE_MAX: it is a file of the name, whose limit is "max". No number stands for that.
 * CGFILE_NONE: it is a file of the name, which has no such key, or no number: of another kind.
 * CGFILE_REFUSED, CGFILE_CUT, CGFILE_NO_FORM: as of cgfile_file(). CGFILE_NO_MEMORY. CGFILE_NO_PROFILE. No other.
 *
 * With any status but CGFILE_DONE *number is as it was.
 */
uint32_t cgfile_number(uint32_t profile, const uint8_t *name, size_t name_len, const uint8_t *text, size_t text_len,
                       const uint8_t *key, size_t key_len, uint64_t *number, uint64_t *at);

/*
 * The line of JSON of the file at a path whose whole text this is: an object of its kind, its path and its value, and a
 * newline, as the program writes it. The name is what follows the last '/' of the path.
 *
 * CGFILE_DONE: the text is a file of the path's name, and its line lies at out.
 * CGFILE_REFUSED, CGFILE_CUT, CGFILE_NO_FORM: as of cgfile_file(), of the path's name.
 * CGFILE_BAD_PATH: the path is none, and the text is a file of its name.
 * CGFILE_NO_LINES: the text is a file of the path's name that has no line, and so stands in no snapshot.
 * CGFILE_NO_ROOM: the line has *used bytes. CGFILE_NO_MEMORY. CGFILE_NO_PROFILE. No other.
 */
uint32_t cgfile_json(uint32_t profile, const uint8_t *path, size_t path_len, const uint8_t *text, size_t text_len,
                     uint8_t *out, size_t out_len, size_t *used, uint64_t *at);

/*
 * Why the text is no file of the name, or where is_written is true, no write to the file: the line that the program writes
 * with --explain, and its newline:
 *
 *     cgfile: line 1, cpu.weight, byte 5: '1' where newline or '0' may come
 *
 * It tells the line of the text, and the byte of that line, each counted from 1, with the name, whose bytes stand there as
 * they are; what came there, which is the first bad byte, or "the end" where the text is cut; and all the bytes that may
 * come in its place, or "nothing" behind a file with which no longer one begins.
 *
 * CGFILE_DONE: the text is none, and the line lies at out.
 * CGFILE_WHOLE: the text is a file of the name, or a write to it.
 * CGFILE_NO_FORM: no file of the name can be read, or written.
 * CGFILE_NO_ROOM: the text is none, and its line has *used bytes. CGFILE_NO_MEMORY. CGFILE_NO_PROFILE. No other.
 */
uint32_t cgfile_explain(uint32_t profile, const uint8_t *name, size_t name_len, bool is_written, const uint8_t *text,
                        size_t text_len, uint8_t *out, size_t out_len, size_t *used);

/*
 * Whether the file table of profiles 1 and 2 has the name. It takes no memory.
 */
bool cgfile_known(const uint8_t *name, size_t name_len);

/*
 * The word of the kind of what is read of the file NAME, or where is_written is true, of what is written to it, as
 * `cgfile kinds` lists them; "raw" of a name outside the table. No NUL ends it. It takes no memory.
 *
 * CGFILE_DONE: the word lies at out.
 * CGFILE_NO_FORM: no file of the name can be read, or written.
 * CGFILE_NO_ROOM. CGFILE_NO_PROFILE. No other.
 */
uint32_t cgfile_kind(uint32_t profile, const uint8_t *name, size_t name_len, bool is_written, uint8_t *out,
                     size_t out_len, size_t *used);

/*
 * The entry with which a stream begins, a snapshot as `grep -rZ '' DIR` prints one: for each line of each file a record of
 * the file's path, a NUL and the line. The caller keeps the bytes from the start of an entry on, hands them over, and drops
 * the first *taken of them once the entry was told. is_end says that no byte comes after these.
 *
 * With is_json, the answer is the line of JSON of the entry, else the canonical text of its file, as cgfile_file() gives
 * it. Its path is the first *path_len of the bytes. Its records are the first *taken, as the canonical text has them.
 *
 * CGFILE_DONE: the first *taken bytes are the snapshot of one entry; behind them a record of another path has begun, whose
 *     NUL came and was taken, or nothing is, at the end. The answer lies at out.
 * CGFILE_NO_ROOM: the same, but that the answer has *used bytes. *taken and *path_len are told.
 * CGFILE_MORE: no entry is closed by the bytes, and none of them stops the stream. Read on, and call again with what there
 *     was and what came. Only where is_end is false.
 * CGFILE_END: there are no bytes. Only where is_end is true.
 * CGFILE_CUT: no byte stops the stream, and it ends within an entry. Only where is_end is true.
 * CGFILE_REFUSED, CGFILE_TOO_LONG, CGFILE_TOO_MANY, CGFILE_TOO_MUCH: the byte at *at is the first that stops the stream.
 * CGFILE_NO_MEMORY: memory was refused at a byte that nothing stops, or for the answer to an entry. CGFILE_NO_PROFILE.
 *     No other.
 *
 * Places are counted from the start of the entry: add what was dropped. Taking the first entry of what is left again and
 * again gives what the program gives of the whole stream: where the end is told, the entries are all those of the snapshot
 * that the stream is; until then they are the first of each snapshot that it may become; and where what is left is no
 * snapshot, the stream is none.
 *
 * Each call reads the present entry anew. So where more is wanted, let the bytes grow by as many as there are, and the
 * whole takes time in proportion to the stream.
 */
uint32_t cgfile_first(uint32_t profile, const uint8_t *bytes, size_t bytes_len, bool is_end, bool is_json, uint8_t *out,
                      size_t out_len, size_t *used, size_t *taken, size_t *path_len, uint64_t *at);

#ifdef __cplusplus
}
#endif

#endif
