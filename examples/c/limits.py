"""Each group's memory limits, from a snapshot on standard input: limits.c in Python.

    LC_ALL=C grep -rZ '' /sys/fs/cgroup 2> /dev/null | python3 limits.py [LIBRARY]
"""
import ctypes
import sys

DONE, CUT, NO_ROOM, NO_MEMORY, MAX, MORE, END = 0, 2, 4, 5, 8, 11, 12
LIMITS = {b"memory." + word for word in (b"min", b"low", b"high", b"max", b"swap.high", b"swap.max", b"zswap.max")}

u32, u64, size, pointer = ctypes.c_uint32, ctypes.c_uint64, ctypes.c_size_t, ctypes.POINTER
library = ctypes.CDLL(sys.argv[1] if len(sys.argv) > 1 else "libcgfile.so.0")
library.cgfile_number.restype = u32
library.cgfile_number.argtypes = [u32, ctypes.c_char_p, size, ctypes.c_char_p, size, ctypes.c_char_p, size, pointer(u64), pointer(u64)]
library.cgfile_first.restype = u32
library.cgfile_first.argtypes = [u32, ctypes.c_void_p, size, ctypes.c_bool, ctypes.c_bool, ctypes.c_char_p, size] + [pointer(size)] * 3 + [pointer(u64)]


class Stopped(Exception):
    """The snapshot is refused, cut, or passes a limit, at this place of the bytes."""

    def __init__(self, status, place):
        super().__init__(status, place)
        self.status, self.place = status, place


def number(name, text):
    """The number of a file of one number or of one limit: "max", or none where it has no number."""
    found, at = u64(), u64()
    status = library.cgfile_number(1, name, len(name), text, len(text), b"", 0, found, at)
    return {DONE: found.value, MAX: "max"}.get(status)


def first(data, start, is_end):
    """The first entry of the data from this place on, as its path, the text of its file and how many bytes it has; None where
    more must come, or False where the stream has ended."""
    used, taken, path_len, at, room = size(), size(), size(), u64(), 4096
    begin = ctypes.cast(data, ctypes.c_void_p).value + start
    while True:
        out = ctypes.create_string_buffer(room)
        status = library.cgfile_first(1, begin, len(data) - start, is_end, False, out, room, used, taken, path_len, at)
        if status == DONE:
            return data[start : start + path_len.value], out[: used.value], taken.value
        if status == NO_MEMORY:
            raise MemoryError
        if status in (MORE, END):
            return None if status == MORE else False
        if status != NO_ROOM:
            raise Stopped(status, at.value)
        room = used.value


def entries(file):
    """The entries of a snapshot: each its path and its file's text."""
    data, dropped = b"", 0
    while True:
        piece = file.read(max(65536, len(data)))
        data, start = data + piece, 0
        while True:
            try:
                entry = first(data, start, not piece)
            except Stopped as stopped:
                raise Stopped(stopped.status, dropped + start + stopped.place) from None
            if not entry:
                break
            path, text, taken = entry
            yield path, text
            start += taken
        if entry is False:
            return
        data, dropped = data[start:], dropped + start


def main():
    try:
        for path, text in entries(sys.stdin.buffer):
            name = path.rpartition(b"/")[2]
            limit = number(name, text) if name in LIMITS else None
            if limit is not None:
                sys.stdout.buffer.write(b"%s: %s\n" % (path, str(limit).encode()))
    except Stopped as stopped:
        sys.stdout.flush()
        print("cut" if stopped.status == CUT else "stopped", "at", stopped.place, file=sys.stderr)
        return 1
    return 0


if __name__ == "__main__":
    sys.exit(main())
