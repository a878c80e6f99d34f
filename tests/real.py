"""Holds the C library's calls against the program, on the files and snapshots of real kernels: real.py LIBRARY PROGRAM FOLDER."""
import ctypes
import os
import re
import subprocess
import sys

library = ctypes.CDLL(os.path.abspath(sys.argv[1]))
program, folder = sys.argv[2], sys.argv[3]
DONE, REFUSED, CUT, NO_FORM, NO_ROOM, MORE, END, WHOLE = 0, 1, 2, 3, 4, 11, 12, 16

u32, u64, size = ctypes.c_uint32, ctypes.c_uint64, ctypes.c_size_t


def text_of(call, profile, name, text):
    """What a call with a name, a text and a buffer answers: the text, or the program's line of why there is none."""
    used, at, room = size(), u64(), 0
    while True:
        out = ctypes.create_string_buffer(room + 1)
        status = call(u32(profile), name, size(len(name)), text, size(len(text)), out, size(room), ctypes.byref(used), ctypes.byref(at))
        if status != NO_ROOM:
            break
        assert used.value > room, "no room is told where there is room"
        room = used.value
    told = {REFUSED: b"cgfile: refused at %d: line\n" % at.value, CUT: b"cgfile: cut at %d\n" % at.value, NO_FORM: b"cgfile: not readable\n"}
    return out.raw[: used.value] if status == DONE else told[status]


def explained(profile, name, text):
    """The line of why the text is no file of the name, nothing where there is none."""
    used, room = size(), 0
    while True:
        out = ctypes.create_string_buffer(room + 1)
        status = library.cgfile_explain(u32(profile), name, size(len(name)), ctypes.c_bool(False), text, size(len(text)), out, size(room), ctypes.byref(used))
        if status != NO_ROOM:
            break
        room = used.value
    return {DONE: out.raw[: used.value], NO_FORM: b"", WHOLE: b""}[status]


def run(profile, words, text):
    return subprocess.run([program, "--profile", "kernel" if profile == 3 else str(profile), *words], input=text, stdout=subprocess.PIPE).stdout


def differ(what, one, other):
    if one != other:
        print(f"{what}: the library gives {one[:200]}, the program {other[:200]}")
    return one != other


runs = wrong = 0
for file in sorted(os.listdir(folder)):
    with open(os.path.join(folder, file), "rb") as it:
        text = it.read()
    name = re.sub(r"\.\d+$", "", file)
    if name == file:
        continue
    for profile in (1, 2, 3):
        for given in (text, text[:-1], text + b"x"):
            runs += 1
            told = text_of(library.cgfile_file, profile, name.encode(), given) + explained(profile, name.encode(), given)
            wrong += differ(f"{file}, profile {profile}", told, run(profile, ["file", "--explain", name], given))
        record = b"".join(b"a/%s\0%s\n" % (name.encode(), line) for line in text.split(b"\n")[:-1])
        if record:
            runs += 1
            wrong += differ(f"{file} as JSON, profile {profile}", text_of(library.cgfile_json, profile, b"a/" + name.encode(), text), run(profile, ["json"], record))


def first(data, is_end, is_json, profile):
    """The first entry: its path, its text and how many bytes it has; or a status alone."""
    used, taken, path_len, at, room = size(), size(), size(), u64(), 16
    while True:
        out = ctypes.create_string_buffer(room)
        status = library.cgfile_first(u32(profile), data, size(len(data)), ctypes.c_bool(is_end), ctypes.c_bool(is_json), out, size(room),
                                      *map(ctypes.byref, (used, taken, path_len, at)))
        if status != NO_ROOM:
            break
        room = used.value
    return (data[: path_len.value], out.raw[: used.value], taken.value) if status == DONE else status


def stream(text, piece, is_json, profile):
    """All entries of a snapshot that comes in pieces."""
    data, start, given = b"", 0, []
    while True:
        came = text[start : start + piece]
        data, start = data + came, start + len(came)
        while isinstance(entry := first(data, not came, is_json, profile), tuple):
            given.append(entry[:2])
            data = data[entry[2] :]
        if entry != MORE:
            return given if entry == END else entry


for file in sorted(it for it in os.listdir(folder) if it.endswith(".snap")):
    with open(os.path.join(folder, file), "rb") as it:
        text = it.read()
    for profile in (1, 2, 3):
        for piece in (997, 65536):
            runs += 2
            lines = b"".join(line for _, line in stream(text, piece, True, profile))
            wrong += differ(f"{file} as JSON, pieces of {piece}", lines, run(profile, ["json"], text))
            shown = b"".join(path + b": " + line + b"\n" for path, told in stream(text, piece, False, profile) for line in told.split(b"\n")[:-1])
            wrong += differ(f"{file}, pieces of {piece}", shown, run(profile, ["show"], text))
print(f"{runs} runs on real files, {wrong} differ")
sys.exit(wrong != 0)
