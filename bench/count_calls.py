#!/usr/bin/env python3
"""Makes the script of bench/edit.sh, counts the calls of a traced run, and makes a plan to replay them.

usage: count_calls.py script TILES REMOVALS [LAST]   prints the script
       count_calls.py count FILE REMOVALS            counts the calls in strace's output, of opening and of each removal
       count_calls.py plan FILE                      prints the calls on image, journal and standard input, for replay.c
"""
import re
import sys


def script(tiles, removals, last):
    """Removes tiles that lie evenly apart among the last ones, by the dimensions that make_tiles.py gives them."""
    step = max(1, last // removals)
    for turn in range(removals):
        number = tiles - last + turn * step
        print(f"remove dims=C{number % 4},S{number // 4 % 8},X{4 * (number // 32 % 1024)}:4,Y{2 * (number // 32768)}:2")


def count(path, removals):
    """The calls by file and kind: those before the first write are the opening's, and all others are shared out over the
    removals, those that arm and seal the journal too. And the bytes that were written to each file."""
    calls = []
    written = {"image": 0, "journal": 0}
    for line in open(path):
        found = re.search(r"(pread64|pwrite64|fsync|ftruncate|statx)\((?:\d+|AT_FDCWD)<?([^>,]*)>?(.*)", line)
        if found and "czi" in found[2] + found[3]:
            file = "journal" if ".jrn" in found[2] + found[3] else "image"
            calls.append((found[1], file))
            if found[1] == "pwrite64":
                written[file] += int(line.rsplit("= ", 1)[1])
    first = next((i for i, (name, _) in enumerate(calls) if name == "pwrite64"), len(calls))
    kinds = ["pread64", "pwrite64", "fsync", "ftruncate", "statx"]
    for label, part, by in (("opening", calls[:first], 1), ("a removal", calls[first:], removals)):
        for file in ("image", "journal"):
            counts = [sum(call == (kind, file) for call in part) for kind in kinds]
            told = ", ".join(f"{n / by:.2f} {kind}" for n, kind in zip(counts, kinds) if n)
            print(f"{label}: {file}: {told or 'none'}")
    print(f"written: image {written['image']} bytes, journal {written['journal']} bytes")


def plan(path):
    kinds = {"read": "take", "pread64": "read", "pwrite64": "write", "fsync": "sync", "ftruncate": "cut"}
    for line in open(path):
        found = re.search(r"(read|pread64|pwrite64|fsync|ftruncate)\((\d+)<([^>]*)>(.*)", line)
        if not found:
            continue
        kind, number, name, rest = found.groups()
        file = "s" if number == "0" else "j" if name.endswith(".jrn") else "i" if name.endswith(".czi") else None
        if file is None or (kind == "read") != (file == "s"):
            continue
        arguments = [int(n) for n in re.findall(r", (\d+)(?=[,)])", rest)]
        length, place = (arguments + [0, 0])[:2]
        print(kinds[kind], file, length, place)


if __name__ == "__main__":
    if sys.argv[1] == "plan":
        plan(sys.argv[2])
    elif sys.argv[1] == "script":
        tiles = int(sys.argv[2])
        script(tiles, int(sys.argv[3]), int(sys.argv[4]) if len(sys.argv) > 4 else tiles)
    else:
        count(sys.argv[2], int(sys.argv[3]))
