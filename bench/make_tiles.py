#!/usr/bin/env python3
"""Writes a CZI (ZISRAW) file of many small tiles.

usage: make_tiles.py FILE COUNT

Each tile has four dimensions (C, S, X, Y) and eight pixel bytes. Its subblock has an extent of 320 bytes.
"""
import struct
import sys


def header(name, allocated, used):
    return name.encode().ljust(16, b"\0") + struct.pack("<qq", allocated, used)


def dimension(name, start, size):
    return name.encode().ljust(4, b"\0") + struct.pack("<iifi", start, size, 0.0, size)


def entry(number, position):
    head = b"DV" + struct.pack("<iqiiB5xi", 0, position, 0, 0, 0, 4)
    return (head + dimension("C", number % 4, 1) + dimension("S", number // 4 % 8, 1)
            + dimension("X", 4 * (number // 32 % 1024), 4) + dimension("Y", 2 * (number // 32768), 2))


def main():
    path, count = sys.argv[1], int(sys.argv[2])
    size = 128 + 112 * count
    allocated = (size + 31) // 32 * 32
    directory = 544 + 320 * count
    with open(path, "wb") as file:
        data = struct.pack("<ii8x16s16siqqiq", 1, 0, b"\1" * 16, b"\1" * 16, 0, directory, 0, 0, 0)
        file.write(header("ZISRAWFILE", 512, 512) + data.ljust(512, b"\0"))
        entries = []
        for number in range(count):
            own = entry(number, 544 + 320 * number)
            entries.append(own)
            front = struct.pack("<iiq", 0, 0, 8) + own
            file.write(header("ZISRAWSUBBLOCK", 288, 264) + front.ljust(256, b"\0") + b"ABCDEFGH".ljust(32, b"\0"))
        file.write(header("ZISRAWDIRECTORY", allocated, size) + struct.pack("<i124x", count))
        file.write(b"".join(entries).ljust(allocated - 128, b"\0"))


if __name__ == "__main__":
    main()
