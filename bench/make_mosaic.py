#!/usr/bin/env python3
"""Writes a CZI (ZISRAW) file of a mosaic of tiles.

usage: make_mosaic.py FILE COLUMNS ROWS WIDTH HEIGHT STEP BYTES

The tiles have WIDTH by HEIGHT pixels of BYTES bytes (1: Gray8, 2: Gray16) and start at multiples of STEP in X and of HEIGHT in Y.
Pixel bytes go round from 0 to 250 in the order of the file.
"""
import struct
import sys

ROUND = bytes(range(251))


def header(name, allocated, used):
    return name.encode().ljust(16, b"\0") + struct.pack("<qq", allocated, used)


def dimension(name, start, size):
    return name.encode().ljust(4, b"\0") + struct.pack("<iifi", start, size, 0.0, size)


def entry(pixel, position, x, y, width, height):
    head = b"DV" + struct.pack("<iqiiB5xi", pixel, position, 0, 0, 0, 2)
    return head + dimension("X", x, width) + dimension("Y", y, height)


def up(size):
    """The next multiple of 32."""
    return (size + 31) // 32 * 32


def main():
    path = sys.argv[1]
    columns, rows, width, height, step, depth = (int(word) for word in sys.argv[2:])
    count, pixels = columns * rows, width * height * depth
    allocated = up(256 + pixels)
    extent = 32 + allocated
    directory = 544 + extent * count
    bytes_round = ROUND * (2 + pixels // len(ROUND))
    entries = []
    with open(path, "wb") as file:
        data = struct.pack("<ii8x16s16siqqiq", 1, 0, b"\1" * 16, b"\1" * 16, 0, directory, 0, 0, 0)
        file.write(header("ZISRAWFILE", 512, 512) + data.ljust(512, b"\0"))
        front = header("ZISRAWSUBBLOCK", allocated, 256 + pixels)
        for number in range(count):
            row, column = divmod(number, columns)
            own = entry(depth - 1, 544 + extent * number, step * column, height * row, width, height)
            entries.append(own)
            first = number * pixels % len(ROUND)
            shown = bytes_round[first:first + pixels].ljust(allocated - 256, b"\0")
            file.write(front + (struct.pack("<iiq", 0, 0, pixels) + own).ljust(256, b"\0") + shown)
        size = 128 + sum(map(len, entries))
        file.write(header("ZISRAWDIRECTORY", up(size), size) + struct.pack("<i124x", count))
        file.write(b"".join(entries).ljust(up(size) - 128, b"\0"))


if __name__ == "__main__":
    main()
