#!/usr/bin/env python3
"""Makes a PNG file of PGM or PPM files, as `czi_tool FILE region` prints them.

usage: png.py PNG PICTURE [GREEN [RED]]

One PGM or PPM file becomes a picture of its own: gray or colour, of 8 or 16 bits. Of two or three PGM files of 8 bits the first is
shown in blue, the second in green and the third in red. Nothing but Python is needed.
"""
import struct
import sys
import zlib


def read(path):
    """The samples of a pixel, width, height, bits of a sample, and the samples."""
    with open(path, "rb") as file:
        kind, size, most, samples = file.read().split(b"\n", 3)
    width, height = map(int, size.split())
    return {b"P5": 1, b"P6": 3}[kind], width, height, 16 if int(most) > 255 else 8, samples


def chunk(name, data):
    return struct.pack(">I", len(data)) + name + data + struct.pack(">I", zlib.crc32(name + data))


def png(channels, width, height, bits, samples):
    line = width * channels * bits // 8
    rows = b"".join(b"\0" + samples[line * row:line * (row + 1)] for row in range(height))
    head = struct.pack(">IIBBBBB", width, height, bits, 2 if channels == 3 else 0, 0, 0, 0)
    return b"\x89PNG\r\n\x1a\n" + chunk(b"IHDR", head) + chunk(b"IDAT", zlib.compress(rows, 9)) + chunk(b"IEND", b"")


def together(pictures):
    """Gray pictures as the blue, the green and the red of one."""
    if any(picture[:4] != pictures[0][:4] or picture[0] != 1 or picture[3] != 8 for picture in pictures):
        sys.exit("the pictures are not gray, of 8 bits, and of the same size")
    _, width, height, _, _ = pictures[0]
    samples = bytearray(3 * width * height)
    for sample, picture in zip((2, 1, 0), pictures):
        samples[sample::3] = picture[4]
    return 3, width, height, 8, bytes(samples)


def main():
    pictures = [read(path) for path in sys.argv[2:]]
    with open(sys.argv[1], "wb") as file:
        file.write(png(*(pictures[0] if len(pictures) == 1 else together(pictures))))


if __name__ == "__main__":
    main()
