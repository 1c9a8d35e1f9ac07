#!/usr/bin/env python3
"""Paints a region of a CZI (ZISRAW) file, pixel by pixel, as a PGM or PPM file.

usage: paint.py FILE pixel=P layer=L x=I y=I w=W h=W [scene=I] [plane=Q] >PICTURE

It takes the words of `czi_tool FILE region` and follows the same definition with nothing shared, so that one can be held against
the other. It reads the whole file, and looks at each tile for each pixel: it is for small files.
"""
import struct
import sys

SIZES = {0: 1, 1: 2, 3: 3, 4: 6}


def tiles_of(image):
    """Each entry of the directory: pixel type, compression, dimensions by name (start, size, stored size), and its pixels."""
    directory = struct.unpack_from("<q", image, 32 + 52)[0]
    count = struct.unpack_from("<i", image, directory + 32)[0]
    at = directory + 32 + 128
    for _ in range(count):
        pixel, position, _, compression = struct.unpack_from("<iqii", image, at + 2)
        dims = {}
        number = struct.unpack_from("<i", image, at + 28)[0]
        for own in range(at + 32, at + 32 + 20 * number, 20):
            start, size, _, stored = struct.unpack_from("<iifi", image, own + 4)
            dims.setdefault(image[own:own + 4].rstrip(b"\0").decode(), (start, size, stored or size))
        meta, _, length = struct.unpack_from("<iiq", image, position + 32)
        begin = position + 32 + max(256, 16 + 32 + 20 * number) + meta
        yield pixel, compression, dims, image[begin:begin + length]
        at += 32 + 20 * number


def is_reduced(dim, layer):
    return abs(dim[1] - dim[2] * layer) < layer


def belongs(dims, asked):
    if any(name not in dims or dims[name][0] != start for name, start in asked["starts"].items()):
        return False
    if "X" not in dims or "Y" not in dims:
        return False
    x, y, layer = dims["X"], dims["Y"], asked["layer"]
    whole = x[1] == x[2] and y[1] == y[2]
    return whole if layer == 1 else not whole and is_reduced(x, layer) and is_reduced(y, layer)


def stored(dim, point, layer):
    """The stored pixel of a dimension at a point, if it covers that."""
    behind = point - dim[0]
    if 0 <= behind < dim[1] and behind // layer < dim[2]:
        return behind // layer
    return None


def pixel_at(tiles, px, py, layer, size):
    shown = bytes(size)
    for dims, pixels in tiles:
        column, row = stored(dims["X"], px, layer), stored(dims["Y"], py, layer)
        if column is not None and row is not None:
            at = (row * dims["X"][2] + column) * size
            shown = pixels[at:at + size]
    return shown[::-1]


def asked_of(words):
    fields = dict(word.split("=", 1) for word in words)
    starts = {}
    for item in filter(None, fields.pop("plane", "").split(",")):
        name = item.rstrip("-0123456789")
        starts[name] = int(item[len(name):])
    asked = {name: int(value) for name, value in fields.items()}
    if "scene" in asked:
        starts["S"] = asked["scene"]
    return {**asked, "starts": starts}


def main():
    with open(sys.argv[1], "rb") as file:
        image = file.read()
    asked = asked_of(sys.argv[2:])
    layer, pixel = asked["layer"], asked["pixel"]
    chosen = [tile for tile in tiles_of(image) if belongs(tile[2], asked)]
    if any(tile[0] != pixel or tile[1] != 0 for tile in chosen):
        sys.exit("a tile is compressed or has another pixel type")
    chosen.sort(key=lambda tile: tile[2]["M"][0] if "M" in tile[2] else -2**31 - 1)
    tiles = [(dims, pixels) for _, _, dims, pixels in chosen]
    size = SIZES[pixel]
    samples = 3 if pixel > 2 else 1
    head = f"P{6 if samples == 3 else 5}\n{asked['w']} {asked['h']}\n{256 ** (size // samples) - 1}\n"
    out = sys.stdout.buffer
    out.write(head.encode())
    for j in range(asked["h"]):
        py = asked["y"] + j * layer
        out.write(b"".join(pixel_at(tiles, asked["x"] + i * layer, py, layer, size) for i in range(asked["w"])))


if __name__ == "__main__":
    main()
