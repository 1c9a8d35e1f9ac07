#!/usr/bin/env python3
"""Writes a small CZI (ZISRAW) file: two scenes, two channels and a pyramid layer.

usage: make_sample.py FILE

Layout, from the ZISRAW file format: a file header segment, subblock segments, a directory and a metadata
segment, each at a multiple of 32. All numbers are little-endian.
"""
import struct
import sys
import uuid

GUID = uuid.UUID("00112233-4455-6677-8899-aabbccddeeff").bytes_le


def segment(name, data, used=None):
    """A segment: its id, AllocatedSize, UsedSize and its data, padded with zeros to a multiple of 32."""
    allocated = (len(data) + 31) // 32 * 32
    used = len(data) if used is None else used
    return name.encode().ljust(16, b"\0") + struct.pack("<qq", allocated, used) + data.ljust(allocated, b"\0")


def dimension(name, start, size, stored):
    return name.encode().ljust(4, b"\0") + struct.pack("<iifi", start, size, 0.0, stored)


def entry(position, dimensions, pyramid):
    """A DV entry of an uncompressed Gray8 tile."""
    head = b"DV" + struct.pack("<iqiiB5xi", 0, position, 0, 0, pyramid, len(dimensions))
    return head + b"".join(dimension(*d) for d in dimensions)


def subblock(position, dimensions, pyramid, pixels):
    own = entry(position, dimensions, pyramid)
    front = struct.pack("<iiq", 0, 0, len(pixels)) + own
    return segment("ZISRAWSUBBLOCK", front.ljust(max(256, len(front)), b"\0") + pixels)


def tiles():
    """Scenes side by side, 16 x 16 pixels each; the last tile is a second layer over both."""
    for scene in (0, 1):
        for channel in (0, 1):
            shade = 40 * (2 * scene + channel + 1)
            pixels = bytes((shade + x + y) % 256 for y in range(16) for x in range(16))
            yield [("X", 16 * scene, 16, 16), ("Y", 0, 16, 16), ("C", channel, 1, 1), ("S", scene, 1, 1)], 0, pixels
    yield [("X", 0, 32, 16), ("Y", 0, 16, 8), ("C", 0, 1, 1)], 2, bytes(range(128))


def main():
    image = bytearray(544)
    entries = []
    for dimensions, pyramid, pixels in tiles():
        entries.append(entry(len(image), dimensions, pyramid))
        image += subblock(len(image), dimensions, pyramid, pixels)
    directory = len(image)
    image += segment("ZISRAWDIRECTORY", struct.pack("<i124x", len(entries)) + b"".join(entries))
    metadata = len(image)
    xml = b"<ImageDocument><Metadata/></ImageDocument>"
    image += segment("ZISRAWMETADATA", struct.pack("<ii248x", len(xml), 0) + xml)
    header = struct.pack("<ii8x16s16siqqiq", 1, 0, GUID, GUID, 0, directory, metadata, 0, 0)
    image[0:544] = segment("ZISRAWFILE", header.ljust(512, b"\0"))
    with open(sys.argv[1], "wb") as file:
        file.write(image)


if __name__ == "__main__":
    main()
