#!/usr/bin/env python3
"""Prints the script of edits that brings a small picture of cells into an empty document.

usage: cells_script.py >SCRIPT

Two scenes of 256 by 192 pixels, in two channels of Gray8: nuclei in C0, bodies in C1. Each scene is a mosaic of two tiles, of which
the second lies over 32 columns of the first and is a little brighter, and has a pyramid layer of half the width and height.
Integers alone, so that each run prints the same bytes.
"""
import sys

WIDTH, HEIGHT, TILE, OVER = 256, 192, 144, 32
SCENES = [(0, 0, 5), (320, 24, 11)]
BRIGHTER = bytes(min(shade + 8, 255) for shade in range(256))
XML = (b"<ImageDocument><Metadata><Information><Image><Dimensions><Channels>"
       b'<Channel Id="Channel:0" Name="nuclei"/><Channel Id="Channel:1" Name="bodies"/>'
       b"</Channels></Dimensions></Image></Information></Metadata></ImageDocument>")


class Chance:
    """Numbers that look random: a linear congruence."""

    def __init__(self, seed):
        self.state = seed

    def below(self, limit):
        self.state = (self.state * 6364136223846793005 + 1442695040888963407) % 2**64
        return (self.state >> 33) % limit


def cells_of(chance):
    """Cells that keep apart: a centre, two radii and a lean."""
    cells = []
    for _ in range(400):
        x, y = chance.below(WIDTH), chance.below(HEIGHT)
        if all((x - other[0]) ** 2 + (y - other[1]) ** 2 > 34**2 for other in cells):
            cells.append((x, y, 14 + chance.below(7), 11 + chance.below(5), chance.below(13) - 6))
    return cells


def depth(cell, x, y, scale):
    """How far a point lies inside a cell whose radii are so many sixteenths: 256 in the middle, 0 at the edge, and less outside."""
    across, down = x - cell[0], y - cell[1]
    long, short, lean = cell[2:]
    along, aside = 12 * across + lean * down, 12 * down - lean * across
    squares = (along * short) ** 2 + (aside * long) ** 2
    return 256 - 65536 * squares // ((144 + lean**2) * (long * short * scale) ** 2)


def shades(cells, chance, channel):
    """The pixels of a scene in a channel."""
    rows = []
    for y in range(HEIGHT):
        row = bytearray()
        for x in range(WIDTH):
            near = [cell for cell in cells if abs(x - cell[0]) < 26 and abs(y - cell[1]) < 26]
            inside = max((depth(cell, x, y, 16 if channel else 8) for cell in near), default=-1)
            shade = 10 + chance.below(5) - (abs(x - WIDTH // 2) + abs(y - HEIGHT // 2)) // 64
            if inside > 0 and channel == 0:
                shade += 70 + inside * 130 // 256 + chance.below(6)
            if inside > 0 and channel == 1:
                rim = 60 if inside < 60 else 0
                shade += 50 + inside * 60 // 256 + rim + chance.below(8)
            row.append(max(0, min(255, shade)))
        rows.append(bytes(row))
    return rows


def halved(rows):
    """The same at half the width and height: the mean of each four."""
    return [bytes((above[x] + above[x + 1] + below[x] + below[x + 1] + 2) // 4 for x in range(0, WIDTH, 2))
            for above, below in zip(rows[::2], rows[1::2])]


def add(dims, pixels, pyramid=""):
    line = f"add pixel=0{pyramid} dims={dims} meta=0 data={len(pixels)} att=0\n"
    return line.encode() + pixels + b"\n"


def scene(number, left, top, seed):
    cells = cells_of(Chance(seed))
    for channel in (0, 1):
        rows = shades(cells, Chance(seed + 1 + channel), channel)
        for place in (0, 1):
            first = place * (TILE - OVER)
            pixels = b"".join(row[first:first + TILE] for row in rows).translate(BRIGHTER if place else None)
            yield add(f"C{channel},S{number},M{place},X{left + first}:{TILE},Y{top}:{HEIGHT}", pixels)
        small = b"".join(halved(rows))
        yield add(f"C{channel},S{number},X{left}:{WIDTH}:{WIDTH // 2},Y{top}:{HEIGHT}:{HEIGHT // 2}", small, " pyramid=2")


def main():
    out = sys.stdout.buffer
    out.write(b"meta xml=%d att=0\n%s\n" % (len(XML), XML))
    for number, (left, top, seed) in enumerate(SCENES):
        for command in scene(number, left, top, seed):
            out.write(command)


if __name__ == "__main__":
    main()
