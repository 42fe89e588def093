"""A picture of at most 256 colours, with letters and lines, and its PNG file."""
from __future__ import annotations

import math
import struct
import zlib
from typing import List, Sequence, Tuple

from .font import HEIGHT, LETTERS, WIDTH

Colour = Tuple[int, int, int]


class Canvas:
    """Pixels as numbers of colours, row by row from the top."""

    def __init__(self, width: int, height: int, palette: Sequence[Colour], background: int = 0) -> None:
        self.width, self.height = width, height
        self.palette: List[Colour] = list(palette)
        self.pixels = bytearray([background]) * (width * height)

    def put(self, x: int, y: int, colour: int) -> None:
        """One pixel; one outside is left out."""
        if 0 <= x < self.width and 0 <= y < self.height:
            self.pixels[y * self.width + x] = colour

    def row(self, x: int, y: int, colours: bytes) -> None:
        """A run of pixels that lies inside."""
        at = y * self.width + x
        self.pixels[at:at + len(colours)] = colours

    def box(self, x: int, y: int, width: int, height: int, colour: int) -> None:
        """A filled box, cut to the picture."""
        left, right = max(0, x), min(self.width, x + width)
        if left < right:
            for line in range(max(0, y), min(self.height, y + height)):
                self.row(left, line, bytes([colour]) * (right - left))

    def hatch(self, x: int, y: int, width: int, height: int, ground: int, line: int) -> None:
        """A box with slanted lines."""
        for row in range(height):
            for column in range(width):
                self.put(x + column, y + row, hatched(x + column, y + row, ground, line))

    def text(self, x: int, y: int, words: str, colour: int) -> int:
        """Words from a top left corner; returns where they end. A character without a letter is a question mark."""
        for character in words:
            for down, dots in enumerate(LETTERS.get(character, LETTERS["?"]), character in _LOW):
                for right, dot in enumerate(dots):
                    if dot == "#":
                        self.put(x + right, y + down, colour)
            x += WIDTH + 1
        return x

    def circle(self, x: float, y: float, radius: float, colour: int, dash: int = 0) -> None:
        """A circle of one pixel's breadth; with dash, as many degrees drawn as left out."""
        steps = max(8, math.ceil(radius * 2 * math.pi * 1.5))
        for i in range(steps):
            turn = i / steps
            if not dash or int(turn * 360 / dash) % 2 == 0:
                self.put(math.floor(x + radius * math.sin(turn * 2 * math.pi)), math.floor(y - radius * math.cos(turn * 2 * math.pi)), colour)

    def ray(self, x: float, y: float, start: float, end: float, azimuth: float, colour: int) -> None:
        """A dotted line outward, from one distance to another."""
        sine, cosine = math.sin(math.radians(azimuth)), math.cos(math.radians(azimuth))
        for i in range(int(start), int(end), 4):
            self.put(math.floor(x + i * sine), math.floor(y - i * cosine), colour)

    def png(self, level: int = 6) -> bytes:
        """The bytes of a PNG file."""
        rows = bytearray()
        for y in range(self.height):
            rows.append(0)
            rows += self.pixels[y * self.width:(y + 1) * self.width]
        return (b"\x89PNG\r\n\x1a\n" + _chunk(b"IHDR", struct.pack(">IIBBBBB", self.width, self.height, 8, 3, 0, 0, 0))
                + _chunk(b"PLTE", b"".join(bytes(c) for c in self.palette)) + _chunk(b"IDAT", zlib.compress(bytes(rows), level)) + _chunk(b"IEND", b""))


def hatched(x: int, y: int, ground: int, line: int) -> int:
    """The colour of a pixel in a hatched part."""
    return line if (x + y) % 6 < 2 else ground


def text_width(words: str) -> int:
    """How many pixels words take."""
    return len(words) * (WIDTH + 1) - 1 if words else 0


LINE = HEIGHT + 4
_LOW = "gpqy,;"  # these go one dot below the line


def _chunk(kind: bytes, data: bytes) -> bytes:
    return struct.pack(">I", len(data)) + kind + data + struct.pack(">I", zlib.crc32(kind + data))
