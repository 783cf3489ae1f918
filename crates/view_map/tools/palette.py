#!/usr/bin/env python3
"""How well the twelve colours of maps are told apart: the least difference (CIELAB) between two of them, or one and white, seen by eyes without
and with each of three kinds of colour blindness.

Usage: palette.py       prints the least difference; status 1 where it is below 20

The matrices are those of Machado, Oliveira and Fernandes (2009) for full protanopia, deuteranopia and tritanopia, in linear RGB.
"""

import itertools
import math
import os
import re
import sys

SOURCE = os.path.join(os.path.dirname(os.path.abspath(__file__)), "..", "src", "colours.rt")
SIGHTS = (
    ((1, 0, 0), (0, 1, 0), (0, 0, 1)),
    ((0.152286, 1.052583, -0.204868), (0.114503, 0.786281, 0.099216), (-0.003882, -0.048116, 1.051998)),
    ((0.367322, 0.860646, -0.227968), (0.280085, 0.672501, 0.047413), (-0.011820, 0.042940, 0.968881)),
    ((1.255528, -0.076749, -0.178779), (-0.078411, 0.930809, 0.147602), (0.004733, 0.691367, 0.303900)),
)


def linear(value):
    value /= 255
    return value / 12.92 if value <= 0.04045 else ((value + 0.055) / 1.055) ** 2.4


def cielab(colour):
    red, green, blue = colour
    x = (0.4124 * red + 0.3576 * green + 0.1805 * blue) / 0.95047
    y = 0.2126 * red + 0.7152 * green + 0.0722 * blue
    z = (0.0193 * red + 0.1192 * green + 0.9505 * blue) / 1.08883
    x, y, z = (t ** (1 / 3) if t > 0.008856 else 7.787 * t + 16 / 116 for t in (x, y, z))
    return 116 * y - 16, 500 * (x - y), 200 * (y - z)


def seen(text):
    """The colour as each kind of eye sees it."""
    colour = [linear(int(text[i : i + 2], 16)) for i in (1, 3, 5)]
    views = [[sum(a * b for a, b in zip(row, colour)) for row in sight] for sight in SIGHTS]
    return [cielab([min(1, max(0, value)) for value in view]) for view in views]


def main():
    with open(SOURCE, encoding="utf-8") as source:
        colours = re.findall(r'"(#[0-9a-f]{6})"', source.read())
    views = [seen(colour) for colour in [*colours, "#ffffff"]]
    least = min(math.dist(p, q) for a, b in itertools.combinations(views, 2) for p, q in zip(a, b))
    print(f"{len(colours)} colours, least difference {least:.1f}")
    sys.exit(0 if len(colours) == 12 and least >= 20 else 1)


if __name__ == "__main__":
    main()
