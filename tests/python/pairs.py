#!/usr/bin/env python3
"""Draws pairs of polygons, and stores what each overlay's area has to be, reckoned by fractions (exact.py).

A pair is a rule and two groups of polygons, whose coordinates are whole numbers of a unit of so many decimals. Stored are the exact area of the overlay and
that of both groups together, each as the nearest double.

usage: tests/python/pairs.py --write      draws and reckons all anew, in a minute or two
"""
from __future__ import annotations

import collections
import math
import pathlib
import random
import sys
import zlib
from fractions import Fraction

import exact

STORED = pathlib.Path(__file__).with_name("pairs.areas")
COUNT = 2_000
RULES = ("union", "intersect", "difference", "xor")

Pair = collections.namedtuple("Pair", "rule groups decimals")


# ---- what is drawn: each family draws a group in a frame, which has a corner, a width and a unit


def star(dice, x, y, reach, corners):
    """A ring around a place by rising angles."""
    angles = sorted(dice.random() for _ in range(corners))
    ways = [(2 * math.pi * angle, reach * (0.2 + 0.8 * dice.random())) for angle in angles]
    return [(round(x + far * math.cos(angle)), round(y + far * math.sin(angle))) for angle, far in ways]


def stars(dice, x, y, width):
    return [[star(dice, x + dice.randrange(width), y + dice.randrange(width), width // 2, dice.randint(3, 12))] for _ in range(dice.randint(1, 2))]


def tangles(dice, x, y, width):
    """Rings of any corners, that cross themselves."""
    return [[[(x + dice.randrange(width), y + dice.randrange(width)) for _ in range(dice.randint(3, 7))]] for _ in range(dice.randint(1, 2))]


def holed(dice, x, y, width):
    """A square with holes, some of which touch each other or it, or leave it."""
    half = width // 2
    rings = [[(x, y), (x + width, y), (x + width, y + width), (x, y + width)]]
    for _ in range(dice.randint(1, 3)):
        at, up, side = x + dice.randrange(width), y + dice.randrange(width), dice.randint(1, half)
        rings.append(dice.choice((
            [(at, up), (at, up + side), (at + side, up + side), (at + side, up)],
            [(x, y + half), (x + half, y + half - side), (x + half, y + half + side)],
            [(at, up), (at + side, up + side // 3), (at + side // 2, up + side)],
        )))
    return [rings]


def boards(dice, x, y, width):
    """Squares of a board, many of which touch in corners or along sides."""
    side = width // 4
    corners = [(x + i * side, y + k * side) for i in range(4) for k in range(4) if dice.random() < 0.5]
    return [[[(i, k), (i + side, k), (i + side, k + side), (i, k + side)]] for i, k in corners]


def kites(dice, x, y, width):
    """A square with a cut whose tip touches its side, or a square on its tip."""
    half = width // 2
    if dice.random() < 0.5:
        return [[[(x, y + half), (x + half, y + half - dice.randint(1, half)), (x + half, y + half + dice.randint(1, half))]]]
    return [[[(x, y + half), (x + half, y), (x + width, y + half), (x + half, y + width)]]]


FAMILIES = (stars, stars, tangles, holed, boards, kites)
# Corner, width and decimals: whole numbers, tenths and thousandths of some unit, degrees, and metres far from the origin.
FRAMES = (
    ((0, 0), 10, 0), ((0, 0), 100, 1), ((-50, 20), 5_000, 2),
    ((12_345_678, 52_123_456), 40_000, 6), ((4_000_000, 58_000_000), 25_000, 1), ((0, 0), 90_000, 3),
)


def pairs(count=COUNT):
    dice = random.Random(2_000)
    for _ in range(count):
        (x, y), width, decimals = dice.choice(FRAMES)
        groups = [dice.choice(FAMILIES)(dice, x, y, width) for _ in (0, 1)]
        yield Pair(dice.choice(RULES), groups, decimals)


# ---- what is stored


def reckoned(pair):
    """The exact area of a pair's overlay, and of both groups together."""
    told, unit = exact.areas(pair.groups), Fraction(1, 100**pair.decimals)
    return exact.area_by(pair.rule, *told) * unit, exact.area_by("union", *told) * unit


def sum_of(drawn):
    return zlib.crc32(repr(drawn).encode())


def stored():
    """The pairs, and of each the areas that are stored."""
    drawn = list(pairs())
    head, *rows = STORED.read_text().splitlines()
    if int(head.split()[-1]) != sum_of(drawn):
        raise SystemExit(f"{STORED.name} is of other pairs than those that are drawn here")
    return list(zip(drawn, [tuple(map(float, row.split())) for row in rows], strict=True))


if __name__ == "__main__":
    if sys.argv[1:] != ["--write"]:
        sys.exit(__doc__)
    drawn = list(pairs())
    rows = [" ".join(repr(float(it)) for it in reckoned(pair)) for pair in drawn]
    STORED.write_text("\n".join([f"areas of the overlay and of both together, for pairs whose sum is {sum_of(drawn)}", *rows]) + "\n")
