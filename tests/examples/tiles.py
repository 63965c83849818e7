#!/usr/bin/env python3
"""Checks what the program `tiles` wrote by another way than its own: exact fractions, no sweep, no walk.

    tiles.py MAP ANSWER

Land: each tile is cut into vertical strips at every corner and crossing. In a strip no edge ends and none meets another, so the windings are sums. Each piece
has to wind once or not at all, and all pieces of a tile together once where an odd number of the map's contours lies round, and not at all elsewhere; nothing may
reach beyond the tile. Roads and ferries: each route is cut at the tile's border and at coasts, and what has its middle in the tile, its border too, has to be what
the paths of the tile run along, in the route's direction and each stretch once: on land or a coast a road, over water a ferry. Crossings of the example are
whole points, so equality is exact. The last line is 'N passed, M failed'.
"""
import math
import pathlib
import sys
from collections import Counter, defaultdict
from fractions import Fraction
from itertools import pairwise

sys.path.append(str(pathlib.Path(__file__).resolve().parents[1]))
from check import edges, height, points  # noqa: E402
from library import Count  # noqa: E402


def read_map(text):
    land, routes, grid = [], [], None
    for line in text.splitlines():
        word, *words = line.split()
        if word == "tiles":
            grid = [int(number) for number in words]
        elif word in ("land", "route"):
            (land if word == "land" else routes).append(points(words))
    return grid, land, routes


def read_answer(text):
    """The lines of each tile, by its column and row."""
    tiles = {}
    for line in text.splitlines():
        word, *words = line.split()
        if word == "tile":
            lines = tiles[tuple(int(number) for number in words)] = []
        else:
            lines.append((word, points(words)))
    return tiles


# ---- land


def pieces(lines):
    found = []
    for word, contour in lines:
        if word == "land":
            found.append([contour])
        elif word == "lake":
            found[-1].append(contour)
    return found


def columns(all_edges, left, right):
    """Where strips begin and end between left and right: at ends and crossings of edges."""
    found = {left, right}
    found.update(end[0] for edge in all_edges for end in edge[1:3] if left < end[0] < right)
    for i, s in enumerate(all_edges):
        for t in all_edges[:i]:
            low, high = max(s[1][0], t[1][0], left), min(s[2][0], t[2][0], right)
            if low < high:
                before, after = height(s, low) - height(t, low), height(s, high) - height(t, high)
                if before * after < 0:
                    found.add(low + (high - low) * before / (before - after))
    return sorted(found)


def has_land(land, lines, left, bottom, right, top):
    """Whether the pieces of a tile are its land."""
    found = pieces(lines)
    if any(not (left <= x <= right and bottom <= y <= top) for piece in found for contour in piece for x, y in contour):
        return False
    kinds = [("land", contour) for contour in land] + [(number, contour) for number, piece in enumerate(found) for contour in piece]
    kinds.append(("tile", [(left, bottom), (right, bottom), (right, top), (left, top)]))
    near = [edge for edge in edges(kinds) if edge[1][0] < right and left < edge[2][0]]
    for low_x, high_x in pairwise(columns(near, left, right)):
        middle = Fraction(low_x + high_x) / 2
        here = sorted((e for e in near if e[1][0] <= low_x and high_x <= e[2][0]), key=lambda e: height(e, middle))
        windings = Counter()
        for low, high in pairwise(here):
            windings[low[0]] += low[3]
            if height(low, middle) == height(high, middle):
                continue
            around = [winding for kind, winding in windings.items() if isinstance(kind, int) and winding]
            if around != [1] * (windings["tile"] == 1 and windings["land"] % 2 == 1):
                return False
    return True


# ---- routes


def is_on(edge, p):
    (ax, ay), (bx, by) = edge
    on_line = (bx - ax) * (p[1] - ay) == (by - ay) * (p[0] - ax)
    return on_line and min(ax, bx) <= p[0] <= max(ax, bx) and min(ay, by) <= p[1] <= max(ay, by)


def is_on_land(coasts, p):
    below = 0
    for (ax, ay), (bx, by) in coasts:
        if is_on(((ax, ay), (bx, by)), p):
            return True
        if (ax <= p[0]) != (bx <= p[0]) and ay + (by - ay) * (p[0] - ax) / Fraction(bx - ax) < p[1]:
            below += 1
    return below % 2 == 1


def cuts(a, b, others):
    """Where between a and b, from 0 to 1, others meet the line."""
    found = {Fraction(0), Fraction(1)}
    dx, dy = b[0] - a[0], b[1] - a[1]
    for (ux, uy), (vx, vy) in others:
        ex, ey = vx - ux, vy - uy
        turn = dx * ey - dy * ex
        if turn:
            t = Fraction((ux - a[0]) * ey - (uy - a[1]) * ex, turn)
            s = Fraction((ux - a[0]) * dy - (uy - a[1]) * dx, turn)
            if 0 < t < 1 and 0 <= s <= 1:
                found.add(t)
        else:
            size = dx * dx + dy * dy
            found.update(t for t in (Fraction((x - a[0]) * dx + (y - a[1]) * dy, size) for x, y in ((ux, uy), (vx, vy))) if 0 < t < 1 and is_on((a, b), (ux, uy)))
    return sorted(found)


def stretch(a, b):
    """The line of a step and its direction, and from where to where on it the step goes."""
    dx, dy = b[0] - a[0], b[1] - a[1]
    whole = math.gcd(int(dx), int(dy)) if dx == int(dx) and dy == int(dy) else 1
    dx, dy = dx / Fraction(whole), dy / Fraction(whole)
    return (dx, dy, dx * a[1] - dy * a[0]), (dx * a[0] + dy * a[1], dx * b[0] + dy * b[1])


def joined(stretches):
    """Stretches on one line without those that only go on from others; none where two of them overlap."""
    found = []
    for low, high in sorted(stretches):
        if found and low < found[-1][1]:
            return None
        if found and low == found[-1][1]:
            found[-1] = (found[-1][0], high)
        else:
            found.append((low, high))
    return found


def along(steps):
    lines = defaultdict(set)
    for a, b in steps:
        line, ends = stretch(a, b)
        lines[line].add(ends)
    return {line: joined(ends) for line, ends in lines.items()}


def place(a, b, t):
    return (a[0] + (b[0] - a[0]) * t, a[1] + (b[1] - a[1]) * t)


def routes_within(land, routes, left, bottom, right, top):
    """The steps of roads and of ferries in a tile."""
    coasts = [edge for contour in land for edge in pairwise(contour + contour[:1])]
    corners = [(left, bottom), (right, bottom), (right, top), (left, top)]
    border = list(pairwise(corners + corners[:1]))
    steps = {"road": [], "ferry": []}
    for route in routes:
        for a, b in pairwise(route):
            if max(a[0], b[0]) < left or right < min(a[0], b[0]) or max(a[1], b[1]) < bottom or top < min(a[1], b[1]):
                continue
            for low, high in pairwise(cuts(a, b, coasts + border)):
                x, y = place(a, b, (low + high) / 2)
                if left <= x <= right and bottom <= y <= top:
                    word = "road" if is_on_land(coasts, (x, y)) else "ferry"
                    steps[word].append((place(a, b, low), place(a, b, high)))
    return steps


def main():
    with open(sys.argv[1]) as map_file, open(sys.argv[2]) as answer_file:
        (left, bottom, size, columns_, rows), land, routes = read_map(map_file.read())
        answer = read_answer(answer_file.read())
    tests = Count()
    tests.add("the tiles are others", list(answer) == [(column, row) for row in range(rows) for column in range(columns_)])
    for (column, row), lines in answer.items():
        box = (left + column * size, bottom + row * size, left + (column + 1) * size, bottom + (row + 1) * size)
        tests.add(f"tile {column} {row}: its land is another", has_land(land, lines, *box))
        for word, steps in routes_within(land, routes, *box).items():
            found = [step for its, path in lines if its == word for step in pairwise(path)]
            tests.add(f"tile {column} {row}: no such {word}", along(found) == along(steps))
    return tests.tell()


if __name__ == "__main__":
    sys.exit(main())
