"""Areas and validity of polygons by fractions, without the engine: slow, plain and exact.

A polygon is a list of rings, a ring a list of points whose last leads back to the first. Coordinates are whole numbers, or fractions.
"""
from __future__ import annotations

import itertools
from fractions import Fraction


def edges(ring):
    return [(a, b) for a, b in zip(ring, ring[1:] + ring[:1]) if a != b]


def turn(a, b, c):
    return (b[0] - a[0]) * (c[1] - a[1]) - (b[1] - a[1]) * (c[0] - a[0])


def ring_area(ring):
    return Fraction(sum(a[0] * b[1] - a[1] * b[0] for a, b in edges(ring)), 2)


# ---- areas


def crossing_x(s, t):
    """At which x two edges cross properly, or None."""
    (a, b), (c, d) = s, t
    if max(a[0], b[0]) <= min(c[0], d[0]) or max(c[0], d[0]) <= min(a[0], b[0]):
        return None
    left, right = turn(c, d, a), turn(c, d, b)
    if (left > 0) == (right > 0) or not left or not right or (turn(a, b, c) > 0) == (turn(a, b, d) > 0):
        return None
    return a[0] + Fraction(left, left - right) * (b[0] - a[0])


def height(edge, x):
    (ax, ay), (bx, by) = edge
    return ay + Fraction((by - ay) * (x - ax), bx - ax)


def areas(groups):
    """The area of what two groups of polygons fill both, and what each fills: a polygon by parity of its rings, a group by any of its polygons.

    The plane is cut into columns by all corners and crossings; in a column edges don't cross, and what is filled lies between neighbours.
    """
    told = [(edge, side, (side, at)) for side, group in enumerate(groups) for at, polygon in enumerate(group) for ring in polygon for edge in edges(ring)]
    stops = {point[0] for edge, _, _ in told for point in edge}
    stops.update(x for (s, _, _), (t, _, _) in itertools.combinations(told, 2) if (x := crossing_x(s, t)) is not None)
    stops = sorted(stops)
    both, each = Fraction(0), [Fraction(0), Fraction(0)]
    for left, right in zip(stops, stops[1:]):
        spanning = [(edge, side, key) for edge, side, key in told if min(edge[0][0], edge[1][0]) <= left and right <= max(edge[0][0], edge[1][0])]
        rows = sorted((height(edge, left) + height(edge, right), side, key) for edge, side, key in spanning)
        open_in = [set(), set()]
        for (low, side, key), (high, _, _) in zip(rows, rows[1:] + rows[-1:]):
            open_in[side] ^= {key}
            area = (high - low) * (right - left) / 2
            for at in (0, 1):
                each[at] += area if open_in[at] else 0
            both += area if all(open_in) else 0
    return both, *each


def area_by(rule, both, subject, clip):
    return {"union": subject + clip - both, "intersect": both, "difference": subject - both, "xor": subject + clip - 2 * both}[rule]


# ---- validity, as OGC has it


def lies_on(point, edge):
    a, b = edge
    return turn(a, b, point) == 0 and min(a[0], b[0]) <= point[0] <= max(a[0], b[0]) and min(a[1], b[1]) <= point[1] <= max(a[1], b[1])


def meeting(s, t):
    """How two edges meet: "cross", "overlap", the points at which they touch, or nothing."""
    (a, b), (c, d) = s, t
    if max(a[0], b[0]) < min(c[0], d[0]) or max(c[0], d[0]) < min(a[0], b[0]) or max(a[1], b[1]) < min(c[1], d[1]) or max(c[1], d[1]) < min(a[1], b[1]):
        return set()
    points = {p for p in (a, b) if lies_on(p, t)} | {p for p in (c, d) if lies_on(p, s)}
    if len(points) > 1:
        return "overlap"
    if points:
        return points
    sides = turn(a, b, c), turn(a, b, d), turn(c, d, a), turn(c, d, b)
    return "cross" if (sides[0] > 0) != (sides[1] > 0) and (sides[2] > 0) != (sides[3] > 0) else set()


def is_simple(ring):
    """Whether a ring has three points or more, and its edges meet in the corners between them alone."""
    steps = list(zip(ring, ring[1:] + ring[:1]))
    if len(ring) < 3 or any(a == b for a, b in steps):
        return False
    for i, j in itertools.combinations(range(len(steps)), 2):
        wanted = {steps[j][0]} if j == i + 1 else {steps[i][0]} if i == 0 and j == len(steps) - 1 else set()
        if meeting(steps[i], steps[j]) != wanted:
            return False
    return True


def is_inside(ring, point):
    """Whether a point that lies on no edge is inside a ring, by parity."""
    x, y = point
    crossed = 0
    for (ax, ay), (bx, by) in edges(ring):
        if (ay <= y) != (by <= y):
            crossed += ((bx - ax) * (y - ay) - (by - ay) * (x - ax) > 0) == (by > ay)
    return crossed % 2 == 1


def side_of(ring, other):
    """On which side of a ring another lies, True for inside, and at which points they touch; None where it lies on both sides, or along it."""
    touches, sides = set(), set()
    for edge in edges(other):
        stops = {*edge}
        for own in edges(ring):
            met = meeting(own, edge)
            if isinstance(met, str):
                return None, set()
            touches |= met
            stops |= met
        stops = sorted(stops)
        for a, b in zip(stops, stops[1:]):
            sides.add(is_inside([(2 * x, 2 * y) for x, y in ring], (a[0] + b[0], a[1] + b[1])))
    return (sides.pop() if len(sides) == 1 else None), touches


def has_cycle(links):
    """Whether links between rings and points close a way."""
    above = {}

    def top(node):
        while above.get(node, node) != node:
            node = above[node]
        return node

    for a, b in links:
        a, b = top(a), top(b)
        if a == b:
            return True
        above[a] = b
    return False


def fault(polygons):
    """What OGC would call invalid of polygons that are answered together, or nothing."""
    for polygon in polygons:
        if not all(map(is_simple, polygon)):
            return "a ring isn't simple"
        outline, *holes = polygon
        links = set()
        for (i, ring), (j, other) in itertools.permutations(enumerate(polygon), 2):
            inside, touches = side_of(ring, other)
            if inside is None:
                return "rings cross or run along each other"
            if inside != (i == 0):
                return "a hole isn't inside" if i == 0 else "a hole lies in a hole, or around the outline"
            links |= {(at, point) for at in (i, j) for point in touches}
        if has_cycle(sorted(links, key=repr)):
            return "the inside falls apart"
    for one, other in itertools.permutations(polygons, 2):
        inside, _ = side_of(one[0], other[0])
        if inside is None or inside and not any(side_of(hole, other[0])[0] for hole in one[1:]):
            return "polygons overlap, or run along each other"
    return ""
