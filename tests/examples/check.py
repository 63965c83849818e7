#!/usr/bin/env python3
"""Checks stored answers against their scripts by another way than the program's: exact fractions, no sweep, no walk.

    check.py SCRIPT ANSWER ..

For each overlay the plane is cut into vertical strips at every corner and crossing of the kept contours; in a strip no edge
ends and none meets another, so the windings are sums and the region is a stack of trapezoids. Their doubled area has to be
that of the answer's contours and of the `area` line, and at the middle of each trapezoid the answer has to wind once where
the region is and zero times elsewhere. No contour may have fewer than three points or a point that it passes straight.
Crossings of the examples are whole points, so equality is exact. The last line is 'N passed, M failed'.
"""
import sys
from fractions import Fraction
from itertools import pairwise

FILLS = {
    "evenodd": lambda w: w % 2 == 1,
    "nonzero": lambda w: w != 0,
    "positive": lambda w: w > 0,
    "negative": lambda w: w < 0,
}
RULES = {
    "subject": lambda s, c: s,
    "clip": lambda s, c: c,
    "intersect": lambda s, c: s and c,
    "union": lambda s, c: s or c,
    "difference": lambda s, c: s and not c,
    "inverse": lambda s, c: c and not s,
    "xor": lambda s, c: s != c,
}


def points(words):
    numbers = [int(word) for word in words]
    return list(zip(numbers[::2], numbers[1::2], strict=True))


def edges(contours):
    """The edges that span some column, lesser end first, with 1 where they run forward and -1 where back."""
    for kind, contour in contours:
        for a, b in pairwise(contour + contour[:1]):
            if a[0] != b[0]:
                yield (kind, a, b, 1) if a[0] < b[0] else (kind, b, a, -1)


def height(edge, x):
    _, a, b, _ = edge
    return a[1] + Fraction((b[1] - a[1]) * (x - a[0]), b[0] - a[0])


def columns(all_edges):
    """The x of each end and of each crossing, rising."""
    found = {end[0] for edge in all_edges for end in edge[1:3]}
    for i, s in enumerate(all_edges):
        for t in all_edges[:i]:
            low, high = max(s[1][0], t[1][0]), min(s[2][0], t[2][0])
            if low < high:
                left, right = height(s, low) - height(t, low), height(s, high) - height(t, high)
                if left * right < 0:
                    found.add(low + (high - low) * left / (left - right))
    return sorted(found)


def strips(contours):
    """For each piece between two neighbour edges of a strip: its doubled area, its middle and the windings in it."""
    all_edges = list(edges(contours))
    for left, right in pairwise(columns(all_edges)):
        middle = Fraction(left + right) / 2
        here = sorted((e for e in all_edges if e[1][0] <= left and right <= e[2][0]), key=lambda e: height(e, middle))
        windings = {"subject": 0, "clip": 0, "answer": 0}
        for low, high in pairwise(here):
            windings[low[0]] += low[3]
            tall = height(high, middle) - height(low, middle)
            if tall:
                yield 2 * (right - left) * tall, (middle, height(low, middle) + tall / 2), dict(windings)


def doubled_area(contour):
    return sum(a[0] * b[1] - b[0] * a[1] for a, b in pairwise(contour + contour[:1]))


def turn(a, b, c):
    return (b[0] - a[0]) * (c[1] - a[1]) - (b[1] - a[1]) * (c[0] - a[0])


def is_filled(fill, winding):
    word, _, depth = fill.partition(":")
    return winding >= int(depth) if word == "atleast" else FILLS[fill](winding)


def fault_of(kept, words, answer):
    """What is wrong with the contours that answer an overlay, or None."""
    rule, fill, _, direction, keep = words
    sign = -1 if direction == "cw" else 1
    area = 0
    for size, place, windings in strips(kept + [("answer", contour) for contour in answer]):
        wanted = RULES[rule](is_filled(fill, windings["subject"]), is_filled(fill, windings["clip"]))
        area += size * wanted
        if windings["answer"] != sign * wanted:
            return f"the answer winds {windings['answer']} times at {place[0]}, {place[1]}"
    if sum(map(doubled_area, answer)) != sign * area:
        return f"the answer's area is {sum(map(doubled_area, answer))}, that of the region {sign * area}"
    for contour in answer:
        if len(contour) < 3:
            return "a contour of fewer than three points"
        if keep == "corners" and not all(turn(contour[i - 2], contour[i - 1], contour[i]) for i in range(len(contour))):
            return "a contour passes a point straight"
    return None


def check(script, reply):
    """The faults of a script's stored reply, and how many answers were looked at."""
    lines = iter(reply.splitlines())
    kept, last, looked_at, faults = [], [], 0, []
    for number, line in enumerate(script.splitlines(), 1):
        word, *words = line.split(" ")
        first = next(lines, "")
        if word in ("subject", "clip"):
            kept.append((word, points(words)))
            wanted = "ok"
        elif word == "reset":
            kept, wanted = [], "ok"
        elif word == "area":
            wanted = f"area {sum(map(doubled_area, last))}"
        else:
            shapes = int(first.removeprefix("shapes "))
            counts = []
            last = []
            for _ in range(shapes):
                counts.append(int(next(lines).removeprefix("shape ")))
                last += [points(next(lines).removeprefix("contour ").split(" ")) for _ in range(counts[-1])]
            wanted = f"shapes {shapes}"
            looked_at += 1
            fault = fault_of(kept, words, last)
            if fault:
                faults.append(f"line {number}: {fault}")
        if first != wanted:
            faults.append(f"line {number}: '{first}' where '{wanted}' is right")
    if next(lines, None) is not None:
        faults.append("lines after the last reply")
    return faults, looked_at


def main(paths):
    passed = failed = 0
    for script, reply in zip(paths[::2], paths[1::2], strict=True):
        with open(script) as s, open(reply) as r:
            faults, looked_at = check(s.read(), r.read())
        for fault in faults:
            print(f"{script}: {fault}")
        passed += looked_at - min(looked_at, len(faults))
        failed += len(faults) + (looked_at == 0)
    print(f"{passed} passed, {failed} failed")
    return 1 if failed or not passed else 0


if __name__ == "__main__":
    sys.exit(main(sys.argv[1:]))
