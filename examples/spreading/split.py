"""Splitting a map of horizontal and vertical edges: each contour goes to each tile that it reaches, with its points clamped into the tile.

A contour in one tile goes there as it is, and one that is flat goes nowhere. Any other is halved at the middle border of those that it crosses,
clamped into both halves, thinned and halved again: n log t for n points and t tiles. Parts of the script are split side by side. Each leaves one
file, with its lines by tile, and beside it which lines these are; what is kept of a part that hasn't changed isn't made again.
"""
import bisect
import hashlib
import itertools
import json
import operator
import pathlib

from .grid import FINENESS, Counts
from .script import LONGEST, Wrong, contours_of, lines_in

NOT_STRAIGHT = "has an edge that is neither horizontal nor vertical, from %d %d to %d %d; without --tiles such maps are spread by groups"


# ---- what is looked at before


def is_straight(xs, ys):
    """Whether each edge of a contour is horizontal or vertical."""
    return not any(map(operator.and_, map(operator.ne, xs, xs[-1:] + xs), map(operator.ne, ys, ys[-1:] + ys)))


def first_slope(xs, ys):
    """The ends of the first edge that is neither."""
    points = list(zip(xs, ys))
    return next((*u, *v) for u, v in zip(points, points[1:] + points[:1]) if u[0] != v[0] and u[1] != v[1])


def count_part(path, begin, end, kept, is_counted):
    """Of a part of the script, which has contours alone: how many lines, contours and points it has, the counts of its points, and what is
    wrong with which line. What was found is kept."""
    text, lines = lines_in(path, begin, end)
    mark = [hashlib.sha256(text).hexdigest(), is_counted and FINENESS]
    found = read_kept(kept, mark)
    if found is None:
        found = {"lines": len(lines), "contours": 0, "box": None, "shift": 0, "cells": None, "wrong": None}
        all_xs, all_ys = [], []
        try:
            for number, _, _, xs, ys in contours_of(lines):
                if not is_straight(xs, ys):
                    raise Wrong(number, NOT_STRAIGHT % first_slope(xs, ys))
                found["contours"] += 1
                all_xs += xs
                all_ys += ys
        except Wrong as wrong:
            found["wrong"] = wrong.args
        found["points"] = len(all_xs)
        if all_xs:
            found["box"] = min(all_xs), min(all_ys), max(all_xs), max(all_ys)
            if is_counted:
                counts = Counts.of(found["box"], all_xs, all_ys)
                found["shift"], found["cells"] = counts.shift, counts.cells.tolist()
        write_kept(kept, mark, found)
    return found


def read_kept(path, mark):
    """What was kept under a mark."""
    try:
        kept = json.loads(pathlib.Path(path).read_text())
    except (FileNotFoundError, ValueError):
        return None
    return kept["found"] if kept["mark"] == mark else None


def write_kept(path, mark, found):
    pathlib.Path(path).write_text(json.dumps({"mark": mark, "found": found}))


# ---- contours in tiles


def thinned(xs, ys):
    """A contour without points that equal the one before, and then without those on a line with both neighbours."""
    points = [p for p, q in zip(zip(xs, ys), zip(xs[-1:] + xs, ys[-1:] + ys)) if p != q]
    both = zip(points[-1:] + points, points, points[1:] + points[:1])
    points = [p for o, p, q in both if not (o[0] == p[0] == q[0] or o[1] == p[1] == q[1])]
    return [x for x, _ in points], [y for _, y in points]


def line_of(word, xs, ys):
    return b"%s %s" % (word, " ".join(map(str, itertools.chain.from_iterable(zip(xs, ys)))).encode())


def lines_of(word, xs, ys):
    """The lines of a contour: of one that is longer than the program takes, the lines of two that wind together as it does."""
    line = line_of(word, xs, ys)
    if len(line) <= LONGEST:
        yield line
        return
    half = len(xs) // 2
    x, y = xs[0], ys[half]
    yield from lines_of(word, [*xs[: half + 1], x], [*ys[: half + 1], y])
    yield from lines_of(word, [xs[0], x, *xs[half:]], [ys[0], y, *ys[half:]])


def is_box(xs):
    """Whether a contour of horizontal and vertical edges with these x is a rectangle."""
    return len(xs) == 4 and (xs[0] == xs[1] != xs[2] == xs[3] or xs[3] == xs[0] != xs[1] == xs[2])


class Split:
    """The lines of each tile, and of which lines of the script they are."""

    def __init__(self, grid):
        self.grid, self.lines, self.points, self.places = grid, {}, {}, {}

    def take(self, number, line, word, xs, ys):
        """Lays a contour, whose line has this number, in all tiles that it reaches."""
        self.number, self.line, self.word = number, line, word
        if self.grid.reach:
            self.take_near(xs, ys)
        elif is_box(xs):
            self.take_box(xs, ys)
        else:
            self.halve(xs, ys, True)

    def take_box(self, xs, ys):
        """A rectangle, tile by tile."""
        grid, x0, x1, y0, y1 = self.grid, min(xs), max(xs), min(ys), max(ys)
        if x0 == x1 or y0 == y1:
            return
        columns = range(*reached(grid.xs, x0, x1))
        for column in columns:
            cuts = grid.columns[column]
            left, right = max(x0, grid.xs[column]), min(x1, grid.xs[column + 1])
            xs_here = [left if x == x0 else right for x in xs]
            rows = range(*reached(cuts, y0, y1))
            for row in rows:
                bottom, top = max(y0, cuts[row]), min(y1, cuts[row + 1])
                is_whole = len(columns) == len(rows) == 1
                self.lay(grid.first[column] + row, xs_here, [bottom if y == y0 else top for y in ys], is_whole)

    def take_near(self, xs, ys):
        """A contour in each tile that it comes near, clamped into the tile and what is that near to it."""
        grid, reach = self.grid, self.grid.reach
        for column in reached_near(grid.xs, min(xs), max(xs), reach):
            cuts, left, right = grid.columns[column], grid.xs[column] - reach, grid.xs[column + 1] + reach
            for row in reached_near(cuts, min(ys), max(ys), reach):
                bottom, top = cuts[row] - reach, cuts[row + 1] + reach
                found = thinned([min(max(x, left), right) for x in xs], [min(max(y, bottom), top) for y in ys])
                if found[0]:
                    self.lay(grid.first[column] + row, *found, False)

    def halve(self, xs, ys, is_whole):
        """A contour, halved by columns."""
        x0, x1 = min(xs, default=0), max(xs, default=0)
        if x0 == x1:
            return
        first, end = reached(self.grid.xs, x0, x1)
        if end - first == 1:
            self.halve_column(first, xs, ys, is_whole)
            return
        cut = self.grid.xs[(first + end) // 2]
        self.halve(*thinned([x if x < cut else cut for x in xs], ys), False)
        self.halve(*thinned([x if x > cut else cut for x in xs], ys), False)

    def halve_column(self, column, xs, ys, is_whole):
        """A contour in a column, halved by rows."""
        cuts, y0, y1 = self.grid.columns[column], min(ys, default=0), max(ys, default=0)
        if y0 == y1:
            return
        first, end = reached(cuts, y0, y1)
        if end - first == 1:
            self.lay(self.grid.first[column] + first, xs, ys, is_whole)
            return
        cut = cuts[(first + end) // 2]
        self.halve_column(column, *thinned(xs, [y if y < cut else cut for y in ys]), False)
        self.halve_column(column, *thinned(xs, [y if y > cut else cut for y in ys]), False)

    def lay(self, tile, xs, ys, is_whole):
        if self.grid.is_moved:
            x, y = self.grid.move(tile)
            lines = list(lines_of(self.word, [u - x for u in xs], [v - y for v in ys]))
        else:
            lines = [self.line.rstrip(b"\r")] if is_whole else list(lines_of(self.word, xs, ys))
        self.lines.setdefault(tile, []).extend(lines)
        self.points[tile] = self.points.get(tile, 0) + len(xs)
        places = self.places.setdefault(tile, [])
        if places and places[-1][1] >= self.number - 1:
            places[-1][1] = self.number
        else:
            places.append([self.number, self.number])


def reached(cuts, least, greatest):
    """The first of the parts between cuts that a stretch reaches into, and the end of these parts."""
    return bisect.bisect_right(cuts, least) - 1, bisect.bisect_left(cuts, greatest)


def reached_near(cuts, least, greatest, reach):
    """The parts between cuts that a stretch comes so near."""
    first, end = reached(cuts, least - reach, greatest + reach)
    return range(max(first, 0), min(end, len(cuts) - 1))


def split_part(path, begin, end, grid, cuts, kept):
    """Splits a part of the script, and leaves its lines by tile in a file. For each tile that has some: the tile, where its lines begin and end in
    the file, how many they are, and how many points they have. Which lines of the script these come of is kept beside."""
    text, lines = lines_in(path, begin, end)
    mark = [hashlib.sha256(text).hexdigest(), cuts]
    found = read_kept(f"{kept}.index", mark)
    if found is None:
        split = Split(grid)
        for contour in contours_of(lines):
            split.take(*contour)
        found, place = [], 0
        # (an index of other lines would pass for one of these, where a call ends before it has a new one)
        pathlib.Path(f"{kept}.index").unlink(missing_ok=True)
        with open(kept, "wb") as file:
            for tile, laid in sorted(split.lines.items()):
                written = file.write(b"".join(b"%s\n" % line for line in laid))
                found.append((tile, place, place + written, len(laid), split.points[tile]))
                place += written
        write_kept(f"{kept}.places", mark, split.places)
        write_kept(f"{kept}.index", mark, found)
    return found
