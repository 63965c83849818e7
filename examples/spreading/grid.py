"""Tiles: columns between cuts of x, each cut by y; and how many points of a map are where, by which cuts are found."""
import array
import bisect
import collections
import itertools
import math
import operator

from .script import Refused

MOST_TILES = 1_000_000
FINENESS = 256  # a map is counted in so many columns and rows of cells at most


class Counts:
    """How many points of a map are in each cell. Cells are squares with a side of 2^shift, and grow with the box of the points. They are counted by
    columns, and in each by rows."""

    def __init__(self, box, shift, cells=None):
        self.box, self.shift = box, shift
        (left, bottom, right, top) = (number >> shift for number in box)
        self.left, self.bottom, self.rows = left, bottom, top - bottom + 1
        self.cells = array.array("q", bytes(8 * (right - left + 1) * self.rows) if cells is None else cells)

    @classmethod
    def of(cls, box, xs, ys):
        """The counts of points in a box."""
        counts = cls(box, shift_of(box))
        shift, left, bottom, rows = counts.shift, counts.left, counts.bottom, counts.rows
        for cell, count in collections.Counter(((x >> shift) - left) * rows + (y >> shift) - bottom for x, y in zip(xs, ys)).items():
            counts.cells[cell] = count
        return counts

    def columns(self):
        """The cells of each column that meets the box, by its number."""
        return enumerate((self.cells[begin : begin + self.rows] for begin in range(0, len(self.cells), self.rows)), self.left)

    def joined(self, other):
        """The counts of the points of both."""
        box = joint_box((self.box, other.box))
        joint = Counts(box, max(self.shift, other.shift, shift_of(box)))
        for counts in (self, other):
            more = joint.shift - counts.shift
            for column, cells in counts.columns():
                begin = ((column >> more) - joint.left) * joint.rows + (counts.bottom >> more) - joint.bottom
                cells = coarser(cells, counts.bottom, more) if more else cells
                end = begin + len(cells)
                joint.cells[begin:end] = array.array("q", map(operator.add, joint.cells[begin:end], cells))
        return joint


def coarser(cells, row, more):
    """The sums of cells that follow each other from a row on, in larger cells."""
    sums, side = list(itertools.accumulate(cells, initial=0)), 1 << more
    borders = [0, *range(side - row % side, len(cells), side), len(cells)]
    return [sums[end] - sums[begin] for begin, end in itertools.pairwise(borders)]


def joint_box(boxes):
    x0, y0, x1, y1 = zip(*boxes)
    return min(x0), min(y0), max(x1), max(y1)


def shift_of(box):
    """The least shift with which no more than so many columns and rows of cells meet a box."""
    shift = 0
    while max((box[2] >> shift) - (box[0] >> shift), (box[3] >> shift) - (box[1] >> shift)) >= FINENESS:
        shift += 1
    return shift


# ---- cuts


def even_cuts(least, greatest, parts):
    """So many parts of one size, or fewer where there aren't as many whole numbers."""
    return sorted({least + (greatest - least) * k // parts for k in range(parts + 1)})


def weighed_cuts(least, greatest, shift, counts, parts):
    """So many parts that weigh as much as each other, about: weights stand by the numbers of cells."""
    cuts, weight, whole = [least], 0, sum(counts.values())
    for cell in sorted(counts):
        weight += counts[cell]
        cut = cell + 1 << shift
        if cuts[-1] < cut < greatest and weight * parts >= whole * len(cuts):
            cuts.append(cut)
    return [*cuts, greatest]


def narrow_cuts(cuts, widest):
    """The same with more cuts where a part is wider than the program takes."""
    more = (even_cuts(a, b, -(-(b - a) // widest)) for a, b in itertools.pairwise(cuts))
    return sorted({cut for part in more for cut in part})


class Grid:
    """Columns and their tiles, by rising x and then by rising y. A tile has the number of its place in this order. The program takes coordinates in limits."""

    def __init__(self, xs, columns, limits):
        self.xs, self.columns, self.widest = xs, columns, widest_of(limits)
        self.first = list(itertools.accumulate((len(ys) - 1 for ys in columns), initial=0))
        self.boxes = [(x0, y0, x1, y1) for (x0, x1), ys in zip(itertools.pairwise(xs), columns) for y0, y1 in itertools.pairwise(ys)]
        whole = (xs[0], min(ys[0] for ys in columns), xs[-1], max(ys[-1] for ys in columns)) if columns else (0, 0, 0, 0)
        self.is_moved = min(whole) < limits[0] or max(whole) > limits[1]
        self.reach = 0  # (how much further than a tile its contours are clamped)

    def grown(self, reach, limits):
        """The same grid, of which the outermost tiles go further by as much; and each asks for contours that far beyond it."""
        xs = [self.xs[0] - reach, *self.xs[1:-1], self.xs[-1] + reach]
        grid = Grid(xs, [[ys[0] - reach, *ys[1:-1], ys[-1] + reach] for ys in self.columns], limits)
        grid.is_moved, grid.reach = self.is_moved, reach
        return grid

    def move(self, tile):
        """What is taken from the coordinates of a tile before it is asked."""
        return middle_of(self.boxes[tile]) if self.is_moved else (0, 0)

    def column_of(self, tile):
        return bisect.bisect_right(self.first, tile) - 1


def middle_of(box):
    """What to take from the coordinates of a box, so that they are in range."""
    return (box[0] + box[2] + 1) // 2, (box[1] + box[3] + 1) // 2


def widest_of(limits):
    """How wide a tile may be, and what is united at a time."""
    return limits[1] - limits[0]


def most_parts(least, greatest, parts, widest):
    """As many parts as there are at most, where each of so many is cut until none is too wide."""
    return min(parts, greatest - least) + (greatest - least) // widest


def limits_within(limits, reach):
    """Limits of tiles that stay in these with all that is asked of them, where it reaches so far and sides go outward as far again."""
    least, greatest = limits[0] + 3 * reach, limits[1] - 3 * reach
    if least >= greatest:
        raise Refused(f"sides that move by {reach} in all are too much for the program's range")
    return least, greatest


def refuse_more(tiles, box):
    if tiles > MOST_TILES:
        raise Refused(f"the map from {box[0]} {box[1]} to {box[2]} {box[3]} would fall into more than {MOST_TILES:,} tiles")


def even_grid(box, columns, rows, limits):
    """So many columns of as many rows over the range of the points."""
    (x0, y0, x1, y1), widest = box, widest_of(limits)
    refuse_more(most_parts(x0, x1, columns, widest) * most_parts(y0, y1, rows, widest), box)
    xs, ys = narrow_cuts(even_cuts(x0, x1, columns), widest), narrow_cuts(even_cuts(y0, y1, rows), widest)
    return Grid(xs, [ys] * (len(xs) - 1), limits)


def weighed_grid(counts, edges, limits):
    """Columns with about as many edges as each other, and in each tiles of about so many."""
    (x0, y0, x1, y1), widest = counts.box, widest_of(limits)
    by_column = {column: sum(cells) for column, cells in counts.columns() if any(cells)}
    columns = min(math.isqrt(sum(by_column.values()) // edges) + 1, FINENESS)
    refuse_more(most_parts(x0, x1, columns, widest) * most_parts(y0, y1, columns, widest), counts.box)
    xs = narrow_cuts(weighed_cuts(x0, x1, counts.shift, by_column, columns), widest)
    rows = [collections.Counter() for _ in xs[1:]]
    for column, cells in counts.columns():
        strip = min(max(bisect.bisect_right(xs, column << counts.shift) - 1, 0), len(rows) - 1)
        rows[strip].update({row: count for row, count in enumerate(cells, counts.bottom) if count})
    cuts = (weighed_cuts(y0, y1, counts.shift, row, sum(row.values()) // edges + 1) for row in rows)
    return Grid(xs, [narrow_cuts(ys, widest) for ys in cuts], limits)
