#!/usr/bin/env python3
"""What the module takes and refuses of each argument, from lists and arrays, and whether its answers and its pages' lines are right.

usage: module.py      the last line is 'N passed, M failed'
"""
import array
import concurrent.futures
import copy
import ctypes
import decimal
import fractions
import itertools
import math
import pickle
import re
import sys

from told import ROOT, end, module_of, raised, tell  # (first: it tells where the package stands)

import bapyeru
from bapyeru import _library

PARCEL, POND = [[(0, 0), (10, 0), (10, 10), (0, 10)]], [[(3, 3), (7, 3), (7, 7), (3, 7)]]
HOLED = [[[(0, 10), (0, 0), (10, 0), (10, 10)], [(3, 3), (3, 7), (7, 7), (7, 3)]]]


HALVES = [[[(0, 10), (0, 0), (5, 0), (5, 10)]], [[(5, 10), (5, 0), (10, 0), (10, 10)]]]


def is_refused(kind, status, call, *given, **named):
    """Whether a call is refused so, by the library's text and by more behind it."""
    fault = raised(call, given, named)
    return isinstance(fault, kind) and fault.status == status and re.match(re.escape(bapyeru.text(status)) + "(: .+)?$", str(fault)) is not None


def is_type_error(call, *given, **named):
    return isinstance(raised(call, given, named), TypeError)


def is_told(call, *words):
    """Whether what a call raises has these words in its text."""
    said = str(raised(call, (), {}))
    return all(word in said for word in words)


def is_value_error(call, *given, **named):
    """Whether a number is refused that no status is about."""
    return type(raised(call, given, named)) is ValueError


def module():
    flat_answers()
    texts()
    wide()
    arguments()
    taken()
    refusals()
    numbered()
    tell("a parcel without a pond", bapyeru.overlay(PARCEL, POND, "difference") == HOLED)
    tell("words in capitals", bapyeru.overlay(PARCEL, POND, "DIFFERENCE", "NonZero", strategy="List") == HOLED)
    tell("iterators", bapyeru.overlay(iter([iter(PARCEL[0])]), (map(tuple, it) for it in POND), "difference") == HOLED)
    tell("nothing", bapyeru.overlay([]) == [] and bapyeru.contains_points([], [(1, 1)]) == [False] and bapyeru.contains_points(HOLED, []) == [])
    lying = [bapyeru.Flat(array.array("i", itertools.chain.from_iterable(it[0])), array.array("Q", [4])) for it in (PARCEL, POND)]
    tell("arrays", bapyeru.overlay(*lying, "difference") == HOLED)
    tell("an array that can't be written", bapyeru.overlay(bapyeru.Flat(memoryview(lying[0].points).toreadonly(), [4]), POND, "difference") == HOLED)
    tell("lists that lie flat", bapyeru.overlay(bapyeru.Flat([0, 0, 10, 0, 10, 10, 0, 10], [4]), POND, "difference") == HOLED)
    tell("no elements", bapyeru.overlay(bapyeru.Flat(array.array("i"), array.array("Q"))) == [])
    tell("an array of another kind", is_type_error(bapyeru.overlay, bapyeru.Flat(array.array("d", [0.0] * 8), [4])))
    tell("half a point", is_type_error(bapyeru.overlay, bapyeru.Flat(array.array("i", [0] * 7), [3])))
    tell("a point of three numbers", is_type_error(bapyeru.overlay, [[(0, 0, 0), (1, 1, 1)]]))
    tell("half a unit", is_type_error(bapyeru.overlay, [[(0.5, 0), (1, 1), (1, 0)]]))
    tell("whole floats", bapyeru.overlay([[(0.0, 0.0), (10.0, 0.0), (10.0, 10.0), (0.0, 10.0)]], POND, "difference") == HOLED)
    tell("a rule", is_refused(bapyeru.Unknown, 4, bapyeru.overlay, PARCEL, POND, "add"))
    tell("a fill", is_refused(bapyeru.Unknown, 5, bapyeru.overlay, PARCEL, POND, fill="odd"))
    tell("a depth", is_refused(bapyeru.Unknown, 5, bapyeru.overlay, PARCEL, POND, fill="atleast", depth=0))
    tell("a strategy", is_refused(bapyeru.Unknown, 6, bapyeru.overlay, PARCEL, POND, strategy="fast"))
    tell("a precision", is_refused(bapyeru.Unknown, 7, bapyeru.overlay, PARCEL, POND, precision="best"))
    tell("lengths", is_refused(bapyeru.Unfit, 8, bapyeru.overlay, bapyeru.Flat(array.array("i", [0] * 8), [3])))
    tell("lengths that wrap", is_refused(bapyeru.Unfit, 8, bapyeru.overlay, bapyeru.Flat(array.array("i", [0] * 8), array.array("Q", [2**64 - 1, 5]))))
    tell("a list out of range", is_refused(bapyeru.OutOfRange, 12, bapyeru.overlay, [[(0, 0), (2**70, 0), (0, 1)]]))
    tell("an array out of range", is_refused(bapyeru.OutOfRange, 12, bapyeru.overlay, bapyeru.Flat(array.array("q", [0, 0, 2**36, 0, 0, 1]), [3])))
    tell("a place out of range", is_refused(bapyeru.OutOfRange, 12, bapyeru.contains_points, HOLED, [(0, -(2**36) - 1)]))
    tell("kinds", issubclass(bapyeru.OutOfRange, ValueError) and issubclass(bapyeru.MemoryRefused, MemoryError))
    tell("relations", bapyeru.relate(POND, PARCEL).within and bapyeru.relate(PARCEL, POND).covers and bapyeru.relate(PARCEL, []).disjoint)
    tell("places", bapyeru.contains_points(HOLED, [(5, 5), (1, 1), (11, 1)]) == [False, True, False])
    tell("places and edges", bapyeru.locate(HOLED, [(5, 5), (1, 1), (3, 5), (10, 10), (11, 1)]) == ["outside", "inside", "edge", "edge", "outside"])
    tell("places of flat shapes", bapyeru.locate(bapyeru.overlay(PARCEL, POND, "difference", flat=True), [(3, 3)]) == ["edge"])
    tell("areas", bapyeru.doubled_area(PARCEL) == 200 and bapyeru.doubled_area(HOLED[0]) == 168 and bapyeru.doubled_area([]) == 0)
    tell("areas of clockwise contours", bapyeru.doubled_area([it[::-1] for it in HOLED[0]]) == -168)
    tell("areas of flat contours", bapyeru.doubled_area(bapyeru.Flat(array.array("i", CORNERS), [4])) == 200)
    tell("areas of what doesn't sum", is_refused(bapyeru.Unfit, 8, bapyeru.doubled_area, bapyeru.Flat(CORNERS, [3])))
    tell("areas out of range", is_refused(bapyeru.OutOfRange, 12, bapyeru.doubled_area, bapyeru.Flat(array.array("q", [2**36, *CORNERS[1:]]), [4])))
    tell("the library's version", bapyeru.library_version() == bapyeru.__version__)
    tell("a parcel halved", bapyeru.slice_shape(PARCEL, [[(5, -1), (5, 11)]]) == HALVES)
    tell("a road", bapyeru.clip_lines(PARCEL, [[(-5, 5), (15, 5)]]) == [[(0, 5), (10, 5)]])
    tell("a road outside", bapyeru.clip_lines(PARCEL, [[(-5, 5), (15, 5)]], outside=True) == [[(-5, 5), (0, 5)], [(10, 5), (15, 5)]])
    tell("a road along the border", bapyeru.clip_lines(PARCEL, [[(0, 0), (0, 10)]]) == [[(0, 0), (0, 10)]])
    tell("no road along the border", bapyeru.clip_lines(PARCEL, [[(0, 0), (0, 10)]], border=False) == [])
    sizes()
    tell("tiles", bapyeru.overlays(PARCEL, [POND, [], PARCEL], "difference") == [HOLED, bapyeru.overlay(PARCEL), []])
    tell("no tiles", bapyeru.overlays(PARCEL, []) == [])
    island = [[(0, 0), (10, 0), (10, 10), (0, 10)], [(2, 2), (2, 8), (8, 8), (8, 2)], [(4, 4), (6, 4), (6, 6), (4, 6)]]
    shapes, links = bapyeru.hierarchy(island, rule="subject", fill="evenodd")
    tell("an island", list(map(len, shapes)) == [2, 1] and links == [bapyeru.Link(0, 1, 1)])
    # (more than the first guess has room for)
    bars = [[(0, 4 * k), (401, 4 * k), (401, 4 * k + 1), (0, 4 * k + 1)] for k in range(100)]
    posts = [[(4 * k, 0), (4 * k + 1, 0), (4 * k + 1, 401), (4 * k, 401)] for k in range(100)]
    tell("10,000 squares", len(bapyeru.overlay(bars, posts, "intersect")) == 10_000)
    tell("memory that is kept", bapyeru.keep_memory() == hasattr(ctypes.CDLL(None), "mallopt"))
    tell("a parcel without a pond, with memory kept", bapyeru.overlay(PARCEL, POND, "difference") == HOLED)
    for page in ("README.md", "docs/PYTHON.md", "python/README.md"):
        blocks = re.findall(r"((?:^    (?:>>> |\.\.\. ).*\n(?:^    (?!>>> |\.\.\. ).+\n)*)+)", (ROOT / page).read_text(), re.M)
        tell(f"lines of {page}", is_as_shown("\n".join(blocks)))


def sizes():
    """Regions of horizontal and vertical edges, grown and shrunk."""
    box = lambda left, bottom, right, top: [(left, bottom), (right, bottom), (right, top), (left, top)]
    bar, holed, near = [box(0, 0, 4, 20)], [*PARCEL, [(4, 4), (4, 5), (5, 5), (5, 4)]], [*PARCEL, box(14, 0, 24, 10)]
    whole = lambda left, bottom, right, top: [[[(left, top), (left, bottom), (right, bottom), (right, top)]]]
    sized, far = bapyeru.sized, 2**36 - 1
    tell("a bar shrunk", sized(bar, (-1, -1, 0, 0)) == whole(1, 0, 3, 20) and sized(bar, (-2, -2, 0, 0)) == sized(bar, -2) == [])
    tell("a square grown over its hole", sized(holed, 1) == whole(-1, -1, 11, 11))
    tell("a square grown over its hole in y, and shrunk", len(sized(holed, (0, 0, 9, 9))[0]) == 1 and len(sized(holed, -1)[0]) == 2)
    tell("two squares that are joined", sized(near, 2) == whole(-2, -2, 26, 12) and len(sized(near, (1, 2, 9, 9))) == 2)
    tell("four amounts", sized(PARCEL, [1, 2, 3, 4]) == whole(-1, -3, 12, 14) and sized(PARCEL, range(1, 5)) == sized(PARCEL, (1, 2, 3, 4)))
    tell("sized by no amount", sized(PARCEL, 0) == bapyeru.overlay(PARCEL) and sized([], 2**70) == sized([[]], 5) == [])
    tell("what a fill fills", sized([*PARCEL, *PARCEL], 1, "evenodd") == [] and sized([it[::-1] for it in PARCEL], 1, "positive") == [])
    tell("options", sized(PARCEL, 1, least_area=145) == [] and sized(PARCEL, 1, clockwise=True)[0][0][1] == (-1, 11))
    flat = sized(bapyeru.Flat(array.array("i", CORNERS), [4]), 1, flat=True)
    tell("flat and sized", unlaid(flat) == whole(-1, -1, 11, 11) and unlaid(sized(flat, -1, flat=True)) == bapyeru.overlay(PARCEL))
    tell("beyond what is narrow", sized(PARCEL, (0, 2**19, 0, 0)) == whole(0, 0, 2**19 + 10, 10))
    tell("to the end of the range", sized(PARCEL, far - 10) == whole(10 - far, 10 - far, far, far))
    tell("out of range", is_refused(bapyeru.OutOfRange, 12, sized, PARCEL, far - 9) and is_refused(bapyeru.OutOfRange, 12, sized, PARCEL, -(2**80)))
    tell("an edge that slants", is_refused(bapyeru.Unfit, 14, sized, [*PARCEL, [(0, 0), (9, 0), (0, 9)]], 1))
    tell("where it slants", is_told(lambda: sized([*PARCEL, [(0, 0), (9, 0), (0, 9)]], 1), "from (9, 0) to (0, 9)", "contour 1", "point 1"))
    tell("lengths of what is sized", is_refused(bapyeru.Unfit, 8, sized, bapyeru.Flat(CORNERS, [3]), 1))
    for value in (*NO_INTEGERS, (1, 2, 3), (1, 2, 3, 4, 5), (1, 2, 3, 4.0), (), {1, 2, 3, 4}):
        tell(f"{value!r} as amounts", is_type_error(sized, PARCEL, value))
    then = lambda given, by, back: sized(given, by, then=back)
    tell("a gap that is closed, and one that isn't", then(near, 2, -2) == whole(0, 0, 24, 10) and then(near, 1, -1) == bapyeru.overlay(near))
    tell("a bar that is opened, and gone", then(bar, -1, 1) == whole(0, 0, 4, 20) and then(bar, -2, 2) == [])
    tell("amounts that are exchanged", then(PARCEL, (1, 2, 0, 0), (-2, -1, 0, 0)) == whole(1, 0, 11, 10))
    tell("a top that stays", then(PARCEL, 5, (-5, -5, -5, 0)) == whole(0, 0, 10, 15))
    twice = ((1, -1), (-1, 1), (1, 1), ((3, 0, -2, 1), (0, -2, 1, 1)))
    tell("sized twice as by two calls", all(then(holed, *it) == sized(sized(holed, it[0])[0], it[1]) for it in twice))
    tell("sized twice by no amount, and nothing", then(PARCEL, 0, 0) == bapyeru.overlay(PARCEL) and then([], 2**70, -(2**70)) == then([[]], 5, 5) == [])
    tell("fills and options of both", sized([*PARCEL, *PARCEL], 1, "evenodd", then=-1) == [] and sized(PARCEL, 1, then=1, clockwise=True)[0][0][1] == (-2, 12))
    tell("flat and sized twice", unlaid(sized(bapyeru.Flat(array.array("i", CORNERS), [4]), 1, then=1, flat=True)) == whole(-2, -2, 12, 12))
    tell("beyond what is narrow, and back", then(PARCEL, 2**19, -(2**19)) == bapyeru.overlay(PARCEL))
    tell("to the end of the range in turn", then(PARCEL, far - 20, 10) == whole(10 - far, 10 - far, far, far))
    tell("out of range in turn", all(is_refused(bapyeru.OutOfRange, 12, then, PARCEL, *it) for it in ((far - 20, 11), (0, far - 9), (-(2**80), 0))))
    tell("an edge that slants, sized twice", is_refused(bapyeru.Unfit, 14, then, [*PARCEL, [(0, 0), (9, 0), (0, 9)]], 1, 1))
    for value in (*[it for it in NO_INTEGERS if it is not None], (1, 2, 3), (1, 2, 3, 4.0)):
        tell(f"{value!r} as amounts in turn", is_type_error(then, PARCEL, 1, value))
    width, space = bapyeru.width_errors, bapyeru.space_errors
    corner, frame = [*PARCEL, box(11, 11, 20, 20)], [*PARCEL, box(4, 4, 6, 6)]
    tell("corners that face each other", space(corner, 9) == width([*PARCEL, box(10, 10, 20, 20)], 9) == [])
    tell("the width of a frame, by fill", width(frame, 5) == [] and len(width(frame, 5, "evenodd")[0]) == 2)
    tell("the space in a frame, by fill", space(frame, 3) == [] and space(frame, 3, "evenodd") == whole(4, 4, 6, 6))
    tell("a check of nothing", width([], 1) == space([[]], 2**20) == [])
    for check in (width, space):
        tell(f"{check.__name__} of nothing, by 0", is_refused(bapyeru.OutOfRange, 9, check, [], 0))
        tell(f"{check.__name__} of nothing, far below 0", is_refused(bapyeru.OutOfRange, 12, check, [], 5 - 2**33))
        tell(f"{check.__name__}, flat", unlaid(check(bapyeru.Flat(array.array("i", CORNERS), [4]), 10, flat=True)) == [])
        for value in (*NO_INTEGERS, (1, 2)):
            tell(f"{value!r} as a side", is_type_error(check, PARCEL, value))
    tell("the width of a bar", width(bar, 4) == [] and width(bar, 5) == whole(0, 0, 4, 20))
    tell("the space between two masks", space(near, 4) == [] and space(near, 5) == whole(10, 0, 14, 10))
    tell("a side of 1", width(holed, 1) == space(holed, 1) == [] and space(holed, 2) == whole(4, 4, 5, 5))
    tell("options of a check", width(bar, 5, least_area=81) == [] and width(bar, 5, clockwise=True)[0][0][1] == (0, 20))
    for check in (width, space):
        tell(f"{check.__name__}, out of range", all(is_refused(bapyeru.OutOfRange, 9, check, PARCEL, it) for it in (0, -1)))
        tell(f"{check.__name__}, far out of range", all(is_refused(bapyeru.OutOfRange, 12, check, PARCEL, it) for it in (far - 9, -(2**80), 2**80)))
        tell(f"{check.__name__}, an edge that slants", is_refused(bapyeru.Unfit, 14, check, [*PARCEL, [(0, 0), (9, 0), (0, 9)]], 0))
    tell("no rule of sizing", is_type_error(sized, PARCEL, 1, rule="union") and is_refused(bapyeru.Unknown, 5, sized, PARCEL, 1, "odd"))


def wide():
    """Coordinates up to the ends of the range, from lists and arrays, and beside narrow ones."""
    Flat, overlay, least, greatest = bapyeru.Flat, bapyeru.overlay, bapyeru.LEAST, bapyeru.GREATEST
    whole = [[(least, least), (greatest, least), (greatest, greatest), (least, greatest)]]
    tell("the ends of the range", overlay(whole, POND, "difference") == [[[(least, greatest), *whole[0][:3]], HOLED[0][1]]])
    tell("its area", bapyeru.doubled_area(whole) == 2 * (2**37 - 1) ** 2)
    tell("what lies in it", bapyeru.relate(POND, whole).within and bapyeru.relate(whole, POND).covers)
    corners = [(least, least), (greatest - 1, 0), (0, greatest), (0, 0)]
    tell("places in it", bapyeru.locate([whole], corners) == ["edge", "inside", "edge", "inside"])
    tell("far places in what is narrow", bapyeru.contains_points(HOLED, [(greatest, 1), (1, 1)]) == [False, True])
    halves = bapyeru.slice_shape(whole, [[(0, least), (0, greatest)]])
    tell("it halved", sorted(map(bapyeru.doubled_area, halves)) == [2 * (2**36 - 1) * (2**37 - 1), 2 * 2**36 * (2**37 - 1)])
    tell("a line through it", bapyeru.clip_lines(whole, [[(least, 5), (greatest, 5)]]) == [[(least, 5), (greatest, 5)]])
    tell("many of it", bapyeru.overlays(whole, [[], POND], "subject") == [overlay(whole)] * 2)
    shapes, links = bapyeru.hierarchy(whole, [*POND, [(4, 4), (6, 4), (6, 6), (4, 6)]], "xor", fill="evenodd")
    tell("an island in it", list(map(len, shapes)) == [2, 1] and links == [bapyeru.Link(0, 1, 1)])
    # (whole numbers move with what is given)
    away = lambda contours: [[(x + 2**30, y - 2**35) for x, y in contour] for contour in contours]
    road = [[(-5, 3), (15, 5), (15, 6), (-5, 4)]]
    for rule in bapyeru.RULES:
        tell(f"{rule} far away", overlay(away(PARCEL), away(road), rule) == [away(shape) for shape in overlay(PARCEL, road, rule)])
    square, listed = [0, 0, 2**20, 0, 2**20, 2**20, 0, 2**20], [[(0, 0), (2**20, 0), (2**20, 2**20), (0, 2**20)]]
    for code in "iq":
        tell(f"an array of {code}", overlay(Flat(array.array(code, square), [4]), POND, "xor") == overlay(listed, POND, "xor"))
    tell("groups of both widths", bapyeru.overlays([], [Flat(square, [4]), PARCEL], "clip") == [overlay(listed), overlay(PARCEL)])
    for name, group, bits in (("wide", listed, 64), ("narrow", PARCEL, 32)):
        points = overlay(group, flat=True).points
        tell(f"bits of what is answered {name}", 8 * points.itemsize == bits)
    tell("the ends of what is narrow", (bapyeru.NARROW_LEAST, bapyeru.NARROW_GREATEST) == (-524288, 524287))


# No coordinate: `nan` and `inf` have no whole number, and a text, a truth value and a complex number are none.
NO_COORDINATES = (math.nan, math.inf, -math.inf, 0.5, "5", b"5", "", None, True, False, 5j, (5,), [], decimal.Decimal("NaN"), fractions.Fraction(1, 2))
# No length, no depth, and no area.
NO_INTEGERS = (4.0, 1.5, math.nan, math.inf, "4", b"4", None, True, [4], decimal.Decimal(4))
FLAGS = ("clockwise", "keep_given_points", "keep_points", "part_contours")
CORNERS = [0, 0, 10, 0, 10, 10, 0, 10]
# The numbers of the edges of parcel and pond, a bit for each edge: below, right, above, left.
BITS, OTHERS = [[1, 2, 4, 8]], [[16, 32, 64, 128]]


def numbered():
    """Overlays of contours whose edges have numbers."""
    carried, right, near = bapyeru.overlay_edges, [[(5, 0), (15, 0), (15, 10), (5, 10)]], [[5, 2, 6, 9]]
    tell("the edges of a parcel without a pond", carried(PARCEL, POND, BITS, OTHERS, "difference", join="kept") == (HOLED, [[[8, 1, 2, 4], [128, 64, 32, 16]]]))
    long = [(0, 10), (0, 0), (5, 0), (10, 0), (15, 0), (15, 10), (10, 10), (5, 10)]
    tell("bits of two edges on a line", carried(PARCEL, right, BITS, OTHERS) == ([[long]], [[[8, 1, 17, 16, 32, 64, 68, 4]]]))
    tell("the least of two edges on a line", carried(PARCEL, right, BITS, OTHERS, join="least") == ([[long]], [[[8, 1, 1, 16, 32, 64, 4, 4]]]))
    tell("numbers that differ", is_refused(bapyeru.Unfit, 13, carried, PARCEL, right, BITS, OTHERS, join="kept"))
    left = [[[(0, 10), (0, 0), (5, 0), (5, 10)]]]
    tell("numbers that differ where nothing is answered", carried(PARCEL, right, BITS, OTHERS, "difference", join="KEPT") == (left, [[[8, 1, 128, 4]]]))
    tell("bits of equal parcels", carried(PARCEL, PARCEL, BITS, near, "intersect")[1] == [[[9, 5, 2, 6]]])
    tell("the least of equal parcels", carried(PARCEL, PARCEL, BITS, near, join="least")[1] == [[[8, 1, 2, 4]]])
    tell("numbers that are alike", carried(PARCEL, PARCEL, BITS, BITS, join="kept")[1] == [[[8, 1, 2, 4]]])
    both = [PARCEL[0], [(10, 0), (20, 0), (20, 10), (10, 10)]]
    joined = [(0, 0), (20, 0), (20, 10), (0, 10)]
    tell("edges on a line whose numbers are alike", carried(both, [], [[1, 2, 4, 8], [1, 32, 4, 128]], [], join="kept") == ([[joined]], [[[1, 32, 4, 8]]]))
    tell("a point that stays", len(carried(both, [], [[1, 2, 4, 8], [9, 32, 4, 128]], [])[0][0][0]) == 5)
    tell("no edges", carried([], [], [], []) == ([], []))
    far = [[(0, 0), (2**36 - 1, 0), (2**36 - 1, 2**36 - 1), (0, 2**36 - 1)]]
    tell("far edges", carried(far, [], [[2**64 - 1, 0, 2**63, 1]], [], join="least")[1] == [[[1, 2**64 - 1, 0, 2**63]]])
    # (flat)
    flat = [bapyeru.Flat(array.array("i", itertools.chain.from_iterable(it[0])), [4]) for it in (PARCEL, POND)]
    shapes, told = carried(*flat, array.array("Q", BITS[0]), OTHERS[0], "difference", flat=True)
    tell("flat edges", unlaid(shapes) == HOLED and [int(it) for it in told] == [8, 1, 2, 4, 128, 64, 32, 16])
    shapes, told = carried(flat[0], [], array.array("Q", [2**64 - 1, 0, 2**63, 1]), [], flat=True)
    tell("great numbers that lie flat", [int(it) for it in told] == [1, 2**64 - 1, 0, 2**63] and len(shapes.lengths) == 1)
    tell("an array of signed numbers", carried(flat[0], [], array.array("q", BITS[0]), [])[1] == [[[8, 1, 2, 4]]])
    # (what is no such thing)
    tell("a number too few", is_refused(bapyeru.Unfit, 8, carried, PARCEL, POND, [[1, 2, 4]], OTHERS))
    tell("numbers of no contour", is_refused(bapyeru.Unfit, 8, carried, PARCEL, POND, BITS, [*OTHERS, []]))
    tell("a flat number too many", is_refused(bapyeru.Unfit, 8, carried, flat[0], POND, [1, 2, 4, 8, 16], OTHERS))
    tell("a number of no contour is told", is_told(lambda: carried(PARCEL, POND, BITS, []), "the clip has [4] points"))
    tell("a join", is_refused(bapyeru.Unfit, 13, carried, PARCEL, POND, BITS, OTHERS, join="greatest"))
    for value in (-1, 2**64):
        tell(f"{value} as a number", is_value_error(carried, PARCEL, POND, [[1, value, 4, 8]], OTHERS))
        tell(f"{value} as a flat number", is_value_error(carried, flat[0], [], [value] * 4, []))
    for value in NO_INTEGERS:
        tell(f"{value!r} as a number", is_type_error(carried, PARCEL, POND, [[1, value, 4, 8]], OTHERS))
    for value in ("1248", {1, 2, 4, 8}, None, 5):
        tell(f"{value!r} as numbers", is_type_error(carried, PARCEL, POND, [value], OTHERS) and is_type_error(carried, PARCEL, POND, BITS, value))
    tell("an option that there isn't", is_type_error(carried, PARCEL, POND, BITS, OTHERS, joins="or"))
    tell("a far point", is_refused(bapyeru.OutOfRange, 12, carried, [[(0, 0), (2**36, 0), (0, 1)]], [], [[1, 2, 3]], []))
    tell("a rule of edges", is_refused(bapyeru.Unknown, 4, carried, PARCEL, POND, BITS, OTHERS, "add"))


def arguments():
    """Arguments that are no such thing, each refused, and each by what it is."""
    Flat, overlay = bapyeru.Flat, bapyeru.overlay
    tell("a coordinate that 64 bits would wrap", is_refused(bapyeru.OutOfRange, 12, overlay, Flat([2**64 + 5, 0, 10, 0, 10, 10, 0, 10], [4])))
    for value in (2**36, -(2**36) - 1, 2**63, -(2**64), 2**70, 1e300):
        tell(f"a flat list with {value}", is_refused(bapyeru.OutOfRange, 12, overlay, Flat([value, *CORNERS[1:]], [4])))
        tell(f"a contour with {value}", is_refused(bapyeru.OutOfRange, 12, overlay, [[(0, 0), (10, value), (10, 10)]]))
    for value in (2**64 + 4, 2**64, -1, 4 - 2**64):
        tell(f"a length of {value}", is_refused(bapyeru.Unfit, 8, overlay, Flat(CORNERS, [value])))
        tell(f"a length of {value} beside what fits", is_refused(bapyeru.Unfit, 8, overlay, Flat(CORNERS, [4, value])))
    tell("lengths that wrap, in a list", is_refused(bapyeru.Unfit, 8, overlay, Flat(CORNERS, [2**64 - 1, 5])))
    for value in NO_COORDINATES:
        tell(f"{value!r} in a flat list", is_type_error(overlay, Flat([value, *CORNERS[1:]], [4])))
        tell(f"{value!r} in a contour", is_type_error(overlay, [[(0, 0), (value, 0), (10, 10)]]))
        tell(f"{value!r} in a line", is_type_error(bapyeru.clip_lines, PARCEL, [[(0, 0), (0, value)]]))
        tell(f"{value!r} in a place", is_type_error(bapyeru.contains_points, HOLED, [(value, 0)]))
    for value in NO_INTEGERS:
        tell(f"a length {value!r}", is_type_error(overlay, Flat(CORNERS, [value])))
        tell(f"a depth {value!r}", is_type_error(overlay, PARCEL, depth=value) and is_type_error(bapyeru.slice_shape, PARCEL, [], "atleast", value))
        tell(f"an area {value!r}", is_type_error(overlay, PARCEL, least_area=value))
    for value in (-1, 2**64, -(2**64)):
        tell(f"an area of {value}", all(is_value_error(call, PARCEL, (), least_area=value) for call in (overlay, bapyeru.overlays, bapyeru.hierarchy)))
    for flag in FLAGS:
        tell(f"words as {flag}", all(is_type_error(overlay, PARCEL, **{flag: it}) for it in ("no", "", "cw", None, 2, -1, math.nan, [])))
    for flag in ("outside", "border"):
        tell(f"words as {flag}", all(is_type_error(bapyeru.clip_lines, PARCEL, [[(0, 0), (9, 9)]], **{flag: it}) for it in ("no", "", None, 2)))
    tell("flags of another call", is_type_error(overlay, PARCEL, clip_outside=True) and is_type_error(bapyeru.hierarchy, PARCEL, clip_border=True))
    tell("options that there aren't", is_type_error(overlay, PARCEL, least_aera=1) and is_type_error(bapyeru.relate, PARCEL, POND, clockwise=True))
    for word in (3, None, b"union", ["union"], "", "union ", "unio", True):
        tell(f"{word!r} as a rule", is_refused(bapyeru.Unknown, 4, overlay, PARCEL, rule=word))
        tell(f"{word!r} as a fill", is_refused(bapyeru.Unknown, 5, bapyeru.relate, PARCEL, POND, fill=word))
    tell("texts of no status", is_value_error(bapyeru.text, -1) and is_value_error(bapyeru.text, 2**32 + 9) and is_type_error(bapyeru.text, 9.0))
    # (what can be gone through, and has no order or no such members; a `Flat` is a pair of lists)
    corners, flat, pair = PARCEL[0], Flat(CORNERS, [4]), Flat([5, 5], [1, 1])
    no_lists = ("", "parcel", b"", {}, set(), frozenset(corners), {0: corners}, None, 5)
    for value in no_lists:
        tell(f"{value!r} as a group", is_type_error(overlay, value) and is_type_error(overlay, PARCEL, value))
        tell(f"{value!r} as one of many groups", is_type_error(bapyeru.overlays, PARCEL, [value]))
        tell(f"{value!r} as groups", is_type_error(bapyeru.overlays, PARCEL, value))
        tell(f"{value!r} as a contour", is_type_error(overlay, [value]) and is_type_error(bapyeru.slice_shape, PARCEL, [value]))
        tell(f"{value!r} as a flat array", is_type_error(overlay, Flat(value, [])) and is_type_error(overlay, Flat([], value)))
        tell(f"{value!r} as shapes and places", is_type_error(bapyeru.contains_points, value, []) and is_type_error(bapyeru.contains_points, [], value))
        tell(f"{value!r} as a shape", is_type_error(bapyeru.contains_points, [value], [(1, 1)]))
    for value in ("ab", b"ab", {3, 7}, frozenset((3, 7)), {3: 4, 7: 8}, pair, flat, 5, (), (5,)):
        tell(f"{value!r} as a point", is_type_error(overlay, [[(0, 0), (10, 0), value]]) and is_type_error(bapyeru.contains_points, HOLED, [value]))
    tell("flat contours as groups", is_type_error(bapyeru.overlays, PARCEL, flat))
    tell("flat contours as a contour", is_type_error(overlay, [pair]) and is_type_error(overlay, [flat]))
    tell("flat contours as places", is_type_error(bapyeru.contains_points, HOLED, pair) and is_type_error(bapyeru.contains_points, pair, [(1, 1)]))
    endless = []
    endless.append(endless)
    for name, value in (("a point", (0, 0)), ("a contour", corners), ("shapes", HOLED), ("deeper shapes", [[HOLED]]), ("a list of itself", endless)):
        tell(f"{name} as a group", is_type_error(overlay, value) and is_type_error(bapyeru.relate, PARCEL, value))
    tell("a group as shapes", is_type_error(bapyeru.contains_points, PARCEL, [(1, 1)]) and is_type_error(bapyeru.contains_points, HOLED, [[(1, 1)]]))
    tell("a rule in the place of a clip", is_type_error(overlay, PARCEL, "difference"))


def taken():
    """Arguments that are as good as others: of other kinds of numbers, in other lists, in memory of any place."""
    Flat, wanted = bapyeru.Flat, bapyeru.overlay(PARCEL, POND, "difference")

    def same(group):
        try:
            return bapyeru.overlay(group, POND, "difference") == wanted
        except (bapyeru.Refused, TypeError):
            return False

    tell("whole numbers of other kinds", same([[(decimal.Decimal(x), fractions.Fraction(y)) for x, y in PARCEL[0]]]))
    tell("whole floats that lie flat", same(Flat(list(map(float, CORNERS)), [4])))
    tell("tuples that lie flat, and iterators", same(Flat(tuple(CORNERS), iter([4]))) and same(Flat(iter(CORNERS), (4,))))
    tell("points as arrays", same([[array.array("h", point) for point in PARCEL[0]]]))
    tell("contours of a dictionary", same({"parcel": PARCEL[0]}.values()))
    tell("flags as 1 and 0", bapyeru.overlay(PARCEL, clockwise=1, keep_points=0) == bapyeru.overlay(PARCEL, clockwise=True))
    tell("the greatest area", bapyeru.overlay(PARCEL, least_area=2**64 - 1) == [] and bapyeru.overlay(PARCEL, least_area=100) != [])
    tell("any depth", bapyeru.overlay(PARCEL, fill="atleast", depth=2**40) == [] and bapyeru.overlay(PARCEL, depth=-(2**40)) != [])
    tell("a depth below 1", is_refused(bapyeru.Unknown, 5, bapyeru.overlay, PARCEL, fill="atleast", depth=-(2**40)))
    # (each call that takes a `Flat` answers as it does for lists)
    road = [[(-5, 5), (15, 5)]]
    parcel, pond, line = Flat(CORNERS, [4]), Flat(list(itertools.chain.from_iterable(POND[0])), [4]), Flat([-5, 5, 15, 5], [2])
    for call in (bapyeru.overlay, bapyeru.hierarchy, bapyeru.relate):
        tell(f"flat contours for {call.__name__}", call(parcel, pond) == call(PARCEL, POND) == call(parcel, POND) == call(PARCEL, pond))
    for call in (bapyeru.slice_shape, bapyeru.clip_lines):
        tell(f"flat contours for {call.__name__}", call(parcel, line) == call(PARCEL, road) == call(parcel, road) == call(PARCEL, line) != [])
    tell("a flat subject of many overlays", bapyeru.overlays(parcel, [POND, []]) == bapyeru.overlays(PARCEL, [POND, []]))
    with concurrent.futures.ThreadPoolExecutor(4) as pool:
        answers = list(pool.map(lambda _: bapyeru.overlay(parcel, POND, "difference"), range(200)))
    tell("calls of four threads", answers == [wanted] * 200)
    # (memory: of ctypes, in rows of two, read only, unaligned, and what isn't fit)
    points, lengths = array.array("i", CORNERS), array.array("Q", [4])
    rows = lambda *shape: memoryview(points).cast("B").cast("i", shape)
    tell("memory of ctypes", same(Flat((ctypes.c_int32 * 8)(*CORNERS), (ctypes.c_size_t * 1)(4))))
    tell("rows of two", same(Flat(rows(4, 2), lengths)))
    for name, unfit in (("of four", rows(2, 4)), ("of eight", rows(1, 8)), ("of one", rows(8, 1)), ("of rows", rows(2, 2, 2))):
        tell(f"rows {name}", is_type_error(bapyeru.overlay, Flat(unfit, lengths)))
    lain = memoryview(bytearray(41))
    for at in range(1, 8):
        lain[at:at + 32] = points.tobytes()
        tell(f"points that aren't aligned, by {at}", same(Flat(lain[at:at + 32].cast("i"), lengths)))
        tell(f"a read-only array that isn't aligned, by {at}", same(Flat(lain.toreadonly()[at:at + 32].cast("i"), lengths)))
    for at in range(1, 8):
        lain[at:at + 8] = lengths.tobytes()
        tell(f"lengths that aren't aligned, by {at}", same(Flat(points, lain[at:at + 8].cast("Q"))))
    wide = array.array("i", [it for value in CORNERS for it in (value, 7)])
    tell("memory with gaps", same(Flat(memoryview(wide)[::2], lengths)))
    tell("memory backwards", same(Flat(memoryview(array.array("i", CORNERS[::-1]))[::-1], lengths)))
    tell("memory by the other order of bytes", is_type_error(bapyeru.overlay, Flat((ctypes.c_int32.__ctype_be__ * 8)(*CORNERS), lengths)))
    for kind in "bBhHiIlLqQ":
        tell(f"points of kind {kind}", same(Flat(array.array(kind, CORNERS), lengths)))
        tell(f"lengths of kind {kind}", same(Flat(points, array.array(kind, [4]))))
        if array.array(kind).itemsize == 8:
            far = Flat(array.array(kind, [2**36, *CORNERS[1:]]), lengths)
            tell(f"points of kind {kind} out of range", is_refused(bapyeru.OutOfRange, 12, bapyeru.overlay, far))
    tell("lengths below 0", is_refused(bapyeru.Unfit, 8, bapyeru.overlay, Flat(points, array.array("q", [8, -4]))))
    for kind in "fd":
        tell(f"points of kind {kind}", is_type_error(bapyeru.overlay, Flat(array.array(kind, CORNERS), lengths)))
        tell(f"lengths of kind {kind}", is_type_error(bapyeru.overlay, Flat(points, array.array(kind, [4]))))
    tell("one number as memory", is_type_error(bapyeru.overlay, Flat(points, ctypes.c_size_t(4))))
    tell("what is written during a call", answers_what_was_given(points, lengths))


def answers_what_was_given(points, lengths):
    """Whether a call answers for what the arrays had when it began, though another thread writes them; here it is just before the library reads."""
    library = _library.library()
    called, wanted = library.polygon_c_overlay, bapyeru.overlay(PARCEL)

    def late(*words):
        points[0], lengths[0] = 2**30, 2**60
        return called(*words)

    library.polygon_c_overlay = late
    try:
        return bapyeru.overlay(bapyeru.Flat(points, lengths)) == wanted
    except bapyeru.Refused:
        return False
    finally:
        library.polygon_c_overlay = called


def refusals():
    """Refusals are what they were after they have gone through a pickle."""
    for status in range(1, 14):
        refusal = bapyeru.KINDS.get(status, bapyeru.Refused)(status, bapyeru.text(status))
        refusal.place = "tile 7"
        for made in [copy.copy(refusal), *[pickle.loads(pickle.dumps(refusal, way)) for way in range(pickle.HIGHEST_PROTOCOL + 1)]]:
            is_same = type(made) is type(refusal) and (made.status, str(made), made.place) == (status, bapyeru.text(status), "tile 7")
            tell(f"refusal {status} by a pickle", is_same)


def is_as_shown(block):
    """Whether lines of a session give what stands behind them."""
    import doctest

    test = doctest.DocTestParser().get_doctest(block, {}, "README", "README.md", 0)
    runner = doctest.DocTestRunner(verbose=False)
    runner.run(test)
    return runner.tries > 0 and runner.failures == 0


# ---- arrays that are answered, and texts of refusals


def unlaid(shapes):
    """Shapes that lie flat, as lists."""
    points, ends = list(shapes.points), iter(range(len(shapes.points)))
    if points and not hasattr(points[0], "__len__"):  # (in one row, where there is no numpy)
        points, ends = list(zip(points[0::2], points[1::2])), iter(range(len(points) // 2))
    contours = [[tuple(map(int, points[next(ends)])) for _ in range(length)] for length in shapes.lengths]
    return cut(contours, shapes.shapes) if hasattr(shapes, "shapes") else contours


def cut(items, lengths):
    items = iter(items)
    return [list(itertools.islice(items, int(length))) for length in lengths]


def flat_answers():
    """What is answered flat is what is answered in lists, and is taken wherever contours go."""
    overlay, Flat = bapyeru.overlay, bapyeru.Flat
    found = overlay(PARCEL, POND, "difference", flat=True)
    tell("flat shapes", unlaid(found) == HOLED and isinstance(found, bapyeru.FlatShapes))
    tell("flat shapes of nothing", unlaid(overlay([], flat=True)) == [])
    tell("flat shapes as a subject", overlay(found, POND) == overlay(HOLED[0], POND) and bapyeru.relate(found, PARCEL).within)
    tell("flat shapes as shapes", bapyeru.contains_points(found, [(5, 5), (1, 1)]) == [False, True])
    road = [[(-5, 5), (15, 5)]]
    tell("flat slices", unlaid(bapyeru.slice_shape(found, road, flat=True)) == bapyeru.slice_shape(found, road) != [])
    tell("flat paths", unlaid(bapyeru.clip_lines(found, road, flat=True)) == bapyeru.clip_lines(HOLED[0], road) != [])
    shapes, links = bapyeru.hierarchy(PARCEL, POND, "difference", flat=True)
    tell("a flat hierarchy", unlaid(shapes) == HOLED and links == [])
    groups = [POND, [], PARCEL, POND]
    many = bapyeru.overlays(PARCEL, groups, "difference", flat=True)
    tell("many flat overlays", cut(unlaid(many), many.overlays) == bapyeru.overlays(PARCEL, groups, "difference"))
    flats = [Flat(list(itertools.chain.from_iterable(it[0])) if it else [], [4] if it else []) for it in groups]
    tell("flat groups of many", bapyeru.overlays(PARCEL, flats, "xor") == bapyeru.overlays(PARCEL, groups, "xor"))
    tell("flat groups beside lists", bapyeru.overlays(PARCEL, [flats[0], [], PARCEL], "xor") == bapyeru.overlays(PARCEL, groups[:3], "xor"))
    tell("flat shapes one by one", bapyeru.contains_points([flats[0], PARCEL], [(5, 5), (11, 1)]) == [True, False])
    tell("places that lie flat", bapyeru.contains_points(HOLED, array.array("h", [5, 5, 1, 1, 11, 1])) == [False, True, False])
    tell("places as an answer's array", [bool(it) for it in bapyeru.contains_points(HOLED, [(5, 5), (1, 1)], flat=True)] == [False, True])
    tell("places as numbers", [int(it) for it in bapyeru.locate(HOLED, [(5, 5), (1, 1), (3, 5)], flat=True)] == [0, 1, 2])
    for value in ("no", "", None, 2):
        tell(f"{value!r} as flat", is_type_error(overlay, PARCEL, flat=value) and is_type_error(bapyeru.contains_points, HOLED, [], flat=value))
    numpy = module_of("numpy", "arrays of numpy")
    if numpy is None:
        tell("flat shapes without numpy", isinstance(found.points, array.array) and found.points.typecode == "i")
        return
    tell("arrays of numpy", found.points.shape == (8, 2) and found.points.dtype == numpy.int32 and found.lengths.dtype == numpy.int64)
    tell("empty arrays of numpy", overlay([], flat=True).points.shape == (0, 2))
    for kind in ("i1", "i2", "i4", "i8", "u1", "u2", "u4", "u8", ">i4", ">i8", ">u2"):
        corners = numpy.array(PARCEL[0], dtype=kind)
        for name, group in (("flat", Flat(corners, numpy.array([4], dtype=kind))), ("in one row", Flat(corners.ravel(), [4])), ("listed", [corners]),
                            ("in three levels", corners[None]), ("with gaps", Flat(numpy.repeat(corners, 2, axis=0)[::2], [4])),
                            ("by columns", Flat(numpy.asfortranarray(corners), [4]))):
            tell(f"an array of {kind} {name}", overlay(group, POND, "difference") == HOLED)
    for value in (2**36, -(2**36) - 1, 2**40 + 5, 2**63 - 1):
        wrong = numpy.array([(0, 0), (value, 0), (0, 9)])
        tell(f"an array with {value}", is_refused(bapyeru.OutOfRange, 12, overlay, Flat(wrong, [3])) and is_refused(bapyeru.OutOfRange, 12, overlay, [wrong]))
        tell(f"places with {value}", is_refused(bapyeru.OutOfRange, 12, bapyeru.contains_points, HOLED, wrong))
    for kind in ("f4", "f8", "?", "c8", "M8[s]", "O", "U3"):
        tell(f"an array of {kind}", is_type_error(overlay, Flat(numpy.array(CORNERS).astype(kind), [4])))
    tell("rows of three", is_type_error(overlay, Flat(numpy.zeros((4, 3), int), [4])))
    tell("flags of numpy", overlay(PARCEL, clockwise=numpy.bool_(True), least_area=numpy.int64(3)) == overlay(PARCEL, clockwise=True))


def texts():
    """Refusals list the words that are allowed, and name the contour and the point."""
    overlay, Flat = bapyeru.overlay, bapyeru.Flat
    bad = [PARCEL[0], [(0, 0), (9, 9), (3, 2**36)]]
    tell("a rule that there isn't", is_told(lambda: overlay(PARCEL, rule="add"), "'add'", *bapyeru.RULES, "intersection", "symmetric_difference"))
    tell("a fill that there isn't", is_told(lambda: overlay(PARCEL, fill="odd"), "'odd'", *bapyeru.FILLS))
    tell("a strategy that there isn't", is_told(lambda: overlay(PARCEL, strategy="fast"), "'fast'", *bapyeru.STRATEGIES))
    tell("a precision that there isn't", is_told(lambda: overlay(PARCEL, precision="best"), "'best'", *bapyeru.PRECISIONS))
    tell("an option that there isn't", is_told(lambda: overlay(PARCEL, least_aera=1), "'least_aera'", "least_area", "part_contours"))
    tell("a depth of 0", is_told(lambda: overlay(PARCEL, fill="atleast", depth=0), "depth is 0"))
    where = "contour 1 of the clip, point 2 (both from 0)"
    tell("a point out of range", is_told(lambda: overlay(PARCEL, bad), "68719476736 in", where))
    flat = [it for contour in bad for point in contour for it in point]
    for points in (flat, array.array("q", flat)):
        tell(f"a point out of range in {type(points).__name__}", is_told(lambda: overlay(PARCEL, Flat(points, [4, 3])), "68719476736 in", where))
    tell("half a unit", is_told(lambda: overlay(PARCEL, [[], [(0, 0), (1, 2.5)]]), "2.5", "contour 1 of the clip, point 1"))
    tell("no point", is_told(lambda: overlay([[(0, 0), 5, (1, 1)]]), "5", "contour 0 of the subject, point 1"))
    tell("no contour", is_told(lambda: overlay([[], "abc"]), "contour 1 of the subject", "str"))
    tell("a place out of range", is_told(lambda: bapyeru.contains_points(HOLED, [(1, 1), (0, -(2**40))]), "point 1 of the points", str(-(2**40))))
    tell("lengths that don't sum", is_told(lambda: overlay(PARCEL, Flat([0] * 8, [3])), "of the clip", "3", "4 points"))
    tell("lengths of one group", is_told(lambda: bapyeru.overlays([], [Flat([0] * 8, [4]), Flat([0] * 8, [3]), Flat([0] * 8, [5])]), "group 1", "3"))
    for other, rule in (("intersection", "intersect"), ("symmetric_difference", "xor"), ("inverse_difference", "inverse"), ("Intersection", "intersect")):
        tell(f"{other} as a rule", overlay(PARCEL, POND, other) == overlay(PARCEL, POND, rule))


if __name__ == "__main__":
    module()
    sys.exit(end())
