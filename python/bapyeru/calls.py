"""The calls of the library: overlays, hierarchies, slices, clips, relations, and points in shapes."""
from __future__ import annotations

import ctypes
from typing import Any, Iterable, List, Literal, NamedTuple, Sequence, Tuple, Union, overload

from . import _arrays, _library
from ._arrays import Flat, FlatOverlays, FlatShapes

RULES = ("subject", "clip", "intersect", "union", "difference", "inverse", "xor")
FILLS = ("evenodd", "nonzero", "positive", "negative", "atleast")
STRATEGIES = ("auto", "list", "tree", "frag")
PLACES = ("outside", "inside", "edge")
JOINS = ("or", "least", "kept")
PRECISIONS = ("high", "medium_high", "medium", "medium_low", "low", "absolute")
# What rules are called elsewhere.
OTHER_RULES = {"intersection": "intersect", "symmetric_difference": "xor", "inverse_difference": "inverse"}

Contour = Union[Iterable[Sequence[int]], Any]
Contours = Union[Iterable[Contour], Flat, FlatShapes]
Numbers = Union[Iterable[Iterable[int]], Any]
Shape = List[List[Tuple[int, int]]]
Shapes = Union[Iterable[Contours], FlatShapes]


class Relations(NamedTuple):
    """How what a subject and a clip fill is related."""

    intersects: bool
    """They have a point in common."""
    interiors_intersect: bool
    """Their interiors have."""
    touches: bool
    """They intersect, and their interiors don't."""
    point_intersects: bool
    """They meet at ends of edges alone."""
    within: bool
    """The subject fills something, and the clip all that the subject fills."""
    disjoint: bool
    """They don't intersect."""
    covers: bool
    """The clip fills something, and the subject all that the clip fills."""


class Link(NamedTuple):
    """A shape in a hole of another: that shape, the hole by its number among the contours of all shapes, and the shape in the hole."""

    parent_shape: int
    parent_contour: int
    child_shape: int


def text(status: int) -> str:
    """What a status of the library says."""
    status = _arrays.integer(status, "a status")
    if not 0 <= status < 2**32:
        raise ValueError(f"a status is from 0 to 2^32 - 1, and not {status}")
    return _library.text(status)


def _number(words, word, status, others={}):
    """The number of a word, which is also told in capitals."""
    known = others.get(word.lower(), word.lower()) if isinstance(word, str) else None
    if known in words:
        return words.index(known)
    raise _library.refusal(status, f"{word!r} is none of {', '.join([*words, *others])}")


OPTIONS = ("depth", "strategy", "precision", "clockwise", "keep_given_points", "keep_points", "part_contours", "least_area")


def _query(rule, fill, options):
    """The query of a rule, a fill and further options of `overlay`."""
    for name in options:
        if name not in OPTIONS:
            raise TypeError(f"{name!r} is none of the options {', '.join(OPTIONS)}")
    return _query_of(rule, fill, **options)


def _query_of(rule, fill, depth=1, strategy="auto", precision="high", clockwise=False, keep_given_points=False, keep_points=False, part_contours=False,
              least_area=0):
    least_area = _arrays.integer(least_area, "least_area")
    if not 0 <= least_area < 2**64:
        raise ValueError(f"least_area is from 0 to 2^64 - 1, and not {least_area}")
    query = _library.Query(
        least_area=least_area,
        rule=_number(RULES, rule, _library.RULE, OTHER_RULES),
        fill=_number(FILLS, fill, _library.FILL),
        # (no more contours wind round a point than 32 bits count)
        depth=max(-(2**31), min(_arrays.integer(depth, "depth"), 2**31 - 1)),
        strategy=_number(STRATEGIES, strategy, _library.STRATEGY),
        precision=_number(PRECISIONS, precision, _library.PRECISION),
        clockwise=_arrays.flag(clockwise, "clockwise"),
        keep_given_points=_arrays.flag(keep_given_points, "keep_given_points"),
        keep_points=_arrays.flag(keep_points, "keep_points"),
        part_contours=_arrays.flag(part_contours, "part_contours"),
    )
    if query.fill == FILLS.index("atleast") and depth < 1:
        raise _library.refusal(_library.FILL, f"depth is {depth}, and 1 or more is wanted")
    return query


def _asked(export, given, query, sizes, kinds, *words, is_numbered=False):
    """What an export answers for these contours: how many there are of each, and the arrays."""
    call = _arrays.export_for(given, export)
    return _arrays.answered(call, given, sizes, kinds, *words, *_library.query_of(query), is_numbered=is_numbered)


def _shaped(kind, flat, found):
    """What was found as lists, or flat as this kind."""
    counts, arrays = found
    return kind(*_arrays.laid(counts, *arrays)) if _arrays.flag(flat, "flat") else _arrays.nested(counts, *arrays)


_LENGTHS = [_library.Length] * 2


@overload
def overlay(subject: Contours, clip: Contours = (), rule: str = "union", fill: str = "nonzero", *, flat: Literal[False] = False,
            **options: Any) -> List[Shape]: ...
@overload
def overlay(subject: Contours, clip: Contours = (), rule: str = "union", fill: str = "nonzero", *, flat: Literal[True], **options: Any) -> FlatShapes: ...
def overlay(subject, clip=(), rule="union", fill="nonzero", *, flat=False, **options):
    """The shapes of the points that an overlay of subject and clip keeps.

    Arguments:
        subject, clip: groups of contours, each a list or a `Flat`.
        rule: which points are kept, one of RULES: "subject" or "clip" alone, "intersect", "union", "difference" (of the subject, and not of the
            clip), "inverse" (of the clip, and not of the subject), "xor". Also by the names that Shapely has: "intersection",
            "symmetric_difference".
        fill: where contours fill, one of FILLS: where they wind round a point an odd number of times ("evenodd"), any ("nonzero"), more than 0
            ("positive": outlines counterclockwise, holes the other way), less than 0 ("negative"), or `depth` times or more ("atleast").
        depth: of "atleast", 1 or more.
        strategy: how pairs of edges that meet are found, one of STRATEGIES. No answer depends on it.
        precision: how near to an end a crossing off the grid has to be to go there, one of PRECISIONS. Leave it, unless an answer has to be that of
            another engine at this precision: docs/EXACTNESS.md tells what becomes of edges.
        clockwise: outlines run clockwise, and holes the other way.
        keep_given_points: points of what is given that lie on a line with their neighbours are kept before anything is reckoned. Else they are taken
            out, and an edge that passes through a few of them is one edge. What region is answered may differ by a unit where edges cross off the grid.
        keep_points: points that contours of the answer pass straight are kept: those that were given and were kept, and those where others
            touch or cross. Else corners alone are answered.
        part_contours: contours that touch themselves are parted, so that each shape is a polygon that OGC calls valid. Else a contour may pass a
            point more than once, as the engine walks it.
        least_area: contours of the answer whose area is less are left out, in squares of the unit. An outline goes with its holes. 0 leaves all.
        flat: answers `FlatShapes`, whose arrays are of numpy where that is installed, and else of the module array.

    Refused with a `Refused`, whose kind and text say why.
    """
    given, query = [_arrays.Contours(subject, "subject"), _arrays.Contours(clip, "clip")], _query(rule, fill, options)
    found = _asked("polygon_c_overlay", given, query, _library.Sizes(), _LENGTHS)
    return _shaped(FlatShapes, flat, found)


@overload
def overlay_edges(subject: Contours, clip: Contours, subject_numbers: Numbers, clip_numbers: Numbers, rule: str = "union", fill: str = "nonzero", *,
                  join: str = "or", flat: Literal[False] = False, **options: Any) -> Tuple[List[Shape], List[List[List[int]]]]: ...
@overload
def overlay_edges(subject: Contours, clip: Contours, subject_numbers: Numbers, clip_numbers: Numbers, rule: str = "union", fill: str = "nonzero", *,
                  join: str = "or", flat: Literal[True], **options: Any) -> Tuple[FlatShapes, Any]: ...
def overlay_edges(subject, clip, subject_numbers, clip_numbers, rule="union", fill="nonzero", *, join="or", flat=False, **options):
    """The shapes of an overlay of contours whose edges have numbers, and the numbers of the edges of these shapes.

    Arguments:
        subject, clip: groups of contours, each a list or a `Flat`.
        subject_numbers, clip_numbers: for each contour a list with a number for each of its points, from 0 to 2^64 - 1: that of the edge from it to the
            next, from the last to the first. Of a `Flat` those of all contours in one row.
        join: what an edge has on which several of those that are given come to lie, of subject and clip alike, one of JOINS: each bit that one of their
            numbers has ("or"), the least of them ("least"), or the number of all ("kept"): where those of an edge of the answer differ it is refused.
        rule, fill, flat, and further options: as of `overlay`. A point where the number changes stays, also where the contour passes it straight. All
            points of what is given are kept, and no contour is parted: `keep_given_points` and `part_contours` aren't read.

    Parts of an edge that is cut have its number. The numbers that are answered are nested as the points are, or with `flat` an array with one for each.
    """
    given = [_arrays.Numbered(subject, subject_numbers, "subject"), _arrays.Numbered(clip, clip_numbers, "clip")]
    query, number = _query(rule, fill, options), _number(JOINS, join, _library.JOIN)
    counts, [*arrays, numbers] = _asked("polygon_c_overlay_edges", given, query, _library.Sizes(), _LENGTHS, number, is_numbered=True)
    shapes = _shaped(FlatShapes, flat, (counts, arrays))
    if flat:
        return shapes, _arrays.memory(numbers, counts[0], code="Q")
    told = iter(numbers[: counts[0]])
    return shapes, [[[next(told) for _ in contour] for contour in shape] for shape in shapes]


@overload
def overlays(subject: Contours, groups: Iterable[Contours], rule: str = "union", fill: str = "nonzero", *, flat: Literal[False] = False,
             **options: Any) -> List[List[Shape]]: ...
@overload
def overlays(subject: Contours, groups: Iterable[Contours], rule: str = "union", fill: str = "nonzero", *, flat: Literal[True],
             **options: Any) -> FlatOverlays: ...
def overlays(subject, groups, rule="union", fill="nonzero", *, flat=False, **options):
    """The shapes of the overlay of a subject with each of many groups of clips, by one call, with the arguments of `overlay`: a list of shapes for each
    group, or `FlatOverlays`."""
    clips, counts = _arrays.joined(groups, "clips")
    given, query = [_arrays.Contours(subject, "subject"), clips], _query(rule, fill, options)
    found = _asked("polygon_c_overlays", given, query, _library.ManySizes(), [_library.Length] * 3, *_arrays.slice_of(counts))
    return _shaped(FlatOverlays, flat, found)


@overload
def hierarchy(subject: Contours, clip: Contours = (), rule: str = "union", fill: str = "nonzero", *, flat: Literal[False] = False,
              **options: Any) -> Tuple[List[Shape], List[Link]]: ...
@overload
def hierarchy(subject: Contours, clip: Contours = (), rule: str = "union", fill: str = "nonzero", *, flat: Literal[True],
              **options: Any) -> Tuple[FlatShapes, List[Link]]: ...
def hierarchy(subject, clip=(), rule="union", fill="nonzero", *, flat=False, **options):
    """What `overlay` answers by the same arguments, and a `Link` for each shape that lies in a hole of another."""
    given, query = [_arrays.Contours(subject, "subject"), _arrays.Contours(clip, "clip")], _query(rule, fill, options)
    counts, [*arrays, links] = _asked("polygon_c_hierarchy", given, query, _library.LinkSizes(), [*_LENGTHS, _library.Link])
    told = [Link(it.parent_shape, it.parent_contour, it.child_shape) for it in links[: counts[-1]]]
    return _shaped(FlatShapes, flat, (counts[:-1], arrays)), told


@overload
def slice_shape(shape: Contours, lines: Contours, fill: str = "nonzero", depth: int = 1, *, flat: Literal[False] = False) -> List[Shape]: ...
@overload
def slice_shape(shape: Contours, lines: Contours, fill: str = "nonzero", depth: int = 1, *, flat: Literal[True]) -> FlatShapes: ...
def slice_shape(shape, lines, fill="nonzero", depth=1, *, flat=False):
    """The shapes into which open lines part a shape. A line parts where it runs from border to border.

    Arguments:
        shape: the contours of the shape, a group.
        lines: open lines, a group: of a line the last point doesn't lead back to the first.
        fill, depth, flat: as of `overlay`.
    """
    given = [_arrays.Contours(shape, "shape"), _arrays.Contours(lines, "lines")]
    found = _asked("polygon_c_slice", given, _query_of("subject", fill, depth), _library.Sizes(), _LENGTHS)
    return _shaped(FlatShapes, flat, found)


@overload
def clip_lines(shape: Contours, lines: Contours, fill: str = "nonzero", depth: int = 1, outside: bool = False, border: bool = True, *,
               flat: Literal[False] = False) -> List[List[Tuple[int, int]]]: ...
@overload
def clip_lines(shape: Contours, lines: Contours, fill: str = "nonzero", depth: int = 1, outside: bool = False, border: bool = True, *,
               flat: Literal[True]) -> Flat: ...
def clip_lines(shape, lines, fill="nonzero", depth=1, outside=False, border=True, *, flat=False):
    """What of open lines lies inside of a shape, as paths in their direction.

    Arguments:
        shape: the contours of the shape, a group.
        lines: open lines, a group.
        fill, depth: as of `overlay`.
        outside: what lies outside is answered, and not what lies inside.
        border: what runs along the border is inside.
        flat: answers a `Flat`.
    """
    given, query = [_arrays.Contours(shape, "shape"), _arrays.Contours(lines, "lines")], _query_of("subject", fill, depth)
    query.clip_outside, query.clip_border = _arrays.flag(outside, "outside"), _arrays.flag(border, "border")
    found = _asked("polygon_c_clip", given, query, _library.Sizes(), _LENGTHS[:1])
    return _shaped(Flat, flat, found)


@overload
def sized(
    contours: Contours, by: Union[int, Sequence[int]], fill: str = "nonzero", *, then: Union[None, int, Sequence[int]] = None, flat: Literal[False] = False,
    **options: Any,
) -> List[Shape]: ...
@overload
def sized(
    contours: Contours, by: Union[int, Sequence[int]], fill: str = "nonzero", *, then: Union[None, int, Sequence[int]] = None, flat: Literal[True],
    **options: Any,
) -> FlatShapes: ...
def sized(contours, by, fill="nonzero", *, then=None, flat=False, **options):
    """The shapes of what contours fill, grown or shrunk by whole distances: first in x, then in y. Each edge that is given is horizontal or vertical, and so
    is each that is answered. What is shrunk by as much as it is wide is gone, and gaps and holes that are grown over are filled.

    Arguments:
        contours: a group.
        by: how far left sides move to the left, right sides to the right, bottoms down and tops up, inward where it is below 0; or one number for all four.
        then: the same for what comes of that: so by 5 and then by -5 gaps narrower than 10 are closed, and the other way round what is narrower is gone.
        fill, flat, options: as of `overlay`.

    A contour with an edge that is neither horizontal nor vertical is `Unfit`. Where a point that is moved by one of the amounts, and then by one of the second,
    would be out of range, in x or in y, that is `OutOfRange`.
    """
    amounts, query = _amounts(by, "by"), _query("subject", fill, options)
    if then is None:
        given = [_arrays.Sizable(contours, amounts, "contours")]
        return _shaped(FlatShapes, flat, _asked("polygon_c_sized", given, query, _library.Sizes(), _LENGTHS, *amounts))
    second = _amounts(then, "then")
    given = [_arrays.Sizable(contours, [max(map(abs, amounts)) + max(map(abs, second))], "contours")]
    return _shaped(FlatShapes, flat, _asked("polygon_c_sized_in_turn", given, query, _library.Sizes(), _LENGTHS, *amounts, *second))


def _amounts(by, name):
    amounts = [_arrays.integer(it, "an amount") for it in (_arrays.listed(by, name) if hasattr(by, "__len__") else [by] * 4)]
    if len(amounts) != 4:
        raise TypeError(f"{name}: one amount is wanted, or four, and not {len(amounts)}")
    # (by more than the range is wide all points leave it)
    return [max(-(2**40), min(it, 2**40)) for it in amounts]


@overload
def width_errors(contours: Contours, width: int, fill: str = "nonzero", *, flat: Literal[False] = False, **options: Any) -> List[Shape]: ...
@overload
def width_errors(contours: Contours, width: int, fill: str = "nonzero", *, flat: Literal[True], **options: Any) -> FlatShapes: ...
def width_errors(contours, width, fill="nonzero", *, flat=False, **options):
    """The shapes of what of contours is narrower than a width: each point of what they fill that no square of this width in it covers, wherever the square
    stands. Each edge is horizontal or vertical. Of two corners that face each other diagonally nothing is told, however near they are.

    Arguments:
        contours: a group.
        width: a whole number, 1 or more.
        fill, flat, options: as of `overlay`.

    A contour with an edge that is neither horizontal nor vertical is `Unfit`. A width below 1, or one by which a point would be moved out of range, in x or in y,
    is `OutOfRange`.
    """
    return _checked("polygon_c_width", contours, _arrays.integer(width, "width"), _query("subject", fill, options), flat)


@overload
def space_errors(contours: Contours, space: int, fill: str = "nonzero", *, flat: Literal[False] = False, **options: Any) -> List[Shape]: ...
@overload
def space_errors(contours: Contours, space: int, fill: str = "nonzero", *, flat: Literal[True], **options: Any) -> FlatShapes: ...
def space_errors(contours, space, fill="nonzero", *, flat=False, **options):
    """The shapes of where contours are nearer to each other than a space, or sides of a notch: each point outside of what they fill that no square of this
    width outside covers. With the arguments of `width_errors`, and refused as it is.
    """
    return _checked("polygon_c_space", contours, _arrays.integer(space, "space"), _query("subject", fill, options), flat)


def _checked(export, contours, side, query, flat):
    # (by more than the range is wide all points leave it)
    side = max(-(2**40), min(side, 2**40))
    given = [_arrays.Sizable(contours, [side], "contours")]
    return _shaped(FlatShapes, flat, _asked(export, given, query, _library.Sizes(), _LENGTHS, side))


def relate(subject: Contours, clip: Contours, fill: str = "nonzero", depth: int = 1, strategy: str = "auto", precision: str = "high") -> Relations:
    """How what a subject and a clip fill is related: all `Relations` at once, with the arguments of `overlay`."""
    given, query = [_arrays.Contours(subject, "subject"), _arrays.Contours(clip, "clip")], _query_of("subject", fill, depth, strategy, precision)
    told, call = _library.Relations(), _arrays.export_for(given, "polygon_c_relate")
    words = [word for it in given for word in it.arguments()]
    _arrays.check(call(*words, *_library.query_of(query), ctypes.byref(told)), *given)
    return Relations(*[bool(getattr(told, name)) for name in Relations._fields])


@overload
def contains_points(shapes: Shapes, points: Contour, *, flat: Literal[False] = False) -> List[bool]: ...
@overload
def contains_points(shapes: Shapes, points: Contour, *, flat: Literal[True]) -> Any: ...
def contains_points(shapes, points, *, flat=False):
    """Whether each point lies in one of the shapes, by parity. Nothing is told of a point on an edge: `locate` tells that, but is slower.

    Arguments:
        shapes: a list of shapes, each a group of contours, or `FlatShapes`.
        points: a list of points, or an array of their coordinates.
        flat: answers an array of truth values.
    """
    found = _placed("polygon_c_contains_points", shapes, points)
    return _arrays.truths(found) if _arrays.flag(flat, "flat") else [bool(it) for it in found]


@overload
def locate(shapes: Shapes, points: Contour, *, flat: Literal[False] = False) -> List[str]: ...
@overload
def locate(shapes: Shapes, points: Contour, *, flat: Literal[True]) -> Any: ...
def locate(shapes, points, *, flat=False):
    """Where each point lies, by a word of PLACES: "edge" on an edge of a contour, its ends among them, else "inside" in one of the shapes, else "outside".

    Arguments:
        shapes, points: as of `contains_points`.
        flat: answers an array of the words' numbers in PLACES.
    """
    found = _placed("polygon_c_locate", shapes, points)
    return _arrays.memory(found, len(found)) if _arrays.flag(flat, "flat") else [PLACES[it] for it in found]


def _placed(export, shapes, points):
    """What an export tells of each point by a number."""
    if isinstance(shapes, FlatShapes):
        contours, counts = _arrays.Contours(shapes, "shapes"), _arrays.flat_array(shapes.shapes, _library.Length, 1, "shapes", _arrays.length_array)
    else:
        contours, counts = _arrays.joined(shapes, "shapes")
    places = _arrays.Places(points, "points")
    found, call = (_library.Flag * (len(places.points) // 2))(), _arrays.export_for([contours, places], export)
    words = [*contours.arguments(), *_arrays.slice_of(counts), *places.arguments(), *_arrays.slice_of(found)]
    _arrays.check(call(*words), contours)
    return found


def doubled_area(contours: Contours) -> int:
    """Twice the signed area of each contour, summed, exact: above 0 where they run counterclockwise. So a shape that is answered has twice its area."""
    given, area, told, at = _arrays.Contours(contours, "contours"), _library.Wide(), 0, 0
    _arrays.check(_library.LENGTHS if given.fault(_library.LENGTHS) else _library.OK, given)
    coordinate, call = _arrays.alike([given]), _arrays.export_for([given], "polygon_c_area")
    for length in given.lengths:
        points = (coordinate * (2 * length)).from_buffer(given.points, at)
        _arrays.check(call(points, length, ctypes.byref(area)), given)
        told, at = told + area.high * 2**64 + area.low, at + ctypes.sizeof(points)
    return told


def library_version() -> str:
    """The version of the library that is loaded."""
    number = _library.library().polygon_c_version()
    return f"{number // 1_000_000}.{number // 1_000 % 1_000}.{number % 1_000}"
