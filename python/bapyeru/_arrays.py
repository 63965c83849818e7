"""Contours as the library takes them, from lists and from arrays, and what it answers, as lists or as arrays."""
from __future__ import annotations

import array
import bisect
import ctypes
import itertools
import numbers
import operator
import reprlib
import sys
from typing import Any, Callable, NamedTuple

from . import _library
from ._library import LENGTHS, RANGE64, SLANT, Flag, Length, Number, Point, Point64, refusal

LEAST, GREATEST = -(2**36), 2**36 - 1
# What the exports reckon with whose points have 32 bits: faster, and in less memory.
NARROW_LEAST, NARROW_GREATEST = -(2**19), 2**19 - 1


class Flat(NamedTuple):
    """Contours that lie flat: the coordinates of all points, x before y, in one row or in rows of two, and how many points each contour has."""

    points: Any
    lengths: Any


class FlatShapes(NamedTuple):
    """Shapes that lie flat: as `Flat`, and how many contours each shape has, the outline first."""

    points: Any
    lengths: Any
    shapes: Any


class FlatOverlays(NamedTuple):
    """Shapes of many overlays that lie flat: as `FlatShapes`, and how many shapes each overlay has."""

    points: Any
    lengths: Any
    shapes: Any
    overlays: Any


FLATS = (Flat, FlatShapes, FlatOverlays)
# What can be gone through, and is no list of contours, points or numbers: text, what has no order, and contours that lie flat.
NO_LISTS = (str, bytes, bytearray, set, frozenset, dict, *FLATS)
# What whole numbers are called by the module struct, and what numbers of the library's own kinds are.
INTEGERS = "bBhHiIlLqQnN"
FORMATS = {Point: ("i", "l"), Point64: ("q", "l"), Length: ("L", "Q", "N")}
# Of what kind an array is, by the module array, that answers numbers of the library's kinds.
CODES = {Point: "i", Point64: "q", Length: "q", Flag: "B"}


# ---- numbers


def integer(value, name):
    """A whole number of a kind that has no others, and no truth value."""
    if isinstance(value, bool) or not hasattr(value, "__index__"):
        raise TypeError(f"{name} is a whole number, and not {reprlib.repr(value)}")
    return operator.index(value)


def flag(value, name):
    """A truth value, also as 1 or 0. A word isn't one: 'no' would count as true."""
    if value not in (False, True):
        raise TypeError(f"{name} is True or False, and not {reprlib.repr(value)}")
    return bool(value)


def coordinate(value, place):
    """A number, of any kind, that is whole and in range."""
    if type(value) is not int:
        try:
            whole = int(value) if isinstance(value, numbers.Number) and not isinstance(value, bool) else None
        except (TypeError, ValueError, OverflowError):
            whole = None  # (of a complex number, of NaN, of what has no end)
        if whole is None or whole != value:
            raise TypeError(f"{place()}: a coordinate is a whole number, and not {reprlib.repr(value)}")
        value = whole
    if not LEAST <= value <= GREATEST:
        raise refusal(RANGE64, f"{value} in {place()}")
    return value


def length(value):
    """A length. One that 64 bits could not hold sums to nothing that there is."""
    value = integer(value, "a length")
    if not 0 <= value < 2**64:
        raise refusal(LENGTHS, f"{value} as a length")
    return value


def number(value):
    """The number of an edge."""
    value = integer(value, "the number of an edge")
    if not 0 <= value < 2**64:
        raise ValueError(f"the number of an edge is from 0 to 2^64 - 1, and not {value}")
    return value


# ---- lists and arrays


def listed(values, name):
    """The values as a list."""
    if isinstance(values, NO_LISTS):
        raise TypeError(f"{name}: a list is wanted, and no {type(values).__name__}")
    if hasattr(values, "__geo_interface__"):
        raise TypeError(f"{name}: contours are wanted; overlay_geometries takes a {type(values).__name__}")
    # (an array gives all members at once, as numbers of Python)
    return list(values.tolist() if hasattr(values, "tolist") else values)


def length_array(values):
    return (Length * len(values))(*map(length, values))


def number_array(values):
    return (Number * len(values))(*map(number, values))


def are_narrow(values):
    """Whether coordinates fit the exports whose points have 32 bits."""
    return len(values) == 0 or NARROW_LEAST <= min(values) and max(values) <= NARROW_GREATEST


def points_of(values):
    """An array of coordinates in range: of 32 bits where all of them fit, and else of 64."""
    kind = Point if are_narrow(values) else Point64
    return (kind * len(values)).from_buffer(array.array(CODES[kind], values))


def coordinate_array(values, place):
    """An array of coordinates, of which `place` tells where one stands. They are looked at one by one only where some are no plain numbers in range."""
    values = list(values)
    if values and (set(map(type, values)) != {int} or min(values) < LEAST or max(values) > GREATEST):
        values = [coordinate(value, lambda: place(at)) for at, value in enumerate(values)]
    return points_of(values)


def memory_of(values):
    """The memory of an array, or None."""
    try:
        return memoryview(values)
    except (TypeError, ValueError, BufferError):  # (numpy has kinds that no memory has)
        return None


def flat_array(values, kind, width, name, make: Callable[[list], Any]):
    """An array of this kind with the values, of which rows may have a width. It is made of a list, each member tested, or copied from memory.

    Memory is copied since it may lie unaligned, and another thread may write it during the call. Coordinates of an array have 64 bits where some don't
    fit the exports of 32.
    """
    numpy, fits = sys.modules.get("numpy"), kind is not Point
    if numpy is not None and isinstance(values, numpy.ndarray) and values.dtype.kind in "iu":
        values = values.astype(values.dtype.newbyteorder("="), copy=False)
        if kind is Point and values.size and LEAST <= values.min() and values.max() <= GREATEST:
            kind = Point if NARROW_LEAST <= values.min() and values.max() <= NARROW_GREATEST else Point64
            values, fits = numpy.ascontiguousarray(values, CODES[kind]), True
    view = None if isinstance(values, NO_LISTS) else memory_of(values)
    if view is None:
        return make(listed(values, name))
    # (the signs before a format tell the order of bytes; the library's machines have the lower first)
    form = view.format.lstrip("@=<")
    if view.shape[1:] not in ((), (width,)) or not view.ndim or form not in tuple(INTEGERS):
        rows = f" or rows of {width}" if width > 1 else ""
        raise TypeError(f"{name}: one row{rows} of whole numbers is wanted, and no memory of format {view.format!r} and shape {view.shape}")
    if view.itemsize == ctypes.sizeof(kind) and form in FORMATS[kind] and view.c_contiguous:
        return (kind * (view.nbytes // view.itemsize)).from_buffer_copy(view) if fits else points_of(array.array("i", view.tobytes()))
    code = {1: "b", 2: "h", 4: "i", 8: "q"}[view.itemsize]
    return make(memoryview(bytes(view)).cast(code.upper() if form.isupper() else code).tolist())


def slice_of(array):
    """An array as the library takes it: where it lies, which is never nowhere, and its length."""
    return array, len(array)


class Places:
    """Points as the library takes them, of which no contours are made: coordinates, x before y."""

    def __init__(self, given, name):
        self.name = name
        if not isinstance(given, NO_LISTS) and memory_of(given) is not None:
            self.points = flat_array(given, Point, 2, name, lambda values: coordinate_array(values, self.place))
        else:
            self.points = coordinates([listed(given, name)], lambda _, point: f"point {point} of the {name} (from 0)")
        if len(self.points) % 2:
            raise TypeError(f"{name}: a point is x and y")

    def place(self, at):
        return f"point {at // 2} of the {self.name} (from 0)"

    def arguments(self):
        return [self.points, len(self.points) // 2]


def coordinates(contours, place):
    """The coordinates of the points of contours, x before y, where `place` names a contour's point."""
    points = list(itertools.chain.from_iterable(contours))

    def where(at):
        ends = list(itertools.accumulate(map(len, contours)))
        contour = bisect.bisect_right(ends, at)
        return place(contour, at - (ends[contour - 1] if contour else 0))

    kinds = set(map(type, points))
    if any(issubclass(kind, NO_LISTS) or not hasattr(kind, "__len__") for kind in kinds) or set(map(len, points)) - {2}:
        wrong = next(at for at, it in enumerate(points) if isinstance(it, NO_LISTS) or not hasattr(it, "__len__") or len(it) != 2)
        raise TypeError(f"{where(wrong)}: a point is x and y, and not {reprlib.repr(points[wrong])}")
    return coordinate_array(itertools.chain.from_iterable(points), lambda at: where(at // 2))


class Contours:
    """Contours as the library takes them: coordinates, x before y, and how many points each contour has."""

    def __init__(self, given, name):
        self.name = name
        if isinstance(given, FLATS):
            self.lengths = flat_array(given.lengths, Length, 1, f"lengths of the {name}", length_array)
            self.points = flat_array(given.points, Point, 2, f"points of the {name}", lambda values: coordinate_array(values, self.place))
        else:
            contours = [listed(contour, f"contour {at} of the {name}") for at, contour in enumerate(listed(given, name))]
            self.lengths = length_array(list(map(len, contours)))
            self.points = coordinates(contours, self.named)
        if len(self.points) % 2:
            raise TypeError(f"points of the {name}: a point is x and y")

    def named(self, contour, point):
        return f"contour {contour} of the {self.name}, point {point} (both from 0)"

    def place(self, at):
        """Where a coordinate stands."""
        ends = list(itertools.accumulate(self.lengths))
        contour = bisect.bisect_right(ends, at // 2)
        return self.named(contour, at // 2 - (ends[contour - 1] if contour else 0))

    def arguments(self):
        return [self.points, len(self.points) // 2, *slice_of(self.lengths)]

    def fault(self, status):
        """What of these contours a status is about, or nothing."""
        points, asked = len(self.points) // 2, sum(self.lengths)
        return f"those of the {self.name} sum to {asked}, and it has {points} points" if status == LENGTHS and asked != points else ""


class Sizable(Contours):
    """Contours that are to be sized by amounts, or checked for a side: with coordinates of 64 bits where points would leave the range of 32 when moved."""

    def __init__(self, given, amounts, name):
        super().__init__(given, name)
        reach = max(map(abs, amounts))
        if self.points._type_ is Point and not are_narrow((min(self.points, default=0) - reach, max(self.points, default=0) + reach)):
            self.points = (Point64 * len(self.points))(*self.points)

    def fault(self, status):
        if status == SLANT:
            return next(self.slanted(), "")
        return f"a point of the {self.name}, moved" if status == RANGE64 else super().fault(status)

    def slanted(self):
        """Where edges are that are neither horizontal nor vertical."""
        points, first = list(pairs(self.points, len(self.points) // 2)), 0
        for contour, length in enumerate(self.lengths):
            own = points[first : first + length]
            for at, (one, other) in enumerate(zip(own, [*own[1:], *own[:1]])):
                if one[0] != other[0] and one[1] != other[1]:
                    yield f"that from {one} to {other}, at {self.named(contour, at)}"
            first += length


class Numbered(Contours):
    """Contours whose edges have numbers: those of the edges from each point to the next, from the last to the first."""

    def __init__(self, given, numbers, name):
        super().__init__(given, name)
        if isinstance(given, FLATS):
            self.numbers = flat_array(numbers, Number, 1, f"numbers of the {name}", number_array)
            counts, wanted = [len(self.numbers)], [len(self.points) // 2]
        else:
            lists = [listed(it, f"numbers of contour {at} of the {name}") for at, it in enumerate(listed(numbers, f"numbers of the {name}"))]
            self.numbers = number_array(list(itertools.chain.from_iterable(lists)))
            counts, wanted = list(map(len, lists)), list(self.lengths)
        if counts != wanted:
            raise refusal(LENGTHS, f"there are {reprlib.repr(counts)} numbers, and the {name} has {reprlib.repr(wanted)} points")

    def arguments(self):
        return [*super().arguments(), *slice_of(self.numbers)]


def joined(groups, name):
    """Contours of many groups one behind the other, each a list or flat, and how many contours each group has."""
    groups = listed(groups, name)
    if not any(isinstance(group, FLATS) for group in groups):
        groups = [listed(group, f"group {at} of the {name}") for at, group in enumerate(groups)]
        return Contours(list(itertools.chain.from_iterable(groups)), name), length_array(list(map(len, groups)))
    parts = [Contours(group, f"group {at} of the {name}") for at, group in enumerate(groups)]
    whole, kind = Contours([], name), alike(parts)
    whole.points = (kind * sum(len(it.points) for it in parts)).from_buffer(bytearray().join(bytes(it.points) for it in parts))
    whole.lengths = (Length * sum(len(it.lengths) for it in parts)).from_buffer(bytearray().join(bytes(it.lengths) for it in parts))
    for part in parts:  # (what one has too many, another has too few)
        check(LENGTHS if part.fault(LENGTHS) else _library.OK, part)
    return whole, length_array([len(it.lengths) for it in parts])


def alike(given):
    """Of what kind the coordinates are of all that are given: those of 32 bits become such of 64 where others are."""
    if all(it.points._type_ is Point for it in given):
        return Point
    for it in given:
        it.points = (Point64 * len(it.points))(*it.points) if it.points._type_ is Point else it.points
    return Point64


def export_for(given, export):
    """An export, or that of 64-bit points where some that are given are such."""
    return getattr(_library.library(), f"{export}64" if alike(given) is Point64 else export)


def check(status, *given):
    """Raises what a status says, and which of the contours that were given it is about. (None is out of range, but where it is moved.)"""
    if status != _library.OK:
        raise refusal(status, next(filter(None, (it.fault(status) for it in given)), ""))


# ---- what is answered


def cut(items, lengths):
    """Pieces of these lengths, one behind the other."""
    items = iter(items)
    return [list(itertools.islice(items, length)) for length in lengths]


def pairs(coordinates, count):
    return zip(coordinates[0 : 2 * count : 2], coordinates[1 : 2 * count : 2])


def nested(counts, points, *levels):
    """Points cut into contours, contours into shapes, and so on; of each array as many as there are."""
    found = pairs(points, counts[0])
    for lengths, count in zip(levels, counts[1:]):
        found = cut(found, lengths[:count])
    return found


def memory(values, count, width=1, code=None):
    """The first of an array's values in memory of their own: of numpy, in rows of a width above 1, or of the module array where there is no numpy."""
    own = array.array(code or CODES[values._type_])
    own.frombytes(ctypes.string_at(values, count * ctypes.sizeof(values._type_)))
    try:
        import numpy
    except ImportError:
        return own
    found = numpy.frombuffer(own, dtype=own.typecode, count=count) if count else numpy.empty(0, own.typecode)
    return found.reshape(-1, width) if width > 1 else found


def truths(values):
    """Numbers 0 and 1 as an array of truth values, where there is numpy."""
    found = memory(values, len(values))
    return found if isinstance(found, array.array) else found.view(bool)


def laid(counts, points, *levels):
    """What `nested` cuts, flat."""
    return memory(points, 2 * counts[0], 2), *[memory(lengths, count) for lengths, count in zip(levels, counts[1:])]


def answered(call, given, sizes, kinds, *words, is_numbered=False):
    """Calls with room by guess, and once more with the room that is needed. `given` are the contours, `kinds` those of the arrays behind that
    of points, and `words` what stands between the contours and the arrays. Answers how many there are of each, and the arrays; with the numbers of edges
    behind them, as many as points, where it is numbered."""
    points = sum(len(it.points) for it in given) // 2
    room = [2 * points + 16] + [points // 3 + 8] * len(kinds)
    contours, coordinate = [word for it in given for word in it.arguments()], alike(given)
    while True:
        arrays = [(coordinate * (2 * room[0]))(), *[(kind * count)() for kind, count in zip(kinds, room[1:])]]
        arrays += [(Number * room[0])()] if is_numbered else []
        status = call(*contours, *words, arrays[0], room[0], *itertools.chain.from_iterable(map(slice_of, arrays[1:])), ctypes.byref(sizes))
        if status != _library.ROOM:
            check(status, *given)
            return [getattr(sizes, name) for name, _ in sizes._fields_][: len(room)], arrays
        room = [getattr(sizes, name) for name, _ in sizes._fields_][: len(room)]
