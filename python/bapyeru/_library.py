"""The library libpolygon_c.so by ctypes: its structs, its exports, where it is looked for, and its refusals."""
from __future__ import annotations

import ctypes
import os
import pathlib

# A coordinate of 32 bits, one of 64, a length, the number of an edge, and what tells whether something is so.
Point, Point64, Length, Number, Flag = ctypes.c_int32, ctypes.c_int64, ctypes.c_size_t, ctypes.c_uint64, ctypes.c_uint8


class Query(ctypes.Structure):
    _fields_ = [
        ("least_area", ctypes.c_uint64),
        ("rule", ctypes.c_uint32),
        ("fill", ctypes.c_uint32),
        ("depth", ctypes.c_int32),
        ("strategy", ctypes.c_uint32),
        ("precision", ctypes.c_uint32),
        ("clockwise", ctypes.c_uint32),
        ("keep_given_points", ctypes.c_uint32),
        ("keep_points", ctypes.c_uint32),
        ("part_contours", ctypes.c_uint32),
        ("clip_outside", ctypes.c_uint32),
        ("clip_border", ctypes.c_uint32),
    ]


# (behind the words that there are today the struct has none)
QUERY_WORDS = 2 + len(Query._fields_) - 1


class Sizes(ctypes.Structure):
    _fields_ = [("points", Length), ("contours", Length), ("shapes", Length)]


class LinkSizes(ctypes.Structure):
    _fields_ = [*Sizes._fields_, ("links", Length)]


class ManySizes(ctypes.Structure):
    _fields_ = [*Sizes._fields_, ("overlays", Length)]


class Link(ctypes.Structure):
    _fields_ = [("parent_shape", Length), ("parent_contour", Length), ("child_shape", Length)]


class Wide(ctypes.Structure):
    """A signed number of 128 bits."""

    _fields_ = [("low", ctypes.c_uint64), ("high", ctypes.c_int64)]


RELATIONS = ("intersects", "interiors_intersect", "touches", "point_intersects", "within", "disjoint", "covers")


class Relations(ctypes.Structure):
    _fields_ = [(name, Flag) for name in RELATIONS]


# The exports, each with what it answers and what it takes: an array is where it lies and its length, contours are their points and lengths.
_TO = ctypes.c_void_p
_ARRAY = [_TO, ctypes.c_size_t]
_CONTOURS = _ARRAY * 2
_QUERY = _ARRAY
_STATUS = ctypes.c_uint32
_CALLS = {
    "polygon_c_overlay": (_STATUS, [*_CONTOURS * 2, *_QUERY, *_ARRAY * 3, _TO]),
    "polygon_c_overlay_edges": (_STATUS, [*(_CONTOURS + _ARRAY) * 2, ctypes.c_uint32, *_QUERY, *_ARRAY * 4, _TO]),
    "polygon_c_overlays": (_STATUS, [*_CONTOURS * 2, *_ARRAY, *_QUERY, *_ARRAY * 4, _TO]),
    "polygon_c_hierarchy": (_STATUS, [*_CONTOURS * 2, *_QUERY, *_ARRAY * 4, _TO]),
    "polygon_c_slice": (_STATUS, [*_CONTOURS * 2, *_QUERY, *_ARRAY * 3, _TO]),
    "polygon_c_clip": (_STATUS, [*_CONTOURS * 2, *_QUERY, *_ARRAY * 2, _TO]),
    "polygon_c_sized": (_STATUS, [*_CONTOURS, *[ctypes.c_int32] * 4, *_QUERY, *_ARRAY * 3, _TO]),
    "polygon_c_sized_in_turn": (_STATUS, [*_CONTOURS, *[ctypes.c_int32] * 8, *_QUERY, *_ARRAY * 3, _TO]),
    "polygon_c_width": (_STATUS, [*_CONTOURS, ctypes.c_int32, *_QUERY, *_ARRAY * 3, _TO]),
    "polygon_c_space": (_STATUS, [*_CONTOURS, ctypes.c_int32, *_QUERY, *_ARRAY * 3, _TO]),
    "polygon_c_relate": (_STATUS, [*_CONTOURS * 2, *_QUERY, _TO]),
    "polygon_c_contains_points": (_STATUS, [*_CONTOURS, *_ARRAY, *_ARRAY, *_ARRAY]),
    "polygon_c_locate": (_STATUS, [*_CONTOURS, *_ARRAY, *_ARRAY, *_ARRAY]),
    "polygon_c_area": (_STATUS, [*_ARRAY, _TO]),
}
EXPORTS = {
    **_CALLS,
    # (with coordinates of 64 bits)
    **{f"{export}64": it for export, it in _CALLS.items()},
    "polygon_c_sized64": (_STATUS, [*_CONTOURS, *[ctypes.c_int64] * 4, *_QUERY, *_ARRAY * 3, _TO]),
    "polygon_c_sized_in_turn64": (_STATUS, [*_CONTOURS, *[ctypes.c_int64] * 8, *_QUERY, *_ARRAY * 3, _TO]),
    "polygon_c_width64": (_STATUS, [*_CONTOURS, ctypes.c_int64, *_QUERY, *_ARRAY * 3, _TO]),
    "polygon_c_space64": (_STATUS, [*_CONTOURS, ctypes.c_int64, *_QUERY, *_ARRAY * 3, _TO]),
    "polygon_c_version": (ctypes.c_uint32, []),
    "polygon_c_text": (ctypes.c_size_t, [_STATUS, *_ARRAY]),
}


def query_of(query: Query) -> list:
    """A query as the exports take it: its words of 32 bits, and how many there are."""
    return [ctypes.byref(query), QUERY_WORDS]


NAME = "libpolygon_c.so"
_loaded = None


def library() -> ctypes.CDLL:
    """The library, loaded once: that which BAPYERU_LIBRARY names, or beside this module, or where the repository builds it."""
    global _loaded
    if _loaded is None:
        here = pathlib.Path(__file__).resolve().parent
        places = [here / NAME, here.parents[1] / "crates/polygon_c/out" / NAME]
        name = os.environ.get("BAPYERU_LIBRARY") or next((str(it) for it in places if it.exists()), None)
        if name is None:
            raise ImportError(f"{NAME} is not there: docs/C.md says how to build it, and BAPYERU_LIBRARY may name it")
        try:
            loaded = ctypes.CDLL(name)
            for export, (answered, taken) in EXPORTS.items():
                call = getattr(loaded, export)
                call.restype, call.argtypes = answered, taken
        except (OSError, AttributeError) as fault:
            raise ImportError(f"{name} is no such library: {fault}") from fault
        _loaded = loaded
    return _loaded


def keep_memory() -> bool:
    """Lets the heap keep what calls free, so that its pages need not be laid anew: it keeps up to 2^28 bytes at its end, and takes 2^26 more than it needs,
    for all of the process and for good. Answers whether that is so: it is told to glibc, by its `mallopt`. No other answer depends on it."""
    mallopt = getattr(ctypes.CDLL(None), "mallopt", None)
    # (M_TOP_PAD and M_TRIM_THRESHOLD of malloc.h)
    return mallopt is not None and all(mallopt(number, value) == 1 for number, value in ((-2, 1 << 26), (-1, 1 << 28)))


# ---- refusals

OK, RULE, FILL, STRATEGY, PRECISION, LENGTHS, RANGE, ROOM, RANGE64, JOIN, SLANT = 0, 4, 5, 6, 7, 8, 9, 10, 12, 13, 14


class Refused(Exception):
    """A call that was not answered. `status` is the library's number; the text begins with the library's, and says behind that what was wrong, and where."""

    status: int

    def __init__(self, status: int, text: str) -> None:
        super().__init__(text)
        self.status = status

    def __reduce__(self):
        """What makes it anew: a pickle would call the kind with the text alone."""
        return type(self), (self.status, *self.args), self.__dict__


class MemoryRefused(Refused, MemoryError):
    """Memory was refused."""


class TooMany(Refused, OverflowError):
    """Too many contours run along an edge or wind round a point, or there would be too many edges."""


class Unknown(Refused, ValueError):
    """A word, a number or a depth stands for nothing."""


class Unfit(Refused, ValueError):
    """Lengths don't sum to what they cut, numbers of edges that are to be kept differ, or an edge is neither horizontal nor vertical."""


class OutOfRange(Refused, ValueError):
    """A coordinate is not from -68719476736 to 68719476735, or a step of a narrow `Grid` not from -524288 to 524287."""


KINDS = {1: MemoryRefused, 2: TooMany, 3: TooMany, 4: Unknown, 5: Unknown, 6: Unknown, 7: Unknown, 8: Unfit, 9: OutOfRange, 10: Refused,
         11: Refused, 12: OutOfRange, 13: Unfit, 14: Unfit}


def text(status: int) -> str:
    """What a status from 0 to 2^32 - 1 says."""
    room = ctypes.create_string_buffer(128)
    length = library().polygon_c_text(status, room, len(room))
    return room.raw[:length].decode()


def refusal(status: int, detail: str = "") -> Refused:
    """What is raised for a status, with what was wrong behind the library's text."""
    told = text(status)
    return KINDS.get(status, Refused)(status, f"{told}: {detail}" if detail else told)
