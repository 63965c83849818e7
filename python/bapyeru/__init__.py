"""Overlays of polygons over whole coordinates, by the library libpolygon_c.so and ctypes alone.

A contour is a list of points (x, y) whose last leads back to the first; a group of contours is a list of them. Coordinates are whole
numbers from -68719476736 to 68719476735 (LEAST, GREATEST). Where all that a call is given are from -524288 to 524287 (NARROW_LEAST, NARROW_GREATEST), the
engine reckons with less, faster, to the same answer. A shape that is answered is a list of contours, the outline first and then its holes.

    >>> import bapyeru
    >>> parcel = [[(0, 0), (10, 0), (10, 10), (0, 10)]]
    >>> pond = [[(3, 3), (7, 3), (7, 7), (3, 7)]]
    >>> bapyeru.overlay(parcel, pond, "difference")
    [[[(0, 10), (0, 0), (10, 0), (10, 10)], [(3, 3), (3, 7), (7, 7), (7, 3)]]]

In the place of a group of contours a `Flat` may stand: arrays of coordinates and of lengths, as of numpy or of the module array, of any kind of whole
numbers. They are copied before the library is called. With `flat=True` answers are arrays too, of coordinates of 32 bits where the call is given narrow ones
alone, and else of 64.

Polygons of any coordinates, as of Shapely or GeoPandas, go to `overlay_geometries` and `overlay_layers`, which make them whole by a `Grid`.

What is no number, no flag or no list where one is wanted is a TypeError. No number is rounded or wrapped to fit. What else isn't answered is a `Refused`.

The library is looked for under the name in BAPYERU_LIBRARY, or beside this module, or where the repository builds it.
"""
from ._arrays import GREATEST, LEAST, NARROW_GREATEST, NARROW_LEAST, Flat, FlatOverlays, FlatShapes
from ._library import JOIN, KINDS, LENGTHS, OK, RANGE, RANGE64, ROOM, SLANT, MemoryRefused, OutOfRange, Refused, TooMany, Unfit, Unknown, keep_memory
from .calls import (
    FILLS, JOINS, PLACES, PRECISIONS, RULES, STRATEGIES, Link, Relations, clip_lines, contains_points, doubled_area, hierarchy, library_version, locate,
    overlay, overlay_edges, overlays, relate, sized, slice_shape, space_errors, text, width_errors,
)
from .grid import Grid
from .layers import overlay_geometries, overlay_layers

__version__ = "1.0.0"
# What is public is called by this package's name, in errors and pickles too.
for _public in (Flat, FlatOverlays, FlatShapes, Grid, Link, MemoryRefused, OutOfRange, Refused, Relations, TooMany, Unfit, Unknown):
    _public.__module__ = __name__
del _public
__all__ = [
    "FILLS", "GREATEST", "JOIN", "JOINS", "KINDS", "LEAST", "LENGTHS", "NARROW_GREATEST", "NARROW_LEAST", "OK", "PLACES", "PRECISIONS", "RANGE", "RANGE64",
    "ROOM", "RULES", "SLANT", "STRATEGIES", "Flat", "FlatOverlays", "FlatShapes", "Grid", "Link", "MemoryRefused", "OutOfRange", "Refused", "Relations",
    "TooMany", "Unfit", "Unknown", "clip_lines", "contains_points", "doubled_area", "hierarchy", "keep_memory", "library_version", "locate", "overlay",
    "overlay_edges", "overlay_geometries", "overlay_layers", "overlays", "relate", "sized", "slice_shape", "space_errors", "text",
    "width_errors",
]
