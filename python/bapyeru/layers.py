"""Overlays of polygons of any coordinates: of two geometries, and of two layers with their attributes.

Coordinates are made whole by a `Grid`. Each polygon fills by parity of its own rings, whichever way they run; what polygons of one geometry or layer fill
together is filled. All that is answered is valid as OGC has it: no ring touches itself or runs along another. Where rings touch, each has that point among
its own, so that no rounding to doubles parts them.
"""
from __future__ import annotations

from decimal import Decimal
from typing import Any, Callable, Dict, Iterable, List, Optional, Sequence, Tuple

from . import calls
from ._library import OutOfRange
from .geometries import Feature, Layer, Malformed, Part, Written, are_alike, feature_of, geometry, layer_of
from .grid import Grid, Number, greatest_factor, middle, plain

HOWS = ("intersection", "union", "identity", "symmetric_difference", "difference")
OTHER_HOWS = {"intersect": "intersection", "xor": "symmetric_difference"}
Contours = List[List[Tuple[int, int]]]


# ---- whole coordinates


def whole(part: Part, step: Callable[[Sequence[Number]], Tuple[int, int]]) -> Contours:
    """The rings of a part, each point made whole by a method of a grid."""
    contours: Contours = []
    for n, ring in enumerate(part.rings, 1):
        contours.append([])
        for k, point in enumerate(ring, 1):
            try:
                contours[-1].append(step(point))
            except OutOfRange as fault:
                place = f", ring {n}" if part.is_polygon else ""
                raise Malformed(f"{part.where}{place}, point {k}: {fault}") from fault
    return contours


def overlays_of(groups: Iterable[Contours], fill: str, **options: Any) -> List[List[Contours]]:
    """The shapes that each group of contours fills, by one call. Each is moved to the middle of the range, and its answer back."""
    groups = list(groups)
    moved: List[Tuple[int, int]] = []
    for group in groups:
        ends = [(min(values), max(values)) for values in zip(*(point for contour in group for point in contour))]
        moved.append((middle(*ends[0]), middle(*ends[1])) if ends else (0, 0))
    shift = lambda contours, x, y: [[(px + x, py + y) for px, py in contour] for contour in contours]
    answers = calls.overlays([], [shift(group, -x, -y) for group, (x, y) in zip(groups, moved)], "clip", fill, **options)
    return [[shift(shape, x, y) for shape in shapes] for shapes, (x, y) in zip(answers, moved)]


def filled(polygons: Iterable[Contours]) -> List[Contours]:
    """What each polygon fills by parity, as contours that wind once round it: outlines counterclockwise and holes the other way."""
    answers = overlays_of(polygons, "evenodd", keep_points=True, keep_given_points=True)
    return [[contour for shape in shapes for contour in shape] for shapes in answers]


def together(layer: Layer, grid: Grid) -> Contours:
    """What the polygons of a layer fill, as contours that are positive there and nowhere else."""
    return [contour for contours in filled([whole(part, grid.whole) for part in layer.parts()]) for contour in contours]


def valid(pieces: Iterable[Contours]) -> List[List[Contours]]:
    """The shapes of each piece, which touch themselves in nothing that OGC calls invalid."""
    return overlays_of(pieces, "nonzero", part_contours=True, keep_points=True)


def back(shape: Contours, grid: Grid) -> List[List[Tuple[Decimal, Decimal]]]:
    """A shape as a polygon: off the grid, each ring closed."""
    return [[grid.place(point) for point in [*ring, ring[0]]] for ring in shape]


# ---- two geometries


def overlay_geometries(subject: Any, clip: Any = (), rule: str = "union", *, factor: Optional[Number] = None, narrow: bool = False) -> Dict[str, Any]:
    """The overlay of two geometries: a MultiPolygon as a `__geo_interface__` has it, which `shapely.geometry.shape` takes.

    Arguments:
        subject, clip: objects with a `__geo_interface__`, as of Shapely and GeoPandas, or as GeoJSON has them, or lists of such.
        rule: as of `overlay`.
        factor, narrow: how many steps of the grid a unit has, and how far they reach; see `Grid`. A fixed factor lets the answers of several calls lie on
            one grid.
    """
    layers = [layer_of(subject, "subject"), layer_of(clip, "clip")]
    common_crs(layers)
    grid = Grid((point for layer in layers for point in layer.points()), factor, narrow=narrow)
    subjects, clips = (together(layer, grid) for layer in layers)
    shapes = calls.overlay(subjects, clips, rule, "positive", part_contours=True, keep_points=True)
    return geometry("MultiPolygon", [back(shape, grid) for shape in shapes])


def common_crs(layers: Sequence[Layer]) -> Optional[str]:
    """The reference system of layers. Two unlike ones are refused."""
    named = [it for it in layers if it.crs]
    for it in named[1:]:
        if not are_alike(it.crs or "", named[0].crs or ""):
            raise Malformed(f"{it.name}: its reference system is {it.crs}, and that of {named[0].name} is {named[0].crs}")
    return named[0].crs if named else None


# ---- two layers


class _Row:
    """A feature of a layer, and the box that holds it."""

    def __init__(self, feature: Feature) -> None:
        self.feature, self.properties = feature, feature.properties
        ends = [(min(values), max(values)) for values in zip(*(point for part in feature.parts for ring in part.rings for point in ring))]
        self.box = (ends[0][0], ends[1][0], ends[0][1], ends[1][1]) if ends else None
        self.contours: Contours = []


# The rows of a piece, each with its side: a pair, or one; and the rows that are taken away from it.
Piece = Tuple[List[Tuple[int, _Row]], List[_Row]]


def _ends(rows: Iterable[_Row]) -> List[Tuple[Decimal, Decimal]]:
    """The least and the greatest x of rows, and those y."""
    boxes = [row.box for row in rows if row.box]
    return [(min(it[k] for it in boxes), max(it[k + 2] for it in boxes)) for k in (0, 1)] if boxes else []


def _fill(rows: List[_Row], grid: Grid) -> None:
    """Finds what each row fills, in steps of the grid, as contours that wind once round it."""
    contours = iter(filled([whole(part, grid.steps) for row in rows for part in row.feature.parts]))
    for row in rows:
        row.contours = [contour for _ in row.feature.parts for contour in next(contours)]
    several = [row for row in rows if len(row.feature.parts) > 1]  # (their polygons may overlap)
    for row, shapes in zip(several, overlays_of([row.contours for row in several], "positive", keep_points=True, keep_given_points=True)):
        row.contours = [contour for shape in shapes for contour in shape]


def _meeting(left: List[_Row], right: List[_Row]) -> List[List[int]]:
    """For each row of the left those of the right whose boxes share more than a border, by a sweep over x."""
    found: List[List[int]] = [[] for _ in left]
    rows = sorted((row.box, side, at) for side, of in enumerate((left, right)) for at, row in enumerate(of) if row.box)
    live: Tuple[List, List] = ([], [])
    for box, side, at in rows:
        other = live[1 - side]
        other[:] = [it for it in other if it[0][2] > box[0]]
        for that, number in other:
            if that[1] < box[3] and box[1] < that[3]:
                found[number if side else at].append(at if side else number)
        live[side].append((box, at))
    return [sorted(it) for it in found]


def _named(sides: Sequence[List[_Row]], suffixes: Tuple[str, str]) -> List[Dict[str, str]]:
    """What the properties of both layers are called in an answer."""
    known = [dict.fromkeys(name for row in rows for name in row.properties) for rows in sides]
    return [{name: f"{name}{suffix}" if name in known[0] and name in known[1] else name for name in names} for names, suffix in zip(known, suffixes)]


def _wound(piece: Piece) -> Contours:
    """Contours that wind twice round what a piece keeps: once by each of a pair, or twice by a row and by none that is taken away, since those run back."""
    kept, taken = piece
    contours = [contour for _, row in kept for contour in row.contours]
    return contours * (2 // len(kept)) + [contour[::-1] for row in taken for contour in row.contours]


def overlaid(layers: Sequence[Layer], how: str, factor: Optional[Number] = None, narrow: bool = False,
             suffixes: Tuple[str, str] = ("_1", "_2")) -> Tuple[List[Written], Grid]:
    """The rows of `overlay_layers`, and the grid that they lie on."""
    how = OTHER_HOWS.get(how, how)
    if how not in HOWS:
        raise ValueError(f"{how!r} is none of {', '.join([*HOWS, *OTHER_HOWS])}")
    left, right = [_Row(it) for it in layers[0].features], [_Row(it) for it in layers[1].features]
    met: Tuple[List[List[int]], List[List[int]]] = (_meeting(left, right), [[] for _ in right])
    for at, those in enumerate(met[0]):
        for that in those:
            met[1][that].append(at)
    # What is reckoned together, and so has to be in range at once: a pair of rows, or a row and those that are taken away from it.
    pieces: List[Piece] = []
    if how in ("intersection", "union", "identity"):
        pieces += [([(0, left[at]), (1, right[that])], []) for at, those in enumerate(met[0]) for that in those]
    sides = {"intersection": 0, "union": 2, "symmetric_difference": 2}.get(how, 1)
    for side, rows, others in ((0, left, right), (1, right, left))[:sides]:
        pieces += [([(side, row)], [others[at] for at in those]) for row, those in zip(rows, met[side])]
    if factor is None:
        factor = greatest_factor((it for kept, taken in pieces for it in _ends([*(row for _, row in kept), *taken])), narrow)
    grid = Grid([], factor, narrow=narrow)
    # (of rows that meet none it need not be known what they fill)
    asked = {id(row): row for kept, taken in pieces for row in [*(row for _, row in kept), *taken]}
    try:
        _fill(list(asked.values()), grid)
        answers = overlays_of(map(_wound, pieces), "atleast", depth=2, part_contours=True, keep_points=True)
    except OutOfRange as fault:
        raise Malformed(f"features that meet reach too far for the factor {plain(grid.factor)}") from fault
    names = _named([left, []] if how == "difference" else [left, right], suffixes)
    every = {new: None for own in names for new in own.values()}
    told = [{**every, **{names[side][name]: value for side, row in kept for name, value in row.properties.items()}} for kept, _ in pieces]
    return [_written([back(shape, grid) for shape in shapes], properties) for shapes, properties in zip(answers, told) if shapes], grid


def _written(polygons: List[Any], properties: Dict[str, Any]) -> Written:
    return Written("Polygon", polygons[0], properties) if len(polygons) == 1 else Written("MultiPolygon", polygons, properties)


def overlay_layers(left: Any, right: Any, how: str = "intersection", *, factor: Optional[Number] = None, narrow: bool = False,
                   suffixes: Tuple[str, str] = ("_1", "_2")) -> Dict[str, Any]:
    """The overlay of two layers, feature by feature, with the properties of those that each piece comes from: what `geopandas.overlay` answers, as a
    FeatureCollection, of which `geopandas.GeoDataFrame.from_features` makes a frame.

    Arguments:
        left, right: objects with a `__geo_interface__`, as a GeoDataFrame, or a FeatureCollection as GeoJSON has it, or a list of features. Each feature fills
            what its polygons fill together. Features of one layer should not overlap: in "union", "identity" and the differences each is by itself.
        how: which pieces are answered. "intersection": of each pair of features what both fill. "difference": of each feature of the left what
            none of the right fills. "symmetric_difference": that, and the same of the right. "identity": "intersection" and "difference".
            "union": all of these.
        factor: how many steps of the grid a unit has. Where none is given, it is the greatest by which features that meet are in range together: so it
            depends on how far a layer reaches only where finer steps were none that doubles can tell apart.
        narrow: as of `Grid`.
        suffixes: what stands behind a property's name that both layers have, for the left and the right. With "difference" there are those of the left alone.

    A property that a piece has nothing of is None. Which features may meet is told by their boxes first; all pieces are reckoned by one call.
    """
    layers = [layer_of(left, "left"), layer_of(right, "right")]
    common_crs(layers)
    return {"type": "FeatureCollection", "features": list(map(feature_of, overlaid(layers, how, factor, narrow, suffixes)[0]))}
