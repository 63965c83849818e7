#!/usr/bin/env python3
"""Overlays of layers: pieces and properties of drawn layers against those of each pair by itself, reckoned by fractions; and, where GeoPandas is installed,
against geopandas.overlay.

usage: layered.py      the last line is 'N passed, M failed'
"""
import collections
import random
import sys
import warnings
from fractions import Fraction

from told import end, module_of, raised, tell  # (first: it tells where the package stands)

import bapyeru
import exact

HOWS = ("intersection", "union", "identity", "symmetric_difference", "difference")


def drawn_layer(dice, name, apart, count):
    """Features of a column of places: most lie apart from most others, and none overlaps another of its layer."""
    found = []
    while len(found) < count:
        at = len(found)
        x, y = 40 * (at % 5) + dice.randint(0, 8) + apart, 40 * (at // 5) + dice.randint(0, 8)
        near = lambda left, right, low, high: (x + dice.randint(left, right), y + dice.randint(low, high))
        ring = [(x, y), near(8, 28, 0, 8), near(8, 28, 9, 28), near(0, 7, 9, 28)]
        holed = [ring, [(x + 6, y + 7), (x + 9, y + 8), (x + 7, y + 10)]]
        rings = [ring] if exact.fault([holed]) or dice.random() < 0.3 else holed
        if not exact.fault([rings]):  # (GeoPandas takes valid polygons alone)
            found.append((rings, {name: at, "both": f"{name}{at}"}))
    return found


def features(layer):
    return {"type": "FeatureCollection", "features": [
        {"type": "Feature", "properties": properties, "geometry": {"type": "Polygon", "coordinates": [[*ring, ring[0]] for ring in rings]}}
        for rings, properties in layer
    ]}


def rows_of(answer):
    """The pieces by their properties: of each the area."""
    rows = {}
    for feature in answer["features"]:
        geometry = feature["geometry"]
        polygons = [geometry["coordinates"]] if geometry["type"] == "Polygon" else geometry["coordinates"]
        polygons = [[[tuple(map(lambda it: Fraction(str(it)), point)) for point in ring[:-1]] for ring in rings] for rings in polygons]
        key = tuple(sorted((name, str(value)) for name, value in feature["properties"].items() if value is not None))
        tell(f"a piece that is valid, {key}: {exact.fault(polygons)}", exact.fault(polygons) == "")
        rows[key] = rows.get(key, 0) + float(sum(exact.ring_area(ring) for rings in polygons for ring in rings))
    return rows


def wanted(left, right, how):
    """What pieces there are, by what each pair and each feature fills."""
    sides, rows = (left, right), {}
    pairs = {(i, j): float(exact.areas(([one[0]], [other[0]]))[0]) for i, one in enumerate(left) for j, other in enumerate(right)}

    def key(*told):
        names = {}
        for side, properties in told:
            names |= {name if how == "difference" or name != "both" else f"both_{side + 1}": str(value) for name, value in properties.items()}
        return tuple(sorted(names.items()))

    if how in ("intersection", "union", "identity"):
        rows |= {key((0, left[i][1]), (1, right[j][1])): area for (i, j), area in pairs.items() if area}
    for side in {"union": (0, 1), "symmetric_difference": (0, 1), "identity": (0,), "difference": (0,)}.get(how, ()):
        for at, (rings, properties) in enumerate(sides[side]):
            both, own, _ = exact.areas(([rings], [other for other, _ in sides[1 - side]]))
            if own != both:
                rows[key((side, properties))] = float(own - both)
    return rows


def are_near(one, other):
    return one.keys() == other.keys() and all(abs(area - other[key]) <= 1e-2 for key, area in one.items())


def frames(left, right, how):
    """What geopandas.overlay answers, by its rows."""
    import geopandas

    one, other = (geopandas.GeoDataFrame.from_features(features(layer)["features"]) for layer in (left, right))
    rows = collections.Counter()
    found = geopandas.overlay(one, other, how)
    for _, row in found.iterrows():
        told = {name: value for name, value in row.items() if name != "geometry" and value is not None and value == value}
        key = tuple(sorted((name, value if isinstance(value, str) else str(int(value))) for name, value in told.items()))
        rows[key] += row.geometry.area
    mine = geopandas.GeoDataFrame.from_features(bapyeru.overlay_layers(one, other, how)["features"])
    tell(f"names of {how} by GeoPandas", len(found) == 0 or set(mine.columns) == set(found.columns))
    return dict(rows)


def main():
    dice, asked = random.Random(7), 0
    warnings.simplefilter("ignore")  # (GeoPandas tells of the lines and points that it leaves out)
    geopandas = module_of("geopandas", "layers beside geopandas.overlay")
    is_there = geopandas is not None and raised(lambda: frames(drawn_layer(dice, "l", 0, 2), drawn_layer(dice, "r", 0, 2), "intersection"), (), {}) is None
    if geopandas is not None and not is_there:
        print("skipped: layers beside geopandas.overlay, since it has no index here (rtree or pygeos)")
    for number in range(6):
        left, right = drawn_layer(dice, "l", 0, 10), drawn_layer(dice, "r", dice.randint(0, 30), 15)
        for how in HOWS:
            rows = rows_of(bapyeru.overlay_layers(features(left), features(right), how))
            asked += len(rows)
            right_rows = wanted(left, right, how)
            tell(f"{how} of layers {number}", are_near(rows, right_rows))
            if is_there:  # (it may be GeoPandas that is off: its buffer(0) loses an island now and then)
                theirs = frames(left, right, how)
                alike = {key for key in theirs if abs(theirs[key] - right_rows.get(key, 0)) <= 1e-6}
                tell(f"rows of {how} of layers {number} by GeoPandas", rows.keys() == theirs.keys() and len(alike) >= 0.9 * len(theirs))
    tell(f"{asked} pieces", asked >= 300)
    far_apart()
    overlapping()
    refused()


def far_apart():
    """How fine a narrow grid is doesn't depend on how far a layer reaches."""
    at = lambda x: {"type": "Polygon", "coordinates": [[[x, 0], [x + 3, 1], [x + 1, 3], [x, 0]]]}
    left = [{"type": "Feature", "properties": {"n": x}, "geometry": at(x)} for x in (0, 10.0**7, 10.0**9)]
    right = [{"type": "Feature", "properties": {}, "geometry": at(x + 0.7)} for x in (0, 10.0**7, 10.0**9)]
    rows = rows_of(bapyeru.overlay_layers(left, right, narrow=True))
    one = rows_of(bapyeru.overlay_layers(left[:1], right[:1], narrow=True))
    wide = {"type": "Feature", "properties": {"n": -1}, "geometry": {"type": "Polygon", "coordinates": [[[0, -9], [1e9, -9], [0, -5], [0, -9]]]}}
    tell("a wide feature that meets none", rows_of(bapyeru.overlay_layers([wide, *left], right, narrow=True)) == rows)
    for how in ("intersection", "union"):
        told = str(raised(lambda: bapyeru.overlay_layers(left, right, how, factor=10**11), (), {}))
        tell(f"a factor that is too large: {told}", "too far for the factor 100000000000" in told)
    tell(f"pieces far apart: {rows}", len(rows) == 3 and set(rows.values()) == set(one.values()) and 0 < min(rows.values()))


def overlapping():
    """Polygons of one feature that overlap fill together; features that overlap are each by itself."""
    square = lambda x, side: [[[x, 0], [x + side, 0], [x + side, side], [x, side], [x, 0]]]
    feature = lambda n, *polygons: {"type": "Feature", "properties": {"n": n}, "geometry": {"type": "MultiPolygon", "coordinates": list(polygons)}}
    left, right = [feature(1, square(0, 10), square(5, 10)), feature(2, square(0, 10))], [feature(3, square(-5, 100)), feature(4, square(2, 1))]
    areas = lambda how: rows_of(bapyeru.overlay_layers(left, right, how))
    named = lambda a, b: (("n_1", str(a)), ("n_2", str(b)))
    tell("polygons that overlap", areas("intersection") == {named(1, 3): 150, named(1, 4): 1, named(2, 3): 100, named(2, 4): 1})
    tell("nothing left", areas("difference") == {} and bapyeru.overlay_layers([], right)["features"] == [])
    tell("other names", set(bapyeru.overlay_layers(left, right, suffixes=("", "_of_right"))["features"][0]["properties"]) == {"n", "n_of_right"})


def refused():
    class Layer:
        def __init__(self, crs):
            self.crs, self.__geo_interface__ = crs, {"type": "FeatureCollection", "features": []}

    told = lambda call: str(raised(call, (), {}))
    tell("unlike systems", "EPSG:3857" in told(lambda: bapyeru.overlay_layers(Layer("epsg:4326"), Layer("EPSG:3857"))))
    tell("systems that are alike", raised(lambda: bapyeru.overlay_layers(Layer("epsg:4326"), Layer("EPSG:4326")), (), {}) is None)
    tell("no such way", all(how in told(lambda: bapyeru.overlay_layers([], [], "clip")) for how in HOWS))
    for value in (5, None, "POLYGON"):
        tell(f"{value!r} as a layer", isinstance(raised(lambda: bapyeru.overlay_layers(value, []), (), {}), (TypeError, ValueError)))
    tell("a point", "Point" in told(lambda: bapyeru.overlay_geometries({"type": "Point", "coordinates": [1, 1]})))
    ring = lambda *points: {"type": "Polygon", "coordinates": [points]}
    tell("no number", "feature 1, ring 1, point 2" in told(lambda: bapyeru.overlay_geometries(ring((0, 0), (1, float("nan")), (0, 0)))))
    tell("too large for a factor", "feature 1" in told(lambda: bapyeru.overlay_geometries(ring((0, 0), (9, 0), (9, 9), (0, 0)), factor=10**11)))
    tell("too large for a narrow grid", "-524288" in told(lambda: bapyeru.overlay_geometries(ring((0, 0), (9, 0), (0, 9), (0, 0)), factor=10**6, narrow=True)))


if __name__ == "__main__":
    main()
    sys.exit(end())
