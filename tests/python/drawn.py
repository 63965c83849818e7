#!/usr/bin/env python3
"""Overlays of 2,000 drawn pairs of polygons by the command line: their areas against stored ones that were reckoned by fractions, within 1e-5 of what both
groups fill, and whether they are valid, by a plain search of all pairs of edges. Where Shapely is installed, its areas and its judgement too.

usage: drawn.py      the last line is 'N passed, M failed'
"""
import json
import pathlib
import random
import sys
import tempfile
from decimal import Decimal

from told import end, module_of, tell  # (first: it tells where the package stands)

import bapyeru
import exact
import pairs
from asking import asked


def written(group, decimals):
    """A group as GeoJSON, each number with all its decimals."""
    number = lambda value: format(Decimal(value).scaleb(-decimals), "f")
    ring = lambda points: "[" + ", ".join(f"[{number(x)}, {number(y)}]" for x, y in [*points, points[0]]) + "]"
    polygons = ", ".join("[" + ", ".join(map(ring, polygon)) + "]" for polygon in group)
    return f'{{"type": "MultiPolygon", "coordinates": [{polygons}]}}'


def whole(out):
    """The polygons of an answer over whole numbers, and how many of them a unit is."""
    found = json.loads(out, parse_float=Decimal, parse_int=Decimal)["coordinates"]
    places = max([0, *[-value.normalize().as_tuple().exponent for polygon in found for ring in polygon for point in ring for value in point]])
    return [[[tuple(int(value.scaleb(places)) for value in point) for point in ring[:-1]] for ring in polygon] for polygon in found], 10**places


def overlays(folder):
    """Each pair's overlay by the command line."""
    ways, shapely = [0.0], module_of("shapely", "areas and validity beside Shapely")
    asked_of_shapely = 0
    subject, clip = folder / "subject.json", folder / "clip.json"
    for number, (pair, (area, both)) in enumerate(pairs.stored()):
        for path, group in zip((subject, clip), pair.groups):
            path.write_text(written(group, pair.decimals))
        # (both kinds of grid)
        status, out, said = asked(pair.rule, subject, clip, *["--narrow"] * (number % 2))
        if status:
            tell(f"pair {number}: {said}", False)
            continue
        polygons, unit = whole(out)
        found = float(sum(exact.ring_area(ring) for polygon in polygons for ring in polygon)) / unit**2
        ways.append(abs(found - area) / both if both else found)
        tell(f"pair {number}, {pair.rule}: an area of {found}, and {area} is right", ways[-1] <= 1e-5)
        fault = exact.fault(polygons)
        tell(f"pair {number}, {pair.rule}: {fault}", fault == "")
        tell(f"pair {number}: {said}", said.count("\n") == 1 and "nothing given was rounded" in said)
        if shapely is not None:
            asked_of_shapely += beside(number, pair, out, found, both)
    print(f"measured: areas were off by up to {max(ways):.2g} of what both groups fill, and by {sum(ways) / len(ways):.2g} in the mean")
    if shapely is not None:
        tell(f"{asked_of_shapely} areas beside Shapely", asked_of_shapely >= 800)


def beside(number, pair, out, found, both):
    """What Shapely says of an answer: whether it is valid, and where what was given is, its own area."""
    from shapely.geometry import Polygon, shape
    from shapely.ops import unary_union

    tell(f"pair {number}: Shapely calls it invalid", shape(json.loads(out)).is_valid)
    groups = [[Polygon(polygon[0], polygon[1:]) for polygon in group] for group in pair.groups]
    if not all(polygon.is_valid for group in groups for polygon in group):
        return 0
    one, other = map(unary_union, groups)
    call = {"union": one.union, "intersect": one.intersection, "difference": one.difference, "xor": one.symmetric_difference}[pair.rule]
    area = call(other).area / 100**pair.decimals
    tell(f"pair {number}, {pair.rule}: an area of {found}, and Shapely's is {area}", abs(found - area) <= 1e-5 * both)
    return 1


def reckoned_again():
    """Some of the stored areas, reckoned anew."""
    for number, (pair, (area, both)) in random.Random().sample(list(enumerate(pairs.stored())), 100):
        tell(f"stored areas of pair {number}", tuple(map(float, pairs.reckoned(pair))) == (area, both))


def geometries():
    """The same through `overlay_geometries`, which takes objects, and answers one that exact.py and Shapely take."""
    for number, (pair, (area, both)) in list(enumerate(pairs.stored()))[:200]:
        one, other = (json.loads(written(group, pair.decimals)) for group in pair.groups)
        found = bapyeru.overlay_geometries(one, [other], pair.rule)
        polygons, unit = whole(json.dumps(found))
        off = abs(float(sum(exact.ring_area(ring) for polygon in polygons for ring in polygon)) / unit**2 - area)
        tell(f"pair {number} by objects", off <= 1e-5 * both and exact.fault(polygons) == "")


if __name__ == "__main__":
    with tempfile.TemporaryDirectory() as room:
        overlays(pathlib.Path(room))
    geometries()
    reckoned_again()
    sys.exit(end())
