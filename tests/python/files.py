#!/usr/bin/env python3
"""What the command line reads, writes, drops and refuses.

usage: files.py      the last line is 'N passed, M failed'
"""
import ctypes.util
import json
import os
import pathlib
import re
import struct
import sys
import tempfile
from fractions import Fraction

from told import ROOT, end, module_of, tell  # (first: it tells where the package stands)

import bapyeru
import exact
from asking import asked, process
from bapyeru import geometries

PARCEL = "POLYGON ((0 0, 1 0, 1 1, 0 1, 0 0))"
POND = [[0.3, 0.3], [0.7, 0.3], [0.7, 0.7], [0.3, 0.7], [0.3, 0.3]]
HOLED = b"MULTIPOLYGON (((0 1, 0 0, 1 0, 1 1, 0 1), (0.3 0.3, 0.3 0.7, 0.7 0.7, 0.7 0.3, 0.3 0.3)))\n"
HIERARCHY = ("POLYGON ((0 0, 9 0, 9 9, 0 9, 0 0))", "MULTIPOLYGON (((20 0, 29 0, 29 9, 20 9, 20 0)), ((40 0, 49 0, 49 9, 40 0)))")


def feature(geometry, **properties):
    return {"type": "Feature", "properties": properties, "geometry": geometry}


def collection(*features, **more):
    return {"type": "FeatureCollection", **more, "features": list(features)}


def polygon(*rings):
    return {"type": "Polygon", "coordinates": [[*map(list, ring), list(ring[0])] for ring in rings]}


def square(x, y, side):
    return [(x, y), (x + side, y), (x + side, y + side), (x, y + side)]


def crs(name):
    return {"type": "name", "properties": {"name": name}}


def polygons_of(out):
    """The polygons of an answer in JSON, as exact.py takes them."""
    value = json.loads(out, parse_float=Fraction, parse_int=Fraction)
    found = []
    for one in [it["geometry"] for it in value["features"]] if "features" in value else [value]:
        found += [one["coordinates"]] if one["type"] == "Polygon" else one["coordinates"]
    return [[[tuple(point) for point in ring[:-1]] for ring in rings] for rings in found]


def area_of(out):
    return float(sum(exact.ring_area(ring) for rings in polygons_of(out) for ring in rings))


class Folder:
    """Files in a folder."""

    def __init__(self, folder):
        self.folder = pathlib.Path(folder)

    def put(self, name, content):
        path = self.folder / name
        path.write_bytes(content if isinstance(content, bytes) else (content if isinstance(content, str) else json.dumps(content)).encode())
        return path


def files(folder):
    parcel, pond = folder.put("parcel.wkt", PARCEL), folder.put("pond.json", feature({"type": "Polygon", "coordinates": [POND]}))
    status, out, said = asked("difference", parcel, pond, "--to", "wkt")
    tell(f"a parcel without a pond: {out} {said}", (status, out) == (0, HOLED))
    tell(f"its grid: {said}", "factor 100000000000, step 0.00000000001, origin 0.5 0.5" in said and "nothing given was rounded; crossings are" in said)
    status, out, said = asked("difference", parcel, pond, "--to", "wkt", "--narrow")
    tell(f"the same by a narrow grid: {out} {said}", (status, out) == (0, HOLED) and "factor 1000000, step 0.000001, origin 0.5 0.5" in said)
    status, out, said = process("difference", parcel, pond, "--to", "wkt")
    tell(f"the same by a process: {out} {said}", (status, out) == (0, HOLED))
    status, out, _ = asked("union", parcel, "--to", "geojson")
    tell("there", status == 0 and json.loads(out)["type"] == "MultiPolygon")
    status, out, _ = asked("union", folder.put("back.json", out), "--to", "wkt")
    tell(f"and back: {out}", (status, out) == (0, b"MULTIPOLYGON (((0 1, 0 0, 1 0, 1 1, 0 1)))\n"))
    status, out, _ = asked("relate", pond, parcel)
    tell("relations", status == 0 and b"within true" in out and b"covers false" in out)
    for rule, other in (("intersect", "intersection"), ("xor", "symmetric_difference"), ("inverse", "inverse_difference")):
        tell(f"{other} as {rule}", asked(rule, pond, parcel) == asked(other, pond, parcel))
    grids(folder, parcel)
    fills(folder)
    valid(folder)
    lines(folder, parcel)
    forms(folder)
    systems(folder, parcel)
    dropped(folder, parcel)
    each(folder)
    malformed(folder)
    wrong(folder, parcel, pond)
    by_gdal(folder, parcel)
    for path in sorted(ROOT.glob("examples/*.txt")):
        there_and_back(folder, path)


# ---- the grid


def grids(folder, parcel):
    """The greatest factor that fits is taken, its step is told, and so is what it rounds."""
    one, other = folder.put("one.wkt", "POLYGON ((0 0, 3 1, 1 3, 0 0))"), folder.put("other.wkt", "POLYGON ((0 2, 3 2, 3 3, 0 2))")
    status, out, said = asked("difference", one, other, "--to", "geojson", "--narrow")
    tell(f"crossings off the given digits: {area_of(out)}, {said}", status == 0 and abs(area_of(out) - 43 / 12) < 1e-5 and "step 0.000005" in said)
    status, again, said = asked("union", folder.put("again.json", out), "--narrow")
    tell(f"an answer that is read again: {said}", (status, again) == (0, out) and "nothing given was rounded" in said)
    status, _, said = asked("union", parcel, "--factor", "3", "--to", "wkt")
    tell(f"a factor that is told: {said}", status == 0 and "factor 3, step 0.33333" in said)
    thirds = folder.put("thirds.wkt", "POLYGON ((0 0, 0.33333333 0, 0 0.33333333, 0 0))")
    status, _, said = asked("union", thirds, "--factor", "10", "--to", "wkt")
    tell(f"what was rounded: {said}", status == 0 and "2 of 6 coordinates were rounded, by up to 0.0333" in said)
    status, _, said = asked("union", folder.put("tiny.wkt", "POLYGON ((0 0, 1e-300 0, 1 1, 0 0))"))
    tell(f"what was rounded to nothing: {said}", status == 0 and "1 of 6 coordinates were rounded, by up to 1e-300" in said)
    moved = folder.put("moved.wkt", "POLYGON ((1000000 1000000, 1000001 1000000, 1000001 1000001, 1000000 1000000))")
    status, out, said = asked("union", moved, "--factor", "3", "--narrow")
    tell(f"an origin of thirds: {said}", status == 0 and "nothing given was rounded" in said)
    tell("and back from there", set(re.findall(rb"[\d.]+ [\d.]+", out)) == {b"1000000 1000000", b"1000001 1000000", b"1000001 1000001"})
    for factor, ends, words in ((10**7, "-524288 to 524287", ["--narrow"]), (10**12, "-68719476736 to 68719476735", [])):
        status, out, said = asked("union", thirds, "--factor", factor, "--to", "wkt", *words)
        tell(f"a factor that is too large: {said}", (status, out) == (1, b"") and "thirds.wkt, feature 1" in said and f"not from {ends}" in said)
    for factor in ("0", "-1", "nan", "1e999999999", "x"):
        status, out, said = asked("union", thirds, "--factor", factor)
        tell(f"{factor} as a factor: {said}", (status, out) == (2, b"") and said.count("\n") == 1)
    narrow = ((1048575, 0, "1"), (524287, 0, "2"), (1048576, 0, "0.5"), (0.001, 51.5, "1000000000"), (1e200, -1e200, ""))
    wide = ((2**37 - 1, 0, "1"), (2**36 - 1, 0, "2"), (2**37, 0, "0.5"), (0.001, 51.5, "50000000000000"), (65536, 10**20, "10"), (1e200, -1e200, ""))
    for span, least, factor, words in ([*it, words] for rows, words in ((narrow, ["--narrow"]), (wide, [])) for it in rows):
        spanning = folder.put("spanning.wkt", f"POLYGON (({least} 0, {least + span} 0, {least} {span}, {least} 0))")
        status, out, said = asked("union", spanning, *words)
        tell(f"the factor of {span}: {said}", status == 0 and (f"factor {factor}, " in said or not factor))
    for at in range(-3, 4):  # (each grid is as fine as the range lets it be: 2.5 times finer would not fit)
        for narrow, steps in ((True, 2**20 - 1), (False, 2**37 - 1)):
            grid = bapyeru.Grid([(0, 0), (3 * 10.0**at, 1)], narrow=narrow)
            tell(f"the grid of {at}, narrow: {narrow}", steps / 2.5 < float(grid.factor) * max(3 * 10.0**at, 1) <= steps)


# ---- what fills


def fills(folder):
    """Each polygon fills by parity of its rings, whichever way they run; polygons of a file together."""
    bow = folder.put("bow.wkt", "POLYGON ((0 0, 0 12, 30 0, 30 30, 0 0))")
    status, out, _ = asked("union", bow, "--to", "geojson")
    tell(f"a bow tie: {area_of(out)}", status == 0 and abs(area_of(out) - (360 / 7 + 2250 / 7)) < 1e-3)
    leaving = polygon(square(0, 0, 10), square(8, 2, 4)[::-1])
    beside = polygon(square(10, 0, 10))
    status, out, _ = asked("union", folder.put("leaving.json", collection(feature(leaving), feature(beside))))
    tell(f"a hole that leaves its polygon: {area_of(out)}", status == 0 and area_of(out) == 200 - 8)
    for name, rings in (("both counterclockwise", (square(0, 0, 10), square(2, 2, 4))), ("both clockwise", (square(0, 0, 10)[::-1], square(2, 2, 4)[::-1])),
                        ("the other way", (square(0, 0, 10)[::-1], square(2, 2, 4)))):
        status, out, _ = asked("union", folder.put("turned.json", polygon(*rings)))
        tell(f"a hole, rings {name}", status == 0 and area_of(out) == 84)
    twice = collection(feature(polygon(square(0, 0, 10))), feature(polygon(square(0, 0, 10)[::-1])), feature(polygon(square(5, 5, 10), square(6, 6, 2))))
    status, out, _ = asked("union", folder.put("twice.json", twice))
    tell("polygons that overlap", status == 0 and area_of(out) == 175)


def valid(folder):
    """What is answered is valid, where contours touch themselves too."""
    big = folder.put("big.json", polygon(square(0, 0, 10)))
    for name, cut, area in (
        ("a cut to the side", "POLYGON ((0 5, 5 3, 5 7, 0 5))", 90),
        ("a cut from side to side", "POLYGON ((0 5, 5 3, 10 5, 5 7, 0 5))", 80),
        ("a square on its tip", "POLYGON ((5 0, 10 5, 5 10, 0 5, 5 0))", 50),
        ("holes that touch", "MULTIPOLYGON (((1 5, 3 3, 5 5, 3 7, 1 5)), ((5 5, 7 3, 9 5, 7 7, 5 5)))", 84),
        ("holes in a ring", "MULTIPOLYGON (((5 1, 7 3, 5 5, 3 3, 5 1)), ((7 3, 9 5, 7 7, 5 5, 7 3)), "
                            "((5 5, 7 7, 5 9, 3 7, 5 5)), ((3 3, 5 5, 3 7, 1 5, 3 3)))", 68),
    ):
        status, out, said = asked("difference", big, folder.put("cut.wkt", cut))
        found = exact.fault(polygons_of(out)) if status == 0 else said
        tell(f"{name}: {found or area_of(out)}", status == 0 and found == "" and abs(area_of(out) - area) < 1e-9)
        status, out, said = asked("slice", folder.put("sliced.json", out), folder.put("line.wkt", "LINESTRING (-1 5, 11 5)"))
        found = [exact.fault([it]) for it in polygons_of(out)] if status == 0 else said
        tell(f"{name}, sliced: {found}", status == 0 and not any(found) and abs(area_of(out) - area) < 1e-9)


def lines(folder, parcel):
    roads = folder.put("roads.wkt", "LINESTRING (-0.5 0.5, 1.5 0.5)\nMULTILINESTRING ((0.5 -1, 0.5 2), (5 5, 6 6))\n")
    status, out, _ = asked("clip", parcel, roads)
    tell("roads", status == 0 and out.startswith(b"MULTILINESTRING") and has_roads(out.decode()))
    status, out, _ = asked("clip", parcel, roads, "--outside", "--to", "geojson")
    tell("roads outside", status == 0 and len(json.loads(out)["coordinates"]) == 5)
    status, out, _ = asked("slice", parcel, roads, "--to", "geojson")
    tell("quarters", status == 0 and [it["geometry"]["type"] for it in json.loads(out)["features"]] == ["Polygon"] * 4)
    status, out, _ = asked("slice", parcel, roads)
    tell("quarters as text", status == 0 and [line[:9] for line in out.splitlines()] == [b"POLYGON ("] * 4)
    status, out, said = asked("slice", parcel, parcel)
    tell("no line", (status, out) == (1, b"") and "parcel.wkt, feature 1" in said and "LINESTRING" in said)


def has_roads(wkt):
    """Whether the lines have the four steps from the middle of the parcel's sides to its own middle, each in its direction."""
    lines = [[tuple(map(float, point.split())) for point in line.split(",")] for line in re.findall(r"\(([^()]+)\)", wkt)]
    steps = sorted((a, b) for line in lines for a, b in zip(line, line[1:]))
    return steps == [((0, 0.5), (0.5, 0.5)), ((0.5, 0), (0.5, 0.5)), ((0.5, 0.5), (0.5, 1)), ((0.5, 0.5), (1, 0.5))]


# ---- forms


def wkb(rings, sign="<", code=3, width=2, srid=None):
    """A polygon in bytes, with any heights."""
    head = struct.pack(f"{sign}BI", sign == "<", code) + (struct.pack(f"{sign}I", srid) if srid else b"")
    rows = [struct.pack(f"{sign}I", len(ring) + 1) + b"".join(struct.pack(f"{sign}{width}d", *point, *[7] * (width - 2)) for point in [*ring, ring[0]])
            for ring in rings]
    return head + struct.pack(f"{sign}I", len(rows)) + b"".join(rows)


def forms(folder):
    """One parcel in all forms that are read, and what comes of it."""
    wanted = b"MULTIPOLYGON (((0 1, 0 0, 1 0, 1 1, 0 1)))\n"
    ring, plain = square(0, 0, 1), json.dumps(polygon(square(0, 0, 1)))
    high = PARCEL.replace(",", " 5,").replace("0))", "0 5))")
    other = json.dumps(feature(polygon(square(0, 0, 1)), name="parcel"))
    for name, content in {
        "a byte order mark": "\ufeff" + plain, "UTF-16": plain.encode("utf-16"), "WKT with a byte order mark": "\ufeff" + PARCEL,
        "small letters": PARCEL.lower(),
        "a feature": other, "features": json.dumps(collection(feature(polygon(ring)), feature(None))), "Windows lines": PARCEL.replace(", ", ",\r\n") + "\r\n",
        "GeoJSON features by lines": f"{other}\n{other}\n", "GeoJSON features by separators": f"\x1e{other}\n\x1e{other}\n", "one such feature": f"\x1e{other}",
        "heights": high.replace("POLYGON", "POLYGON Z"), "heights, joined": high.replace("POLYGON ", "POLYGONZ"), "heights unsaid": high,
        "measures": high.replace("POLYGON", "POLYGON M"), "heights and measures": high.replace(" 5", " 5 6").replace("POLYGON", "POLYGON ZM"),
        "heights of GeoJSON": plain.replace("]", ", 4]", 3), "a collection in Z": f"GEOMETRYCOLLECTION Z ({high})",
        "a collection": f"GEOMETRYCOLLECTION ({PARCEL}, MULTIPOLYGON EMPTY, GEOMETRYCOLLECTION (POLYGON EMPTY, {PARCEL}))",
        "a part that is empty": "MULTIPOLYGON (EMPTY, ((0 0, 1 0, 1 1, 0 1, 0 0)))", "two, with a semicolon": f"{PARCEL};\n{PARCEL};",
        "a collection of GeoJSON": json.dumps({"type": "GeometryCollection", "geometries": [polygon(ring), {"type": "MultiPolygon", "coordinates": []}]}),
        "WKB": wkb([ring]), "WKB, high bytes first": wkb([ring], ">"), "WKB twice": wkb([ring]) * 2, "WKB by ISO": wkb([ring], code=1003, width=3),
        "WKB by PostGIS": wkb([ring], code=0x80000003, width=3), "both by PostGIS": wkb([ring], code=0xC0000003, width=4),
        "both by ISO": wkb([ring], code=3003, width=4),
        "hexadecimal": wkb([ring]).hex(), "hexadecimal by lines": (wkb([ring]).hex() + "\n") * 2, "many in WKB": struct.pack("<BII", 1, 6, 2) + wkb([ring]) * 2,
        "a collection in WKB": struct.pack(">BII", 0, 7, 1) + wkb([ring]),
    }.items():
        status, out, said = asked("union", folder.put("form", content), "--to", "wkt")
        tell(f"{name}: {out} {said}", (status, out) == (0, wanted))
        tell(f"{name}, from standard input", asked("union", "-", "--to", "wkt", given=(folder.folder / "form").read_bytes())[:2] == (0, wanted))
    for form in geometries.FORMS:
        status, out, said = asked("union", folder.put("parcel.wkt", PARCEL), "--to", form)
        ways = asked("union", folder.put("made", out), "--to", "wkt")[:2], asked("union", folder.put("made", out))[:2]
        # (one feature of a sequence is a feature)
        tell(f"{form} there and back: {said}", status == 0 and ways[0] == (0, wanted) and (form == "geojsonseq" or ways[1] == (0, out)))
        name = folder.folder / f"made.{'json' if form == 'geojson' else form}"
        status, nothing, said = asked("union", folder.put("parcel.wkt", PARCEL), "--out", name)
        tell(f"{form} to a file: {said}", (status, nothing) == (0, b"") and name.read_bytes() == out)
        tell(f"{form} to a file that is there", asked("union", folder.put("parcel.wkt", PARCEL), "--out", name)[0] == 2 and name.read_bytes() == out)
    status, out, _ = asked("intersect", folder.put("parcel.wkt", PARCEL), folder.put("apart.wkt", "POLYGON ((5 5, 6 5, 6 6, 5 5))"))
    tell("nothing", (status, out) == (0, b"MULTIPOLYGON EMPTY\n") and asked("union", folder.put("none.wkt", out))[:2] == (0, out))


def systems(folder, parcel):
    """A reference system is copied, and two unlike ones are refused."""
    metres, other = polygon(square(0, 0, 1)) | {"crs": crs("urn:ogc:def:crs:EPSG::3857")}, f"SRID=3857;{PARCEL}"
    metres, text = folder.put("metres.json", metres), folder.put("metres.wkt", other)
    degrees, unnamed = folder.put("degrees.wkt", f"SRID=4326;{PARCEL}"), parcel
    bytes_of = folder.put("metres.wkb", wkb([square(0, 0, 1)], code=0x20000003, srid=3857))
    for name, path in (("GeoJSON", metres), ("WKT", text), ("WKB", bytes_of)):
        for form in ("geojson", "wkt", "wkb", "hex"):
            status, out, said = asked("union", path, "--to", form)
            told = {"geojson": b'"urn:ogc:def:crs:EPSG::3857"', "wkt": b"SRID=3857;MULTIPOLYGON", "wkb": struct.pack("<I", 3857),
                    "hex": struct.pack("<I", 3857).hex().upper().encode()}
            tell(f"a system from {name} to {form}: {out} {said}", status == 0 and told[form] in out)
            tell(f"and from there {name} to {form}", asked("union", folder.put("copied", out), "--to", "wkt")[1].startswith(b"SRID=3857;"))
        tell(f"{name} and {text.name}", asked("xor", path, text)[0] == 0)
        status, out, said = asked("union", path, degrees)
        tell(f"{name} beside degrees: {said}", (status, out) == (1, b"") and "EPSG:3857" in said and "EPSG:4326" in said and said.count("\n") == 1)
        status, out, said = asked("union", path, unnamed, "--to", "wkt")
        tell(f"{name} beside none: {said}", status == 0 and out.startswith(b"SRID=3857;") and "parcel.wkt: it names no reference system" in said)
    lon = folder.put("lon.json", polygon(square(0, 0, 1)) | {"crs": crs("urn:ogc:def:crs:OGC:1.3:CRS84")})
    status, out, said = asked("union", lon, degrees)
    tell(f"two names of one system: {said}", status == 0 and b"CRS84" in out)
    tell("its number", asked("union", lon, "--to", "wkt")[1].startswith(b"SRID=4326;"))
    local = folder.put("local.json", polygon(square(0, 0, 1)) | {"crs": crs("of this town")})
    tell("a system of no number in GeoJSON", b'"of this town"' in asked("union", local)[1])
    status, out, said = asked("union", local, "--to", "wkt")
    tell(f"a system of no number in WKT: {said}", status == 0 and "of this town was dropped" in said)
    status, out, said = asked("union", folder.put("odd.json", polygon(square(0, 0, 1)) | {"crs": {"type": "link"}}))
    tell(f"a system by a link: {said}", (status, out) == (1, b"") and "odd.json" in said)
    two = folder.put("two.wkt", f"SRID=3857;{PARCEL}\nSRID=4326;{PARCEL}")
    tell("two systems in one file", asked("union", two)[0] == 1 and asked("union", folder.put("zero.wkt", f"SRID=0;{PARCEL}"))[1].startswith(b"MULTI"))


def dropped(folder, parcel):
    """What isn't in the answer is told."""
    high = collection(feature({"type": "Polygon", "coordinates": [[[0, 0, 1], [9, 0, 1], [9, 9], [0, 0, 1]]]}, name="a"), feature(polygon(square(1, 1, 1))))
    status, _, said = asked("union", folder.put("high.json", high))
    tell(f"heights and properties: {said}", status == 0 and "z and m were dropped; 3 points" in said and "properties were dropped; 1 of 2 features" in said)
    tell("what drops nothing", "dropped" not in asked("union", parcel)[2])
    status, out, said = asked("intersect", folder.put("high.json", high), folder.put("parcel.json", feature(polygon(square(0, 0, 3)), kind=3)), "--each")
    tell(f"properties that are kept: {said}", status == 0 and "properties" not in said and "z and m" in said)
    told = sorted(json.dumps(it["properties"], sort_keys=True) for it in json.loads(out)["features"])
    tell(f"which: {told}", told == ['{"kind": 3, "name": "a"}', '{"kind": 3, "name": null}'])


def each(folder):
    """Features one by one, in each form."""
    left = folder.put("left.json", collection(feature(polygon(square(0, 0, 10)), name="a", n=1), feature(polygon(square(10, 0, 10)), name="b", n=2)))
    right = folder.put("right.json", collection(feature(polygon(square(5, 5, 10)), n=7.5, of="x")))
    for how, count, area in (("intersection", 2, 50), ("difference", 2, 150), ("identity", 4, 200), ("xor", 3, 200), ("union", 5, 250)):
        status, out, said = asked(how, left, right, "--each")
        found = json.loads(out)["features"] if status == 0 else []
        tell(f"{how} of each: {said}", len(found) == count and area_of(out) == area and not exact.fault(polygons_of(out)[:1]))
        names = {tuple(it["properties"]) for it in found}
        tell(f"names of {how}: {names}", names == ({("name", "n")} if how == "difference" else {("name", "n_1", "n_2", "of")}))
        for form in ("wkt", "geojsonseq", "hex"):
            tell(f"{how} of each as {form}", asked(how, left, right, "--each", "--to", form)[1].count(b"\n") == count)
    for words in (("slice", left, right), ("union", left), ("relate", left, right)):
        tell(f"--each with {words[0]}", asked(*words, "--each")[:2] == (2, b""))
    tell("identity of all", asked("identity", left, right)[:2] == (2, b""))


# ---- what is refused


def malformed(folder):
    for name, text, place in (
        ("cut short", "POLYGON ((0 0, 1 0, 1 1, 0 0)", "feature 1"),
        ("a word", "POLYGON ((0 0, one 0, 1 1, 0 0))", "feature 1, line 1, column 16"),
        ("a word in a later line", "POLYGON ((0 0, 1 0, 1 1, 0 0))\nPOLYGON ((0 0,\n one 0, 1 1, 0 0))", "feature 2, line 3, column 2"),
        ("another kind", "LINESTRING (0 0, 1 1)", "LINESTRING"),
        ("another kind in a collection", "GEOMETRYCOLLECTION (POINT (1 1))", "POINT"),
        ("an open ring", "POLYGON ((0 0, 1 0, 1 1))", "feature 1, ring 1: its last point isn't its first"),
        ("no JSON", "{\"type\": \"Polygon\", ", "line 1"),
        ("more than JSON", f"{json.dumps(polygon(square(0, 0, 1)))} and more", "line 1, column"),
        ("no ring", json.dumps({"type": "Polygon", "coordinates": [[1, 2]]}), "feature 1, ring 1"),
        ("no number", json.dumps({"type": "Polygon", "coordinates": [[[0, 0], [1, "x"], [1, 1], [0, 0]]]}), "feature 1, ring 1, point 2"),
        ("no end", json.dumps({"type": "Polygon", "coordinates": [[[0, 0], [1, float("inf")], [1, 1], [0, 0]]]}), "feature 1, ring 1, point 2"),
        ("another kind of GeoJSON", json.dumps({"type": "Point", "coordinates": [1, 1]}), "feature 1: \"Point\" is no Polygon"),
        ("features that are none", json.dumps({"type": "FeatureCollection", "features": [5]}), "feature 1"),
        ("no features", json.dumps({"type": "FeatureCollection"}), "a list of features"),
        ("no object", "[5]", "feature 1"),
        ("nothing", "", "nothing"),
        ("a mark alone", "\ufeff", "nothing"),
        ("no text", b"POLYGON \xff\xff((", "bad.txt"),
        ("too large", "POLYGON ((0 0, 1e999999999 0, 1 1, 0 0))", "feature 1, line 1, column 16: 1e999999999 is too large or too small"),
        ("larger than a decimal", "POLYGON ((0 0, 1e9999999999999999999999 0, 1 1, 0 0))", "feature 1, line 1, column 16"),
        ("too small", "POLYGON ((0 0, 1 -1e-301, 1 1, 0 0))", "feature 1, line 1, column 18"),
        ("too many digits", f"POLYGON ((0 0, 1{'0' * 5000} 0, 1 1, 0 0))", "column 16: 1000000000"),
        ("too large in JSON", '{"type": "Polygon", "coordinates": [[[0, 0], [1, 1e400], [1, 1], [0, 0]]]}', "feature 1, ring 1, point 2"),
        ("much too large in JSON", '{"type": "Polygon", "coordinates": [[[0, 0], [1, 1e999999999], [1, 1], [0, 0]]]}', "feature 1, ring 1, point 2"),
        ("too many digits in JSON", f'{{"type": "Polygon", "coordinates": [[[0, 0], [1, 1{"0" * 5000}], [1, 1], [0, 0]]]}}', "feature 1, ring 1, point 2"),
        ("a truth value", '{"type": "Polygon", "coordinates": [[[0, 0], [1, true], [1, 1], [0, 0]]]}', "feature 1, ring 1, point 2"),
        ("deep lists", "[" * 100_000, "nested too deep"),
        ("deep geometries", '{"type": "GeometryCollection", "geometries": [' * 3_000 + "]}" * 3_000, "nested too deep"),
        ("deep collections", "GEOMETRYCOLLECTION (" * 100_000, "nested too deep"),
        ("deep bytes", struct.pack("<BII", 1, 7, 1) * 100_000, "nested too deep"),
        ("bytes that are cut short", wkb([square(0, 0, 1)])[:-1], "feature 1, ring 1"),
        ("more points than bytes", struct.pack("<BIII", 1, 3, 1, 2**32 - 1), "feature 1, ring 1"),
        ("bytes of another kind", struct.pack("<BIdd", 1, 1, 0, 0), "Point"),
        ("bytes of no kind", wkb([square(0, 0, 1)]) + b"\x05", "feature 2, byte 93"),
        ("half a byte", wkb([square(0, 0, 1)]).hex() + "0", "half a byte"),
        ("no number in bytes", struct.pack("<BIII6d", 1, 3, 1, 3, 0, 0, float("nan"), 0, 0, 0), "feature 1, ring 1, point 2"),
    ):
        status, out, said = asked("union", folder.put("bad.txt", text))
        tell(f"malformed, {name}: {said}", (status, out) == (1, b"") and "bad.txt" in said and place in said and said.count("\n") == 1)


def wrong(folder, parcel, pond):
    """Wrong use is told in a line, with a status other than 0."""
    nowhere = folder.folder / "nowhere.wkt"
    for name, words, place in (
        ("no second file", ("difference", parcel), "difference wants a second file"), ("no line file", ("clip", parcel), "clip wants"),
        ("a file that isn't there", ("union", nowhere), "nowhere.wkt"), ("a second that isn't there", ("union", parcel, nowhere), "nowhere.wkt"),
        ("a folder", ("union", folder.folder), str(folder.folder)), ("a file that can't be", ("union", parcel, "a\0b"), "a"),
        ("no such rule", ("add", parcel, pond), "'add'"), ("no such form", ("union", parcel, "--to", "kml"), "'kml'"), ("no file", ("union",), "SUBJECT"),
        ("three files", ("union", parcel, pond, pond), "pond.json"), ("an option that there isn't", ("union", parcel, "--fast"), "--fast"),
        ("standard input twice", ("union", "-", "-"), "standard input"), ("--outside without lines", ("union", parcel, "--outside"), "--outside"),
        ("a folder that isn't there", ("union", parcel, "--out", nowhere / "x.wkt"), "nowhere.wkt/x.wkt"),
        ("relations to a file", ("relate", parcel, pond, "--out", "x.wkt"), "relate"),
        ("a word that WKT hasn't", ("union", folder.put("word.wkt", "POLYGON Q ((0 0))")), "word.wkt, feature 1"),
    ):
        status, out, said = asked(*words)
        told = [line for line in said.splitlines() if not line.startswith("factor ")]
        tell(f"{name}: {said}", status in (1, 2) and out == b"" and len(told) == 1 and place in told[0])
        status, out, said = process(*words) if "\0" not in "".join(map(str, words)) else (status, out, said)
        tell(f"{name}, by a process: {said}", status in (1, 2) and out == b"" and "Traceback" not in said and place in said)
    with open("/dev/full", "wb") as full:
        status, _, said = process("union", parcel, stdout=full)
        tell(f"a full disk: {said}", status == 2 and "No space left" in said and "Traceback" not in said and said.count("\n") == 2)
    status, _, said = process("union", parcel, "--out", "/dev/full")
    tell(f"a device as a new file: {said}", status == 2 and "/dev/full" in said and "Traceback" not in said)
    reader, writer = os.pipe()
    os.close(reader)
    status, _, said = process("union", parcel, stdout=writer)
    os.close(writer)
    tell(f"a pipe that nobody reads: {said}", status == 2 and "Broken pipe" in said and "Traceback" not in said)
    for name in (nowhere, parcel, ctypes.util.find_library("m")):
        status, out, said = process("union", parcel, env={**os.environ, "BAPYERU_LIBRARY": str(name)})
        tell(f"no library: {said}", (status, out) == (1, b"") and str(name) in said and "Traceback" not in said)
    status, out, said = process("--help")
    tell("help", status == 0 and b"usage: geo RULE SUBJECT" in out and said == "")


# ---- GDAL, where it is installed


def by_gdal(folder, parcel):
    gpkg = folder.folder / "parcels.gpkg"
    left = folder.put("left.json", collection(feature(polygon(square(0, 0, 10)), name="a", n=1, part=0.5), feature(polygon(square(10, 0, 10)), name="ü", n=2),
                                              crs=crs("urn:ogc:def:crs:EPSG::3857")))
    if module_of("osgeo", "files by GDAL") is None:
        for name in ("parcels.gpkg", "parcels.shp"):
            status, out, said = asked("union", folder.put(name, b"SQLite format 3\0"))
            tell(f"{name} without GDAL: {said}", (status, out) == (1, b"") and name in said and "python3-gdal" in said and said.count("\n") == 1)
            status, out, said = asked("union", parcel, "--out", folder.folder / f"new.{name}")
            tell(f"{name} to be written without GDAL: {said}", (status, out) == (1, b"") and "python3-gdal" in said)
        return
    right = folder.put("right.json", collection(feature(polygon(square(5, 5, 10)), n=7, of="x"), crs=crs("EPSG:3857")))
    status, out, said = asked("union", left, right, "--each", "--out", gpkg)
    tell(f"a GeoPackage is written: {said}", (status, out) == (0, b""))
    status, out, said = asked("intersection", gpkg, right, "--each")
    found = json.loads(out) if status == 0 else {"features": []}
    tell(f"and read: {said}", area_of(out) == 100 and found["crs"] == crs("urn:ogc:def:crs:EPSG::3857"))
    told = sorted(json.dumps(it["properties"], sort_keys=True, ensure_ascii=False) for it in found["features"])
    wanted = '{"n": 7, "n_1": 1, "n_2": 7, "name": "a", "of_1": "x", "of_2": "x", "part": 0.5}'
    tell(f"its properties: {told}", len(told) == 3 and wanted in told)
    for ending in ("shp", "fgb", "kml", "geojson"):
        status, out, said = asked("union", gpkg, "--out", folder.folder / f"whole.{ending}")
        tell(f"{ending} is written: {said}", (status, out) == (0, b""))
        status, out, said = asked("union", folder.folder / f"whole.{ending}", "--to", "geojson")
        tell(f"{ending} is read: {said}", status == 0 and (ending == "kml" or area_of(out) == 275 - 25))
    for name, words, place in (
        ("what GDAL doesn't read", ("union", folder.put("bad.gpkg", b"SQLite format 3\0")), "bad.gpkg"),
        ("an ending that GDAL doesn't know", ("union", parcel, "--out", folder.folder / "x.nothing"), "x.nothing"),
        ("no such layer", ("union", gpkg, "--layer", "roads"), "parcels"),
        ("another system", ("union", gpkg, folder.put("degrees.wkt", f"SRID=4326;{PARCEL}")), "EPSG:4326"),
        ("a file that is there", ("union", parcel, "--out", gpkg), "there already"),
        ("lines of polygons", ("clip", parcel, gpkg), "Polygon"),
    ):
        status, out, said = asked(*words)
        told = [line for line in said.splitlines() if not line.startswith(("factor ", "parcel", "degrees"))]
        tell(f"{name}: {said}", status in (1, 2) and out == b"" and place in said and "Traceback" not in said)


# ---- the examples


def there_and_back(folder, path):
    """An example's subjects as WKT and as GeoJSON: their union comes back as the module answers it."""
    subjects = []
    for line in path.read_text().splitlines():
        if line.startswith("subject "):
            row = list(map(int, line.split()[1:]))
            subjects.append(list(zip(row[0::2], row[1::2])))
    closed = [[*points, points[0]] for points in subjects]
    wkt = folder.put("example.wkt", "".join("POLYGON ((" + ", ".join(f"{x} {y}" for x, y in ring) + "))\n" for ring in closed))
    given = folder.put("example.json", collection(*[feature({"type": "Polygon", "coordinates": [ring]}) for ring in closed]))
    turned = [points if exact.ring_area(points) >= 0 else points[::-1] for points in subjects]
    wanted = bapyeru.overlay(turned, rule="union", fill="positive", part_contours=True, keep_points=True)
    for one in (wkt, given):
        status, out, said = asked("union", one, "--to", "geojson", "--factor", "1")
        found = [[[tuple(map(int, point)) for point in ring] for ring in rings] for rings in polygons_of(out)] if status == 0 else None
        tell(f"{path.name} as {one.suffix}: {said}", found == wanted)


if __name__ == "__main__":
    with tempfile.TemporaryDirectory() as room:
        files(Folder(room))
    sys.exit(end())
