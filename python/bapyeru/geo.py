"""Overlays polygons of files: GeoJSON, WKT, WKB, and with GDAL all formats that it has.

usage: geo RULE SUBJECT [CLIP] [--to FORM] [--out FILE] [--factor F] [--narrow] [--outside] [--each] [--layer NAME] [--clip-layer NAME]

RULE is union, intersect (intersection), difference, inverse, xor (symmetric_difference), clip, slice or relate. SUBJECT and CLIP are files with
polygons: a GeoJSON object, GeoJSON features one after another, WKT or WKB geometries one after another, WKB as hexadecimal digits, or what GDAL reads, by
--layer and --clip-layer where a file has several layers. '-' is standard input. `union` may do without a CLIP.

Each polygon fills by parity of its rings, whichever way they run, and the polygons of a file are taken together: what one of them fills is filled. An
answer is one MultiPolygon on standard output, valid as OGC has it, in the form of the first file unless --to says otherwise: geojson, geojsonseq, wkt, wkb
or hex. With --out it goes to a new file, whose ending tells the format.

With --each features are taken one by one, and keep their properties: the answer is a feature for each piece, as geopandas.overlay has them. RULE may be
identity too.

For `clip` and `slice` the second file has lines: `slice` parts the polygons along them, and answers each piece as a feature; `clip` answers what of
the lines lies in the polygons, or with --outside what doesn't, as one MultiLineString. `relate` answers a line of relations.

The engine reckons with whole numbers. Coordinates are moved and multiplied to reach as far of its range as they can: by the greatest of 1, 2 and 5
times a power of ten that fits, or by --factor. The range is from -68719476736 to 68719476735, and with --narrow from -524288 to 524287: then more
is rounded, and the engine is faster. Standard error tells the factor, its step, the origin where it isn't 0 0, how many coordinates were rounded to a
step, and what of the files isn't in the answer. A reference system is copied, and two unlike ones are refused. What else is refused is told in one line,
with the file, the feature and the place.
"""
from __future__ import annotations

import argparse
import os
import pathlib
import sys
from decimal import Decimal
from typing import Iterator, List, NoReturn, Optional, Sequence

from . import _library, calls, geometries, layers, vectors
from .geometries import FORMS, Layer, Malformed, Written, cut
from .grid import Grid, decimal_of

RULES = ("union", "intersect", "difference", "inverse", "xor", *calls.OTHER_RULES)
LINES = ("clip", "slice")
# The forms of files by their endings.
ENDINGS = {".geojson": "geojson", ".json": "geojson", ".wkt": "wkt", ".txt": "wkt", ".wkb": "wkb", ".hex": "hex",
           **dict.fromkeys([".geojsonseq", ".geojsons", ".geojsonl", ".ndjson"], "geojsonseq")}


class Wrong(Exception):
    """What is wrong with what was asked."""


class Words(argparse.ArgumentParser):
    """Reads the words of a call. What is wrong with them is told in one line."""

    def error(self, message: str) -> NoReturn:
        raise Wrong(f"{message}; geo --help tells more")


# ---- files


def read(name: str, are_lines: bool, wanted: Optional[str]) -> Layer:
    """The polygons of a file, or its lines."""
    try:
        if name == "-":
            return geometries.read(sys.stdin.buffer.read(), "standard input", are_lines)
        path = pathlib.Path(name)
        data = b"" if path.is_dir() else path.read_bytes()
    except (OSError, ValueError) as fault:
        raise Malformed(f"{name}: {getattr(fault, 'strerror', None) or fault}") from fault
    if geometries.is_known(data) or path.suffix.lower() in ENDINGS or not path.suffix:
        if path.is_dir():
            raise Malformed(f"{name}: it is a folder")
        return geometries.read(data, name, are_lines)
    return vectors.read(name, are_lines, wanted)


def save(data: bytes, name: Optional[str]) -> None:
    """Writes an answer to a new file, or to standard output."""
    if name is None:
        try:
            sys.stdout.flush()
            sys.stdout.buffer.write(data)
            sys.stdout.buffer.flush()
        except OSError as fault:
            # (what is left in the buffer would be tried again at the end, with a traceback)
            os.dup2(os.open(os.devnull, os.O_WRONLY), sys.stdout.fileno())
            raise Wrong(f"standard output: {fault.strerror}") from fault
        return
    try:
        with open(name, "xb") as file:
            file.write(data)
    except FileExistsError:
        raise Wrong(f"{name}: it is there already") from None
    except OSError as fault:
        raise Wrong(f"{name}: {fault.strerror}") from fault


# ---- what is asked


def factor_of(text: str) -> Decimal:
    value = decimal_of(text)
    if value is None or value <= 0:
        raise argparse.ArgumentTypeError("a number from 1e-300 to 1e300 is wanted")
    return value


def words_of(given: Optional[Sequence[str]]) -> argparse.Namespace:
    reader = Words(prog="geo", description=__doc__, formatter_class=argparse.RawDescriptionHelpFormatter, usage=argparse.SUPPRESS)
    reader.add_argument("rule", choices=[*RULES, "identity", *LINES, "relate"], metavar="RULE")
    reader.add_argument("subject", metavar="SUBJECT")
    reader.add_argument("clip", nargs="?", metavar="CLIP")
    reader.add_argument("--to", choices=FORMS, metavar="FORM")
    reader.add_argument("--out", metavar="FILE")
    reader.add_argument("--factor", type=factor_of, metavar="F")
    reader.add_argument("--narrow", action="store_true")
    reader.add_argument("--outside", action="store_true")
    reader.add_argument("--each", action="store_true")
    reader.add_argument("--layer", metavar="NAME")
    reader.add_argument("--clip-layer", metavar="NAME")
    words = reader.parse_args(given)
    if words.clip is None and words.rule != "union":
        reader.error(f"{words.rule} wants a second file")
    if words.subject == words.clip == "-":
        reader.error("standard input is one file alone")
    if words.outside and words.rule != "clip":
        reader.error("--outside is for clip")
    known = (*layers.HOWS, *layers.OTHER_HOWS)
    if words.each and (words.rule not in known or words.clip is None):
        reader.error(f"--each is for two files and {', '.join(known)}")
    if words.rule == "identity" and not words.each:
        reader.error("identity is for --each")
    if words.rule == "relate" and (words.to or words.out):
        reader.error("relate answers a line, and no geometry")
    return words


# ---- answers


def common_crs(given: List[Layer]) -> Optional[str]:
    """The reference system of an answer. Two unlike ones are refused, and one alone is told."""
    named = [it for it in given if it.crs]
    for it in named[1:]:
        if not vectors.are_alike(it.crs or "", named[0].crs or ""):
            raise Malformed(f"{it.name}: its reference system is {cut(it.crs or '')}, and that of {named[0].name} is {cut(named[0].crs or '')}")
    for it in given:
        if named and not it.crs:
            print(f"{it.name}: it names no reference system; {cut(named[0].crs or '')} is taken, as of {named[0].name}", file=sys.stderr)
    return named[0].crs if named else None


def lines_of(layer: Layer, grid: Grid) -> layers.Contours:
    return [layers.whole(part, grid.whole)[0] for part in layer.parts()]


def overlaid(words: argparse.Namespace, given: List[Layer], grid: Grid) -> Iterator[Written]:
    """The geometries of an answer: one, but for slices."""
    subject = layers.together(given[0], grid)
    if words.rule == "clip":
        paths = calls.clip_lines(subject, lines_of(given[1], grid), "positive", outside=words.outside, border=not words.outside)
        yield Written("MultiLineString", [list(map(grid.place, path)) for path in paths], {})
    elif words.rule == "slice":
        pieces = calls.slice_shape(subject, lines_of(given[1], grid), "positive")
        for shapes in layers.valid(pieces):
            yield from (Written("Polygon", layers.back(shape, grid), {}) for shape in shapes)
    else:
        clip = layers.together(given[1], grid) if len(given) > 1 else []
        shapes = calls.overlay(subject, clip, words.rule, "positive", part_contours=True, keep_points=True)
        yield Written("MultiPolygon", [layers.back(shape, grid) for shape in shapes], {})


def related(given: List[Layer], grid: Grid) -> bytes:
    """The line of relations."""
    subject, clip = (layers.together(layer, grid) for layer in given)
    told = calls.relate(subject, clip, "positive")
    return " ".join(f"{name} {str(value).lower()}" for name, value in told._asdict().items()).encode() + b"\n"


def run(words: argparse.Namespace) -> None:
    """Does what the words ask: an answer is found before anything of it is written."""
    given = [read(words.subject, False, words.layer)]
    if words.clip is not None:
        given.append(read(words.clip, words.rule in LINES, words.clip_layer))
    crs = common_crs(given)
    found: List[Written] = []
    line = b""
    if words.each:
        found, grid = layers.overlaid(given, words.rule, words.factor, words.narrow)
    else:
        grid = Grid((point for layer in given for point in layer.points()), words.factor, narrow=words.narrow)
        if words.rule == "relate":
            line = related(given, grid)
        else:
            found = list(overlaid(words, given, grid))
    for told in [grid.tell(), *[it for layer in given for it in layer.dropped(words.each)]]:
        print(told, file=sys.stderr)
    if words.rule == "relate":
        save(line, None)
    else:
        answer(words, found, crs, given[0].form)


def answer(words: argparse.Namespace, found: List[Written], crs: Optional[str], first: str) -> None:
    """Writes an answer in the form that is asked for, or else in that of the first file."""
    form = words.to
    if form is None and words.out is not None:
        form = ENDINGS.get(pathlib.Path(words.out).suffix.lower())
        if form is None:
            if pathlib.Path(words.out).exists():
                raise Wrong(f"{words.out}: it is there already")
            vectors.write(words.out, found, crs)
            return
    form = form or (first if first in FORMS else "geojson")
    if crs is not None and form != "geojson" and (form == "geojsonseq" or geometries.number_of_crs(crs) is None):
        print(f"the reference system {cut(crs)} was dropped: {form} has no place for it", file=sys.stderr)
    save(geometries.written(found, form, crs, not (words.each or words.rule == "slice")), words.out)


def main(given: Optional[Sequence[str]] = None) -> int:
    """Does what the words of a call ask. Answers the status to end with: 0 where all was answered."""
    try:
        run(words_of(given))
        return 0
    except Wrong as fault:
        status, said = 2, str(fault)
    except (Malformed, _library.Refused, ImportError) as fault:
        status, said = 1, str(fault)
    except (MemoryError, RecursionError) as fault:
        status, said = 1, f"this is more than there is memory for ({type(fault).__name__})"
    except KeyboardInterrupt:
        status, said = 130, "interrupted"
    print("geo: " + " ".join(said.split("\n")), file=sys.stderr)
    return status


if __name__ == "__main__":
    sys.exit(main())
