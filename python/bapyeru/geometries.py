"""Polygons and lines of GeoJSON, WKT and WKB, and of objects with a `__geo_interface__`: how they are read, checked and written.

What is read is a `Layer` of features, each with parts: a polygon by its rings, or a line as the only ring of one. Points are pairs of `Decimal`, as they are
written. What is malformed is told with the file, the feature and the place. What is left out is counted: heights, measures, and where the caller
has no use for them, properties.
"""
from __future__ import annotations

import itertools
import json
import re
import struct
from decimal import Decimal
from typing import Any, Callable, Dict, Iterable, Iterator, List, NamedTuple, Optional, Tuple

from .grid import decimal_of, short

Point = Tuple[Decimal, Decimal]
FORMS = ("geojson", "geojsonseq", "wkt", "wkb", "hex")


class Malformed(ValueError):
    """What is wrong with a file or a geometry, and where."""


class Part(NamedTuple):
    """A polygon, or a line as its only ring, and where it stands. The last point of a ring isn't its first again."""

    where: str
    rings: List[List[Point]]
    is_polygon: bool = True


class Feature(NamedTuple):
    """What one feature has."""

    parts: List[Part]
    properties: Dict[str, Any]
    identity: Any = None


class Layer:
    """The features of a file, what it was written in, its coordinate reference system, and how many points had more than x and y."""

    def __init__(self, name: str, form: str = "", crs: Optional[str] = None) -> None:
        self.name, self.form, self.crs = name, form, crs
        self.features: List[Feature] = []
        self.heights = 0

    def parts(self) -> List[Part]:
        return [part for feature in self.features for part in feature.parts]

    def points(self) -> Iterator[Point]:
        return (point for part in self.parts() for ring in part.rings for point in ring)

    def take_crs(self, crs: Optional[str], where: str) -> None:
        """Takes what is told of the reference system; a file has one."""
        if crs is not None and self.crs is not None and not are_alike(crs, self.crs):
            raise Malformed(f"{where}: the reference system {crs} stands beside {self.crs}")
        self.crs = self.crs or crs

    def dropped(self, keeps_properties: bool) -> Iterator[str]:
        """What an answer doesn't have of this."""
        if self.heights:
            yield f"{self.name}: z and m were dropped; {self.heights} points have some"
        count = sum(bool(it.properties or it.identity is not None) for it in self.features)
        if count and not keeps_properties:
            yield f"{self.name}: properties were dropped; {count} of {len(self.features)} features have some"


def cut(text: str) -> str:
    """A text of a line or less."""
    return text if len(text) <= 60 else f"{text[:57]}..."


# ---- reference systems


def crs_of(text: str) -> str:
    """A reference system by its short name: EPSG:3857 of urn:ogc:def:crs:EPSG::3857, and of an address at opengis.net. Others stay as they are."""
    found = re.fullmatch(r"(?:urn:(?:x-)?ogc:def:crs:|https?://www\.opengis\.net/def/crs/)?EPSG(?:[:/][^:/]*)?[:/](\d+)", text.strip(), re.I)
    if found:
        return f"EPSG:{int(found[1])}"
    return "OGC:CRS84" if re.fullmatch(r"(?:urn:(?:x-)?ogc:def:crs:|https?://www\.opengis\.net/def/crs/)?OGC.*CRS84", text.strip(), re.I) else text.strip()


def are_alike(a: str, b: str) -> bool:
    """Whether two names are of one system. Both of longitudes and latitudes over WGS 84 are, since all formats have the longitude first."""
    known = {"OGC:CRS84": "EPSG:4326"}
    return known.get(a, a) == known.get(b, b)


# ---- what is read of all forms


class Reader:
    """What the readers of all forms share: the layer, the kind that is wanted, and where they are."""

    def __init__(self, layer: Layer, are_lines: bool) -> None:
        self.layer, self.are_lines = layer, are_lines
        self.kind = "LineString" if are_lines else "Polygon"
        self.part = "line" if are_lines else "polygon"

    def number(self, value: Any, where: Callable[[], str]) -> Decimal:
        found = None if isinstance(value, bool) else decimal_of(getattr(value, "text", value))
        if found is None:
            raise Malformed(f"{where()}: {cut(json.dumps(getattr(value, 'text', value), default=str))} is no number, or too large or small")
        return found

    def ring(self, points: List[Point], where: str) -> List[Point]:
        """The points of a ring, without the last one, which is the first again."""
        if points and points[0] != points[-1]:
            raise Malformed(f"{where}: its last point isn't its first")
        return points[:-1]

    def no_such(self, where: str, kind: str) -> Malformed:
        return Malformed(f"{where}: {cut(kind)} is no {self.kind} or Multi{self.kind}")


def nested_too_deep(name: str) -> Malformed:
    return Malformed(f"{name}: its lists and objects are nested too deep")


# ---- GeoJSON, and objects with a __geo_interface__


class _Written(float):
    """A number of a text, with the text."""

    text: str


def _float(text: str) -> _Written:
    written = _Written(text)
    written.text = text
    return written


def _int(text: str) -> Any:
    return int(text) if len(text) <= 400 else _float(text)


DECODER = json.JSONDecoder(parse_float=_float, parse_int=_int, parse_constant=_float)
# What may stand before a value, and between values: a record separator too.
BETWEEN = re.compile(r"[\s\x1e]*")


class Json(Reader):
    """Reads objects as GeoJSON has them, also those that are no text but of a `__geo_interface__`."""

    def values(self, text: str) -> Iterator[Any]:
        """The values of a text: one, or many one behind the other, each perhaps behind a record separator."""
        at = 0
        while True:
            found = BETWEEN.match(text, at)
            at = found.end() if found else at
            if at == len(text):
                return
            try:
                value, at = DECODER.raw_decode(text, at)
            except json.JSONDecodeError as fault:
                raise Malformed(f"{self.layer.name}, line {fault.lineno}, column {fault.colno}: {fault.msg}") from fault
            yield value

    def text(self, text: str) -> None:
        values = list(self.values(text))
        if len(values) > 1 or "\x1e" in text[:1]:
            self.layer.form = "geojsonseq"
        for value in values:
            self.value(value)

    def value(self, value: Any) -> None:
        """Takes an object: features of a collection, a feature or a geometry."""
        where = self.layer.name
        if isinstance(value, dict):
            self.take_crs(value, where)
        if isinstance(value, dict) and value.get("type") == "FeatureCollection":
            for feature in self.members(value.get("features"), where, "features"):
                self.feature(feature)
        else:
            self.feature(value)

    def take_crs(self, value: dict, where: str) -> None:
        crs = value.get("crs")
        if crs is None:
            return
        named = crs.get("properties") if isinstance(crs, dict) and crs.get("type") == "name" else None
        name = named.get("name") if isinstance(named, dict) else None
        if not isinstance(name, str):
            raise Malformed(f"{where}: a reference system by name is wanted, and not {cut(json.dumps(crs, default=str))}")
        self.layer.take_crs(crs_of(name), where)

    def feature(self, value: Any) -> None:
        where = f"{self.layer.name}, feature {len(self.layer.features) + 1}"
        parts: List[Part] = []
        properties: Dict[str, Any] = {}
        identity = None
        if isinstance(value, dict) and value.get("type") == "Feature":
            properties, identity = value.get("properties") or {}, value.get("id")
            if not isinstance(properties, dict):
                raise Malformed(f"{where}: its properties are no object")
            self.take_crs(value, where)
            value = value.get("geometry")
            if hasattr(value, "__geo_interface__"):
                value = value.__geo_interface__
        self.geometry(value, where, parts)
        self.layer.features.append(Feature(parts, properties, identity))

    def members(self, value: Any, where: str, kind: str) -> list:
        if not isinstance(value, (list, tuple)):
            raise Malformed(f"{where}: a list of {kind} is wanted")
        return list(value)

    def geometry(self, value: Any, where: str, parts: List[Part]) -> None:
        if value is None:
            return
        if not isinstance(value, dict):
            raise Malformed(f"{where}: a GeoJSON object is wanted")
        kind = value.get("type")
        if kind == "GeometryCollection":
            for n, geometry in enumerate(self.members(value.get("geometries"), where, "geometries"), 1):
                self.geometry(geometry, f"{where}, geometry {n}", parts)
        elif kind == self.kind or not self.are_lines and kind == "LinearRing":
            self.add(value.get("coordinates"), where, parts)
        elif kind == f"Multi{self.kind}":
            for n, one in enumerate(self.members(value.get("coordinates"), where, f"{self.part}s"), 1):
                self.add(one, f"{where}, {self.part} {n}", parts)
        else:
            raise self.no_such(where, json.dumps(kind, default=str))

    def add(self, value: Any, where: str, parts: List[Part]) -> None:
        """A polygon, or a line as the only ring of one."""
        if self.are_lines:
            parts.append(Part(where, [self.points(value, where)], False))
            return
        rings = enumerate(self.members(value, where, "rings"), 1)
        parts.append(Part(where, [self.ring(self.points(ring, f"{where}, ring {n}"), f"{where}, ring {n}") for n, ring in rings]))

    def points(self, value: Any, where: str) -> List[Point]:
        return [self.point(point, lambda: f"{where}, point {n}") for n, point in enumerate(self.members(value, where, "points"), 1)]

    def point(self, value: Any, where: Callable[[], str]) -> Point:
        if not isinstance(value, (list, tuple)) or len(value) < 2:
            raise Malformed(f"{where()}: x and y are wanted")
        self.layer.heights += len(value) > 2
        return self.number(value[0], where), self.number(value[1], where)


# ---- WKT


class Wkt(Reader):
    """Reads geometries of a text, one behind the other, also in collections, and with SRID= before them."""

    TOKEN = re.compile(r"\s*(?:([A-Za-z_]+)|([-+]?(?:\d+\.?\d*|\.\d+)(?:[eE][-+]?\d+)?)|(\S))")
    WORD, NUMBER, SIGN, END = 1, 2, 3, 0

    def text(self, text: str) -> None:
        self.all = text
        self.tokens = [(found.lastindex or self.END, found[found.lastindex or 0], found.start(found.lastindex or 0)) for found in self.TOKEN.finditer(text)]
        self.tokens.append((self.END, "", len(text)))
        self.at = 0
        while self.tokens[self.at][0] != self.END:
            where = f"{self.layer.name}, feature {len(self.layer.features) + 1}"
            parts: List[Part] = []
            if self.is_next("SRID"):
                self.take("SRID"), self.take("=")
                self.layer.take_crs(srid(self.number_next()), where)
                self.take(";")
            self.geometry(where, parts)
            self.layer.features.append(Feature(parts, {}))
            if self.is_next(";"):
                self.at += 1

    def wrong(self, what: str) -> Malformed:
        start = self.tokens[self.at][2]
        line, column = self.all.count("\n", 0, start) + 1, start - (self.all.rfind("\n", 0, start) + 1) + 1
        return Malformed(f"{self.layer.name}, feature {len(self.layer.features) + 1}, line {line}, column {column}: {what}")

    def is_next(self, *words: str) -> bool:
        return self.tokens[self.at][1].upper() in words

    def take(self, *wanted: str) -> str:
        if not self.is_next(*wanted):
            raise self.wrong(f"{' or '.join(map(repr, wanted))} is wanted, and not {cut(self.tokens[self.at][1])!r}")
        self.at += 1
        return self.tokens[self.at - 1][1].upper()

    def number_next(self) -> Decimal:
        kind, text, _ = self.tokens[self.at]
        if kind != self.NUMBER:
            raise self.wrong(f"a number is wanted, and not {cut(text)!r}")
        value = decimal_of(text)
        if value is None:
            raise self.wrong(f"{cut(text)} is too large or too small")
        self.at += 1
        return value

    def geometry(self, where: str, parts: List[Part]) -> None:
        kind = re.sub(r"(?<=[A-Z])(ZM|Z|M)$", "", self.tokens[self.at][1].upper())
        if kind not in (self.kind.upper(), f"MULTI{self.kind.upper()}", "GEOMETRYCOLLECTION"):
            raise self.wrong(f"{cut(self.tokens[self.at][1])!r} is no {self.kind.upper()} or MULTI{self.kind.upper()}")
        self.at += 1
        if self.is_next("Z", "M", "ZM"):
            self.at += 1
        if self.is_next("EMPTY"):
            self.at += 1
        elif kind == "GEOMETRYCOLLECTION":
            self.list_of(lambda n: self.geometry(f"{where}, geometry {n}", parts))
        elif kind == self.kind.upper():
            self.add(where, parts)
        else:
            self.list_of(lambda n: self.add(f"{where}, {self.part} {n}", parts))

    def list_of(self, read: Callable[[int], Any]) -> list:
        """What stands between parentheses, parted by commas."""
        self.take("(")
        found = [read(1)]
        while self.take(",", ")") == ",":
            found.append(read(len(found) + 1))
        return found

    def add(self, where: str, parts: List[Part]) -> None:
        """A polygon, or a line as the only ring of one."""
        if self.is_next("EMPTY"):
            self.at += 1
        elif self.are_lines:
            parts.append(Part(where, [self.list_of(self.point)], False))
        else:
            parts.append(Part(where, self.list_of(lambda n: self.ring(self.list_of(self.point), f"{where}, ring {n}"))))

    def point(self, _: int) -> Point:
        x, y = self.number_next(), self.number_next()
        more = 0
        while self.tokens[self.at][0] == self.NUMBER:
            self.number_next()
            more = 1
        self.layer.heights += more
        return x, y


def srid(number: Any) -> Optional[str]:
    """The reference system of a number; 0 stands for none."""
    return f"EPSG:{int(number)}" if number else None


# ---- WKB


class Wkb(Reader):
    """Reads geometries of bytes, one behind the other, by OGC, ISO or with a reference system as PostGIS writes them."""

    KINDS = ("Geometry", "Point", "LineString", "Polygon", "MultiPoint", "MultiLineString", "MultiPolygon", "GeometryCollection")

    def data(self, data: bytes) -> None:
        self.all, self.at = data, 0
        while self.at < len(self.all):
            parts: List[Part] = []
            self.geometry(f"{self.layer.name}, feature {len(self.layer.features) + 1}", parts)
            self.layer.features.append(Feature(parts, {}))

    def unpack(self, form: str, where: str) -> tuple:
        size = struct.calcsize(form)
        if size > len(self.all) - self.at:
            raise Malformed(f"{where}, byte {self.at}: it is cut short")
        self.at += size
        return struct.unpack_from(form, self.all, self.at - size)

    def geometry(self, where: str, parts: List[Part]) -> None:
        begun = self.at
        (order,) = self.unpack("B", where)
        sign = {0: ">", 1: "<"}.get(order)
        if sign is None:
            raise Malformed(f"{where}, byte {begun}: {order} is no order of bytes")
        (code,) = self.unpack(f"{sign}I", where)
        plain_code, more = code & 0x1FFFFFFF, (code >> 31) + (code >> 30 & 1)
        if code & 0x20000000:
            self.layer.take_crs(srid(self.unpack(f"{sign}I", where)[0]), where)
        kind, more = plain_code % 1000, more + (0, 1, 1, 2)[min(plain_code // 1000, 3)]
        name = self.KINDS[kind] if kind < len(self.KINDS) else f"kind {kind}"
        if name == "GeometryCollection" or name == f"Multi{self.kind}":
            part = "geometry" if name == "GeometryCollection" else self.part
            for n in range(1, self.unpack(f"{sign}I", where)[0] + 1):
                self.geometry(f"{where}, {part} {n}", parts)
        elif name == self.kind:
            count = 1 if self.are_lines else self.unpack(f"{sign}I", where)[0]
            rings = []
            for at in (f"{where}, ring {n}" for n in range(1, count + 1)):
                points = self.points(sign, 2 + more, at)
                rings.append(points if self.are_lines else self.ring(points, at))
            parts.append(Part(where, rings, not self.are_lines))
        else:
            raise self.no_such(f"{where}, byte {begun}", name)

    def points(self, sign: str, width: int, where: str) -> List[Point]:
        (count,) = self.unpack(f"{sign}I", where)
        if count * width * 8 > len(self.all) - self.at:
            raise Malformed(f"{where}, byte {self.at}: it is cut short")
        values = self.unpack(f"{sign}{count * width}d", where)
        self.layer.heights += count if width > 2 else 0
        place = lambda n: lambda: f"{where}, point {n + 1}"
        return [(self.number(values[n * width], place(n)), self.number(values[n * width + 1], place(n))) for n in range(count)]


# ---- texts and bytes of any of these forms


def is_known(data: bytes) -> bool:
    """Whether bytes begin as one of these forms does."""
    if len(data) >= 5 and data[0] in (0, 1):
        code = struct.unpack_from("<I" if data[0] else ">I", data, 1)[0] & 0x1FFFFFFF
        return code // 1000 <= 3 and 0 < code % 1000 < len(Wkb.KINDS)
    text = data[:1000].decode("utf-8-sig", "ignore").lstrip(" \t\r\n\x1e")
    words = r"[{\[]|0[01][0-9A-Fa-f]{8}|(?i:SRID\s*=|(MULTI)?(POINT|LINESTRING|POLYGON|CURVE|SURFACE)|GEOMETRYCOLLECTION)"
    return re.match(words, text) is not None


def read(data: bytes, name: str, are_lines: bool = False) -> Layer:
    """The layer of a file's bytes."""
    layer = Layer(name)
    try:
        if data[:1] in (b"\0", b"\1"):
            layer.form = "wkb"
            Wkb(layer, are_lines).data(data)
            return layer
        try:
            text = data.decode("utf-16" if data[:2] in (b"\xff\xfe", b"\xfe\xff") else "utf-8-sig")
        except UnicodeDecodeError as fault:
            raise Malformed(f"{name}: {fault}") from fault
        words = text.strip(" \t\r\n\x1e")
        if not words:
            raise Malformed(f"{name}: there is nothing in it")
        if re.match(r"0[01][0-9A-Fa-f]{8}", words) and re.fullmatch(r"[0-9A-Fa-f\s]*", words):
            layer.form = "hex"
            try:
                Wkb(layer, are_lines).data(bytes.fromhex(words))
            except ValueError as fault:
                raise fault if isinstance(fault, Malformed) else Malformed(f"{name}: half a byte stands in it") from fault
        elif words[0] in "{[":
            layer.form = "geojson"
            Json(layer, are_lines).text(text)
        else:
            layer.form = "wkt"
            Wkt(layer, are_lines).text(text)
    except RecursionError:
        raise nested_too_deep(name) from None
    return layer


def layer_of(given: Any, name: str, are_lines: bool = False) -> Layer:
    """The layer of an object: of one with a `__geo_interface__`, of an object as GeoJSON has it, or of a list of such."""
    layer = Layer(name, "geojson")
    reader = Json(layer, are_lines)
    try:
        value = getattr(given, "__geo_interface__", given)
        if isinstance(value, dict):
            reader.value(value)
        else:
            for one in value:
                reader.value(getattr(one, "__geo_interface__", one))
    except RecursionError:
        raise nested_too_deep(name) from None
    except TypeError as fault:
        raise TypeError(f"{name}: an object with a __geo_interface__ is wanted, or a list of such, and no {type(given).__name__}") from fault
    crs = getattr(given, "crs", None)
    if crs is not None:
        layer.take_crs(crs_of(str(crs)), name)
    return layer


# ---- writing


def number(value: Decimal) -> Any:
    """A coordinate as JSON has it."""
    return int(value) if value == int(value) else float(value)


def coordinates(parts: List[Any]) -> list:
    """Lists of lists of points, of any depth, as JSON has them."""
    return [number(it) if isinstance(it, Decimal) else coordinates(it) for it in parts]


def geometry(kind: str, parts: List[Any]) -> Dict[str, Any]:
    return {"type": kind, "coordinates": coordinates(parts)}


def crs_member(crs: Optional[str]) -> Dict[str, Any]:
    """The member of a GeoJSON object that names its reference system, as far as it has one."""
    if crs is None:
        return {}
    name = "urn:ogc:def:crs:OGC:1.3:CRS84" if are_alike(crs, "OGC:CRS84") else re.sub(r"^EPSG:(\d+)$", r"urn:ogc:def:crs:EPSG::\1", crs)
    return {"crs": {"type": "name", "properties": {"name": name}}}


def number_of_crs(crs: Optional[str]) -> Optional[int]:
    """The number by which WKT and WKB name a reference system."""
    if crs is None:
        return None
    found = re.fullmatch(r"EPSG:(\d+)", "EPSG:4326" if crs == "OGC:CRS84" else crs)
    return int(found[1]) if found else None


def as_wkt(kind: str, parts: List[Any], crs: Optional[str]) -> str:
    before = f"SRID={number_of_crs(crs)};" if number_of_crs(crs) else ""
    return f"{before}{kind.upper()} {_listed_wkt(parts)}" if parts else f"{before}{kind.upper()} EMPTY"


def _listed_wkt(parts: List[Any]) -> str:
    if isinstance(parts[0][0], Decimal):
        return "(" + ", ".join(f"{short(x)} {short(y)}" for x, y in parts) + ")"
    return "(" + ", ".join(map(_listed_wkt, parts)) + ")"


def as_wkb(kind: str, parts: List[Any], crs: Optional[str] = None) -> bytes:
    code, named = Wkb.KINDS.index(kind), number_of_crs(crs)
    head = struct.pack("<BI", 1, code | (0x20000000 if named else 0)) + (struct.pack("<I", named) if named else b"")
    if kind.startswith("Multi"):
        return head + struct.pack("<I", len(parts)) + b"".join(as_wkb(kind[5:], part) for part in parts)
    return head + (_points_wkb(parts) if kind == "LineString" else struct.pack("<I", len(parts)) + b"".join(map(_points_wkb, parts)))


def _points_wkb(points: List[Any]) -> bytes:
    return struct.pack(f"<I{2 * len(points)}d", len(points), *map(float, itertools.chain.from_iterable(points)))


class Written(NamedTuple):
    """A geometry that is written, with its properties."""

    kind: str
    parts: List[Any]
    properties: Dict[str, Any]


def feature_of(one: Written) -> Dict[str, Any]:
    return {"type": "Feature", "properties": one.properties, "geometry": geometry(one.kind, one.parts)}


def written(answers: Iterable[Written], form: str, crs: Optional[str], is_one: bool) -> bytes:
    """The bytes of an answer: of one geometry alone, or of features."""
    all_of = list(answers)
    if form == "geojson":
        value = geometry(all_of[0].kind, all_of[0].parts) if is_one else {"type": "FeatureCollection", "features": list(map(feature_of, all_of))}
        kind = {"type": value.pop("type")}
        return _line(json.dumps({**kind, **crs_member(crs), **value}))
    if form == "geojsonseq":
        return b"".join(_line(json.dumps(feature_of(it) if not is_one else {"type": "Feature", "properties": {}, **feature_of(it)})) for it in all_of)
    if form == "wkt":
        return b"".join(_line(as_wkt(it.kind, it.parts, crs)) for it in all_of)
    found = [as_wkb(it.kind, it.parts, crs) for it in all_of]
    return b"".join(found) if form == "wkb" else b"".join(_line(it.hex().upper()) for it in found)


def _line(text: str) -> bytes:
    return text.encode() + b"\n"
