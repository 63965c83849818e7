"""Files of all formats that GDAL reads and writes, as GeoPackage and Shapefile, where GDAL's Python module is installed."""
from __future__ import annotations

import pathlib
from typing import Any, Iterable, Optional

from . import geometries
from .geometries import Layer, Malformed, Wkb, Written

MISSING = "GDAL's Python module is not installed (Debian: apt-get install python3-gdal; conda: conda install gdal; pip: pip install gdal)"


def _modules(name: str) -> Any:
    try:
        from osgeo import gdal, ogr, osr
    except ImportError:
        raise Malformed(f"{name}: this is no GeoJSON, WKT or WKB, and {MISSING}") from None
    gdal.UseExceptions()
    ogr.UseExceptions()
    osr.UseExceptions()
    return gdal, ogr, osr


def read(path: str, are_lines: bool, wanted: Optional[str] = None) -> Layer:
    """The layer of a file, which has one, or has one of the wanted name."""
    gdal, ogr, osr = _modules(path)
    try:
        source = gdal.OpenEx(path, gdal.OF_VECTOR | gdal.OF_READONLY)
        names = [source.GetLayer(at).GetName() for at in range(source.GetLayerCount())]
        if wanted is None and len(names) != 1:
            raise Malformed(f"{path}: it has {len(names)} layers, and one is to be named: {', '.join(names)}")
        if wanted is not None and wanted not in names:
            raise Malformed(f"{path}: no layer is called {wanted}; there are: {', '.join(names)}")
        found = source.GetLayerByName(wanted or names[0])
        layer = Layer(path, source.GetDriver().ShortName)
        layer.crs = _crs_of(found.GetSpatialRef())
        for feature in found:
            parts: list = []
            where = f"{path}, feature {feature.GetFID()}"
            shape = feature.GetGeometryRef()
            if shape is not None and not shape.IsEmpty():
                if shape.HasCurveGeometry():
                    raise Malformed(f"{where}: {shape.GetGeometryName()} has curves; ogr2ogr -nlt CONVERT_TO_LINEAR makes lines of them")
                reader = Wkb(layer, are_lines)
                reader.all, reader.at = bytes(shape.ExportToIsoWkb()), 0
                reader.geometry(where, parts)
            properties = {name: _value(value) for name, value in feature.items().items()}
            layer.features.append(geometries.Feature(parts, properties))
        return layer
    except RuntimeError as fault:
        raise Malformed(f"{path}: {_first_line(fault)}") from fault


def _first_line(fault: Exception) -> str:
    return (str(fault).strip().splitlines() or ["GDAL refused it"])[0]


def _value(value: Any) -> Any:
    """A field's value as JSON has it."""
    return value if value is None or isinstance(value, (bool, int, float, str, list)) else str(value)


def _crs_of(system: Any) -> Optional[str]:
    if system is None:
        return None
    name, code = system.GetAuthorityName(None), system.GetAuthorityCode(None)
    return f"{name}:{code}" if name and code else system.ExportToWkt()


def are_alike(a: str, b: str) -> bool:
    """Whether two texts are of one reference system, also where only GDAL can tell."""
    if geometries.are_alike(a, b):
        return True
    try:
        _, _, osr = _modules("")
        systems = [osr.SpatialReference(), osr.SpatialReference()]
        for system, text in zip(systems, (a, b)):
            system.SetFromUserInput(text)
        return bool(systems[0].IsSame(systems[1]))
    except (Malformed, RuntimeError):
        return False


# ---- writing


def write(path: str, answers: Iterable[Written], crs: Optional[str]) -> None:
    """Writes features to a new file, whose ending tells the format."""
    gdal, ogr, osr = _modules(path)
    ending = pathlib.Path(path).suffix[1:].lower()
    drivers = [gdal.GetDriver(at) for at in range(gdal.GetDriverCount())]
    fit = [it for it in drivers if it.GetMetadataItem(gdal.DCAP_VECTOR) and it.GetMetadataItem(gdal.DCAP_CREATE)
           and ending in (it.GetMetadataItem(gdal.DMD_EXTENSIONS) or "").lower().split()]
    if not ending or not fit:
        raise Malformed(f"{path}: GDAL writes no format whose files end so")
    answers = list(answers)
    try:
        system = None
        if crs is not None:
            system = osr.SpatialReference()
            system.SetFromUserInput("EPSG:4326" if crs == "OGC:CRS84" else crs)
            system.SetAxisMappingStrategy(osr.OAMS_TRADITIONAL_GIS_ORDER)
        kinds = {f"Multi{it.kind.replace('Multi', '')}" for it in answers} or {"MultiPolygon"}
        target = fit[0].Create(path, 0, 0, 0, gdal.GDT_Unknown)
        layer = target.CreateLayer(pathlib.Path(path).stem, system, getattr(ogr, f"wkb{kinds.pop()}"))
        fields = _fields(answers, ogr)
        for name, kind in fields.items():
            layer.CreateField(ogr.FieldDefn(name, kind))
        for one in answers:
            feature = ogr.Feature(layer.GetLayerDefn())
            # (a format may shorten names, and so fields are told by their places)
            for at, (name, kind) in enumerate(fields.items()):
                value = one.properties.get(name)
                if value is not None:
                    feature.SetField(at, _text(value) if kind == ogr.OFTString else value)
            kind, parts = (one.kind, one.parts) if one.kind.startswith("Multi") else (f"Multi{one.kind}", [one.parts])
            feature.SetGeometry(ogr.CreateGeometryFromWkb(geometries.as_wkb(kind, parts)))
            layer.CreateFeature(feature)
        # (what can't be written is told now, and not when they are let go)
        layer.SyncToDisk()
        target.FlushCache()
        del layer, target
    except RuntimeError as fault:
        raise Malformed(f"{path}: {_first_line(fault)}") from fault


def _text(value: Any) -> str:
    return value if isinstance(value, str) else str(value)


def _fields(answers: list, ogr: Any) -> dict:
    """The names of all properties, each with what kind of field holds them."""
    fields: dict = {}
    for one in answers:
        for name, value in one.properties.items():
            kind = ogr.OFTString
            if isinstance(value, (int, float)) and not isinstance(value, bool):
                kind = ogr.OFTInteger64 if isinstance(value, int) else ogr.OFTReal
            known = fields.get(name)
            if value is None:
                fields.setdefault(name, None)
            elif known is None or known == kind:
                fields[name] = kind
            else:
                fields[name] = ogr.OFTReal if {known, kind} == {ogr.OFTInteger64, ogr.OFTReal} else ogr.OFTString
    return {name: ogr.OFTString if kind is None else kind for name, kind in fields.items()}
