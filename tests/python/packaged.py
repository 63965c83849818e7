#!/usr/bin/env python3
"""The package as one installs it: a wheel with the library in it, what it says of itself, and its hints of types.

usage: packaged.py      with the library in BAPYERU_LIBRARY; the last line is 'N passed, M failed'
"""
import os
import pathlib
import re
import shutil
import subprocess
import sys
import tempfile
import zipfile

from told import ROOT, end, module_of, tell  # (first: it tells where the package stands)

import bapyeru

USE = """
import bapyeru, pathlib, sys
assert pathlib.Path(bapyeru.__file__).is_relative_to(sys.argv[1]), bapyeru.__file__
print(bapyeru.__version__, bapyeru.overlay([[(0, 0), (2, 0), (2, 2), (0, 2)]], [[(1, 0), (3, 0), (3, 2), (1, 2)]], "intersection"))
"""
TYPED = """
import bapyeru
shapes: list[list[list[tuple[int, int]]]] = bapyeru.overlay([[(0, 0), (2, 0), (2, 2)]], fill="evenodd", depth=1)
flat: bapyeru.FlatShapes = bapyeru.overlay(bapyeru.Flat([0, 0, 2, 0, 2, 2], [3]), flat=True)
many: list[list[list[list[tuple[int, int]]]]] = bapyeru.overlays([], [flat])
inside: list[bool] = bapyeru.contains_points(flat, [(1, 1)])
related: bool = bapyeru.relate(flat, flat).within
pieces: dict[str, object] = bapyeru.overlay_layers([], [], "union", factor=10)
"""
TOLD = "1.0.0 [[[(1, 2), (1, 0), (2, 0), (2, 2)]]]\n"


def ran(*words, **how):
    return subprocess.run([sys.executable, *map(str, words)], stdout=subprocess.PIPE, stderr=subprocess.STDOUT, text=True, timeout=120, **how)


def main(folder):
    project = folder / "project"
    shutil.copytree(ROOT / "python", project, ignore=shutil.ignore_patterns("__pycache__", "*.so", "build", "*.egg-info"))
    told = re.search(r'^version = "(.+)"$', (project / "pyproject.toml").read_text(), re.M)
    tell("one version", told is not None and told[1] == bapyeru.__version__ == (ROOT / "VERSION").read_text().strip())
    tell("a text for everything public", all(getattr(bapyeru, name).__doc__ for name in bapyeru.__all__ if callable(getattr(bapyeru, name))))
    tell("the names that there are", all(hasattr(bapyeru, name) for name in bapyeru.__all__))
    options = ("depth", "strategy", "precision", "clockwise", "keep_given_points", "keep_points", "part_contours", "least_area", "flat")
    tell("a text for each option", all(re.search(rf"^\s+{name}: ", bapyeru.overlay.__doc__ or "", re.M) for name in options))
    shutil.copy2(os.environ["BAPYERU_LIBRARY"], project / "bapyeru/libpolygon_c.so")
    alone = {name: value for name, value in os.environ.items() if name not in ("BAPYERU_LIBRARY", "PYTHONPATH")}
    done = ran("-c", USE, project, cwd=folder, env={**alone, "PYTHONPATH": str(project)})
    tell(f"the library beside the module: {done.stdout}", done.stdout == TOLD)
    wheels(folder, project, alone)
    types(folder, project)


def wheels(folder, project, alone):
    if module_of("wheel", "a wheel") is None or module_of("setuptools", "a wheel") is None:
        return
    done = ran("-m", "pip", "wheel", "--no-deps", "--no-build-isolation", "--no-index", "-w", folder, project, env=alone)
    made = list(folder.glob("*.whl"))
    if not made and "No module named pip" in done.stdout:
        print("skipped: a wheel, since pip isn't installed")
        return
    tell(f"a wheel: {done.stdout[-1000:]}", [it.name for it in made] == ["bapyeru-1.0.0-py3-none-linux_x86_64.whl"])
    for wheel in made:
        names = set(zipfile.ZipFile(wheel).namelist())
        tell(f"what it has: {names}", {"bapyeru/__init__.py", "bapyeru/py.typed", "bapyeru/libpolygon_c.so", "bapyeru/geo.py"} <= names)
        place = folder / "installed"
        done = ran("-m", "pip", "install", "--no-deps", "--no-index", "--target", place, wheel, env=alone)
        tell(f"it is installed: {done.stdout[-1000:]}", done.returncode == 0)
        done = ran("-c", USE, place, cwd=folder, env={**alone, "PYTHONPATH": str(place)})
        tell(f"and called: {done.stdout}", done.stdout == TOLD)
        done = ran("-m", "bapyeru.geo", "union", "-", cwd=folder, env={**alone, "PYTHONPATH": str(place)}, input="POLYGON ((0 0, 1 0, 1 1, 0 0))")
        tell(f"its command line: {done.stdout}", done.returncode == 0 and "MULTIPOLYGON (((" in done.stdout)


def types(folder, project):
    if module_of("mypy", "hints of types") is None:
        return
    (folder / "typed.py").write_text(TYPED)
    how = {"cwd": folder, "env": {**os.environ, "MYPYPATH": str(project)}}
    done = ran("-m", "mypy", "--strict", "--cache-dir", folder / "cache", folder / "typed.py", "--follow-imports=silent", **how)
    tell(f"hints of types for callers: {done.stdout}", done.returncode == 0)
    done = ran("-m", "mypy", "--ignore-missing-imports", "--cache-dir", folder / "cache", project / "bapyeru", **how)
    tell(f"hints of types within: {done.stdout}", done.returncode == 0)


if __name__ == "__main__":
    with tempfile.TemporaryDirectory() as room:
        main(pathlib.Path(room))
    sys.exit(end())
