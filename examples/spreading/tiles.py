"""The other way to part a map, for horizontal and vertical edges alone: tiles, answered one by one and united.

First the script is read: its lines are looked at, and its points counted. Then it is split by tiles, each tile is answered, and what meets on
borders is united: within each strip, which is a column of tiles, and then between strips. What is printed is what a second run prints to which the
answer of one run is handed back.
"""
import collections
import hashlib
import itertools
import json
import pathlib
import sys
import time

from .engines import Job, Pieces, Progress, in_turn, memory_told
from .grid import Counts, even_grid, joint_box, limits_within, weighed_grid
from .levels import Levels, answered
from .look import Given
from .script import Refused, overlay_of, parts_of, write_taken
from .split import count_part, split_part
from .unite import Lines, settle, write_shapes


class TileProgress(Progress):
    """How much was read, how many tiles and strips are done, and how long what is being done will take at its pace so far."""

    def __init__(self, options, size):
        super().__init__(options)
        self.size, self.read, self.edges, self.most = size, 0, 0, 0  # (the most points that are asked at a time)
        self.tiles, self.strips, self.ending, self.left = None, None, set(), collections.Counter()
        self.start(2 * size)

    def start(self, whole):
        self.begun, self.done, self.whole = time.monotonic(), 0, whole

    def pass_by(self, much):
        """So much more is done."""
        self.done += much
        self.tell(self.text())

    def begin_level(self, strips, ending, asked):
        """Some of all strips end on this level, and something is asked of some."""
        self.strips, self.ending = [len(ending - asked), strips], ending

    def begin(self, jobs):
        self.start(sum(job.points for job in jobs))
        self.left = collections.Counter(job.strip for job in jobs)
        self.tell(self.text(), is_first=True)

    def add(self, job):
        self.left[job.strip] -= 1
        if self.strips is None:
            self.tiles[0] += 1
        elif job.strip in self.ending and not self.left[job.strip]:
            self.strips[0] += 1
        self.pass_by(job.points)

    def finish(self):
        """All that was asked for is answered."""
        self.tiles[0] = self.tiles[1]
        if self.strips:
            self.strips[0] = len(self.ending)

    def end(self):
        self.done = 0
        self.tell(self.text(), is_last=True)

    def text(self):
        told = [f"{self.edges:,} of about {self.edges * self.size // max(1, self.read):,} edges read"]
        told.extend("%d of %d %s" % (*done, name) for done, name in ((self.tiles, "tiles"), (self.strips, "strips")) if done)
        if self.done:
            left = (time.monotonic() - self.begun) * (self.whole - self.done) / self.done
            told.append(f"{left / 60:.0f} min left" if left >= 90 else f"{left:.0f} s left")
        return ", ".join(told)


# ---- reading and splitting


def read_counts(script, parts, folder, pool, progress, options):
    """The box of all points of the script, the counts of them where they are wanted, and how many contours it has."""
    box, counts, contours, before = None, None, 0, 1
    kept = [f"{folder}/{number}.count" for number in range(len(parts))]
    asked = itertools.repeat(script), *zip(*parts), kept, itertools.repeat(options.tiles is None)
    for (begin, end), part in zip(parts, in_turn(pool, 2 * options.processes, count_part, *asked)):
        if part["wrong"] is not None:
            number, why = part["wrong"]
            raise Refused(f"line {before + number} {why}")
        before += part["lines"]
        contours += part["contours"]
        if part["box"] is not None:
            box = joint_box((box or part["box"], part["box"]))
        if part["cells"] is not None:
            found = Counts(part["box"], part["shift"], part["cells"])
            counts = found if counts is None else counts.joined(found)
        progress.read += end - begin
        progress.edges += part["points"]
        progress.pass_by(end - begin)
    return box, counts, contours


class Tile:
    """What a tile is asked: in pieces of the parts' files, so many contours, with so many points."""

    def __init__(self):
        self.pieces, self.contours, self.points = Pieces(), 0, 0


def split_script(script, parts, grid, folder, pool, progress, processes):
    """What is asked of each tile that has something."""
    tiles = [Tile() for _ in grid.boxes]
    cuts = hashlib.sha256(json.dumps([grid.xs, grid.columns, grid.is_moved, grid.reach]).encode()).hexdigest()
    kept = [f"{folder}/{number}.part" for number in range(len(parts))]
    asked = itertools.repeat(script), *zip(*parts), itertools.repeat(grid), itertools.repeat(cuts), kept
    for (begin, end), path, rows in zip(parts, kept, in_turn(pool, 2 * processes, split_part, *asked)):
        for number, first, after, contours, points in rows:
            tiles[number].pieces.add(path, first, after)
            tiles[number].contours += contours
            tiles[number].points += points
        progress.pass_by(end - begin)
    return {number: tile for number, tile in enumerate(tiles) if tile.contours}


def lines_of(number, parts, folder):
    """The lines of a tile's contours, as a text."""
    told, before = [], 1
    for part in range(len(parts)):
        places = json.loads(pathlib.Path(f"{folder}/{part}.part.places").read_text())["found"]
        told.extend((before + first, before + last) for first, last in places.get(str(number), ()))
        before += json.loads(pathlib.Path(f"{folder}/{part}.count").read_text())["found"]["lines"]
    rows = [f"{first} to {last}" if first < last else f"{first}" for first, last in told]
    return ", ".join(rows[:50]) + (f" and {len(rows) - 50} more" if len(rows) > 50 else "")


# ---- tiles and strips


def asked_of(number, grid, overlay, change):
    """What a tile is asked: the overlay, and what becomes of the mask that it makes."""
    if change is None:
        return overlay
    (x0, y0, x1, y1), (x, y) = grid.boxes[number], grid.move(number)
    return b"\n".join([b"tile %d %d %d %d" % (x0 - x, y0 - y, x1 - x, y1 - y), *change.lines(), overlay])


def tile_jobs(tiles, grid, overlay, folder, is_cut, change):
    """The job of each tile. Its borders are open where another tile stands beyond."""
    clockwise, jobs = b" cw " in overlay, []
    for number, tile in tiles.items():
        column = grid.column_of(number)
        row, rows = number - grid.first[column], grid.columns[column]
        x0, y0, x1, y1 = grid.boxes[number]
        xs = (x0 if column else None, x1 if column < len(grid.columns) - 1 else None)
        ys = (y0 if row else None, y1 if row < len(rows) - 2 else None)
        given = Given(clockwise, grid.move(number)) if is_cut else Given(clockwise, grid.move(number), xs, ys)
        jobs.append(Job(f"{folder}/{number}.answer", tile.pieces, asked_of(number, grid, overlay, change), tile.contours, given, tile.points))
    return jobs


def united(options, jobs, found, tiles, grid, overlay, folder, pool, progress):
    """What all tiles answer, united."""
    levels, strips = Levels(options, grid, overlay, folder, pool, progress), [[] for _ in grid.columns]
    for number, job, looked in zip(tiles, jobs, found):
        strips[grid.column_of(number)].append(levels.tile(job, looked))
    levels.unite(strips)
    return levels.union


def files_of(union, pool):
    """The files in which all shapes are, each by rising least points: how many, and which get holes that were set aside."""
    files = [(f"{source.path}.final", source.shapes, source.holes) for source in union.sources]
    alone = list(union.alone())
    more = pool.map(settle, *zip(*alone)) if alone else ()
    return files + [(f"{path}.more", *settled) for (path, _), settled in zip(alone, more)]


def spread_tiles(options, script, folder, pool, told):
    times = [time.monotonic()]
    overlay, size = overlay_of(script)
    overlay = overlay.rstrip(b"\r")
    if overlay.endswith(b"points"):
        raise Refused("tiles answer corners alone")
    for name in ("parts", "tiles"):
        (folder / name).mkdir(exist_ok=True)
    parts, progress = parts_of(script, size), TileProgress(options, size)
    box, counts, contours = read_counts(script, parts, folder / "parts", pool, progress, options)
    times.append(time.monotonic())
    tiles, files, grid = {}, [], None
    if box is not None and box[0] < box[2] and box[1] < box[3]:
        reach = options.change.reach() if options.change else 0
        limits = limits_within(options.limits, reach)
        if options.tiles is None:
            grid = weighed_grid(counts, options.tile_edges, limits)
        else:
            grid = even_grid(box, *options.tiles, limits)
        grid = grid.grown(reach, options.limits) if reach else grid
        tiles = split_script(script, parts, grid, folder / "parts", pool, progress, options.processes)
    times.append(time.monotonic())
    if tiles:
        jobs = tile_jobs(tiles, grid, overlay, folder / "tiles", options.cut, options.change)
        number_of = dict(zip((job.answer for job in jobs), tiles))

        def fault(job):
            box = grid.boxes[number_of[job.answer]]
            lines = lines_of(number_of[job.answer], parts, folder / "parts")
            return f"a tile was not answered, that from {box[0]} {box[1]} to {box[2]} {box[3]}, with the contours of the lines {lines}"

        progress.tiles = [0, len(jobs)]
        found = answered(options, jobs, pool, progress, fault)
        times.append(time.monotonic())
        if options.cut:
            files = [(f"{job.answer}.final", looked.shapes, {}) for job, looked in zip(jobs, found)]
        else:
            files = files_of(united(options, jobs, found, tiles, grid, overlay, folder / "united", pool, progress), pool)
        times.append(time.monotonic())
    progress.end()
    write_taken(contours, told)
    told.write(b"shapes %d\n" % sum(count for _, count, _ in files))
    if options.cut:
        for path, *_ in files:
            told.writelines(Lines(path))
    else:
        write_shapes(files, told)
    told.flush()
    times.append(time.monotonic())
    if options.times:
        names = ("read", "split", "answered", "united", "written") if tiles else ("read", "split", "written")
        spent = ", ".join(f"{name} in {end - begin:.2f} s" for name, begin, end in zip(names, times, times[1:]))
        print(f"{contours} contours, {progress.edges} edges, {len(tiles)} tiles, at most {progress.most} points at a time: {spent}{memory_told()}", file=sys.stderr)
