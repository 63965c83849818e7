"""One way to part a map: groups of contours whose boxes share no point.

Grouping is a sweep over the boxes by rising x. Its status is the rows (intervals of y) that are taken at the sweep's x, no two of
which share a point; a box joins what it meets. What was grouped takes more room than its parts and may meet others again, so the
sweep runs until nothing joins: n log n each time, as a rule two or three times. After the 64th time a last sweep joins what shares a
column, which always ends. Contours that follow each other in the script with boxes that meet are joined while it is read, and of such a
run only its box and its place in the script are kept. Parts of the script are read and grouped side by side, and then their groups.
"""
import array
import bisect
import itertools
import mmap
import re
import sys
import time

from .engines import BatchProgress, Job, Pieces, answer_all, memory_told
from .script import PLAIN, WIDE, WIDTH, Refused, boxes_of, ends_of, lines_in, numbers_of, overlay_of, parts_of, read_lines, write_taken

OUTLINE = re.compile(rb"^shape ([0-9]+)\ncontour (.*)$", re.MULTILINE)
MOST_SWEEPS = 64
MOST_BATCHES = 500


# ---- the script


class Runs:
    """Contours that follow each other in the script, each with a box that shares a point with that of those before it. Of each run its
    box, how many contours and points it has, where it begins and ends in the script, and its first and last line. Runs may be grouped:
    each has a leader, and the box of a leader is that of its group."""

    NAMES = "x0 y0 x1 y1 contours points begin end first last".split()

    def __init__(self):
        for name in self.NAMES:
            setattr(self, name, array.array("q"))
        self.leader = array.array("q")

    def __len__(self):
        return len(self.points)

    def boxes(self):
        return zip(self.x0, self.y0, self.x1, self.y1)

    def extend(self, other):
        self.leader.extend(len(self) + k for k in other.leader)
        for name in self.NAMES:
            getattr(self, name).extend(getattr(other, name))

    @classmethod
    def of(cls, rows):
        """Runs, each given by its numbers in the order of the names; none are grouped."""
        runs = cls()
        for name, column in zip(cls.NAMES, zip(*rows)):
            setattr(runs, name, array.array("q", column))
        runs.leader = array.array("q", range(len(rows)))
        return runs

    def take(self, groups):
        """Takes over which runs are grouped."""
        self.leader = array.array("q", map(groups.find, range(len(self))))
        for k, box in groups.boxes.items():
            self.x0[k], self.y0[k], self.x1[k], self.y1[k] = box


def read_part(path, begin, end, limits):
    """Of a part of the script that begins with a line, and has contours alone: its runs, how many lines there are, and what is wrong
    with which line. Lines are counted from 0."""
    text, lines = lines_in(path, begin, end)
    boxes, (least, greatest) = None if text.translate(None, PLAIN) else boxes_of(lines), limits
    if boxes is not None and lines and min(min(boxes[0]), min(boxes[1])) >= least and max(max(boxes[2]), max(boxes[3])) <= greatest:
        places = list(itertools.accumulate((len(line) + 1 for line in lines), initial=begin))
        rows = zip(*boxes, range(len(lines)), places, places[1:])
    else:
        rows, wrong = read_lines(lines, begin, limits)
        if wrong is not None:
            return Runs(), rows, wrong
    found = []
    x0 = y0 = x1 = y1 = contours = points = first_place = first = run_end = last = 0
    for left, bottom, right, top, count, number, place, after in rows:
        if contours and left <= x1 and x0 <= right and bottom <= y1 and y0 <= top:
            x0, y0, x1, y1 = min(x0, left), min(y0, bottom), max(x1, right), max(y1, top)
            contours += 1
            points += count
        else:
            if contours:
                found.append((x0, y0, x1, y1, contours, points, first_place, run_end, first, last))
            x0, y0, x1, y1, contours, points, first_place, first = left, bottom, right, top, 1, count, place, number
        run_end, last = after, number
    if contours:
        found.append((x0, y0, x1, y1, contours, points, first_place, min(run_end, end), first, last))
    return Runs.of(found), len(lines), None


def read_script(path, pool, limits):
    """All runs of the script, and its overlay line. Parts of it are read and grouped side by side."""
    overlay, size = overlay_of(path)
    parts = parts_of(path, size)
    runs, before = Runs(), 1
    for found, lines, wrong in pool.map(group_part, itertools.repeat(path), *zip(*parts), itertools.repeat(limits)) if parts else ():
        if wrong is not None:
            raise Refused(f"line {before + lines} {wrong}")
        for column in (found.first, found.last):
            column[:] = array.array("q", (before + line for line in column))
        runs.extend(found)
        before += lines
    return runs, overlay


# ---- groups


class Groups:
    """Which group each run is in, by a parent for each, and the box of each group."""

    def __init__(self, runs):
        self.parent = list(runs.leader)
        self.boxes = {k: box for k, box in enumerate(runs.boxes()) if self.parent[k] == k}

    def find(self, k):
        parent = self.parent
        while parent[k] != k:
            parent[k] = parent[parent[k]]
            k = parent[k]
        return k

    def join(self, k, m):
        """Makes one group of two, with the box of both."""
        x0, y0, x1, y1 = self.boxes.pop(m)
        a0, b0, a1, b1 = self.boxes[k]
        self.parent[m] = k
        self.boxes[k] = min(x0, a0), min(y0, b0), max(x1, a1), max(y1, b1)


def sweep(groups, by_columns):
    """Joins groups whose boxes share a point as the sweep meets them, or those that share a column. Whether any were joined."""
    boxes = groups.boxes
    before = len(boxes)
    lows, rows, most = [], [], 1024  # the rows that are taken, by rising y: where each begins, and its group; some have ended
    for k in sorted(boxes, key=boxes.__getitem__):
        x0, y0, _, y1 = boxes[k]
        if by_columns:
            y0, y1 = WIDE
        first = bisect.bisect_left(lows, y0)
        if first and boxes[rows[first - 1]][3] >= y0:
            first -= 1
        last = bisect.bisect_right(lows, y1, first)
        for m in rows[first:last]:
            if boxes[m][2] >= x0:
                groups.join(k, m)
        lows[first:last] = [y0 if by_columns else boxes[k][1]]
        rows[first:last] = [k]
        if len(rows) > most:
            rows = [m for m in rows if boxes[m][2] >= x0]
            lows = [boxes[m][1] for m in rows]
            most = 2 * len(rows) + 1024
    return len(boxes) < before


def group(runs):
    """The groups of runs: no two of their boxes share a point."""
    groups = Groups(runs)
    for _ in range(MOST_SWEEPS):
        if not sweep(groups, False):
            break
    else:
        sweep(groups, True)
    return groups


def group_part(path, begin, end, limits):
    """What is read of a part of the script, its runs in groups."""
    runs, lines, wrong = read_part(path, begin, end, limits)
    runs.take(group(runs))
    return runs, lines, wrong


def pack(runs, groups, edges):
    """The runs of each batch, in order of the script: whole groups, until a batch has so many edges."""
    edges = max(edges, sum(runs.points) // MOST_BATCHES)
    leaders = list(map(groups.find, range(len(runs))))
    held = dict.fromkeys(leaders, 0)
    for leader, points in zip(leaders, runs.points):
        held[leader] += points
    batches, size = [], edges
    for leader, points in held.items():
        if size >= edges:
            batches.append([])
            size = 0
        size += points
        held[leader] = batches[-1]
    for k, leader in enumerate(leaders):
        held[leader].append(k)
    return batches


# ---- batches


def look_at(job):
    """The shapes of an answer: the least point of each one's outline, as one number, and where its lines begin and end. None where it isn't
    whole."""
    text = job.told()
    if text is None:
        return None
    place = 3 * job.contours
    if text[:place] != b"ok\n" * job.contours or not text.endswith(b"\n"):
        return None
    head, _, body = text[place:].partition(b"\n")
    place += len(head) + 1
    first, *shapes = body.split(b"shape ")
    if first or head != b"shapes %d" % len(shapes):
        return None
    found = OUTLINE.findall(body)
    if len(found) != len(shapes) or any(int(count) != shape.count(b"\n") - 1 for (count, _), shape in zip(found, shapes)):
        return None
    rows = [outline for _, outline in found]
    ends = list(itertools.accumulate((len(shape) + 6 for shape in shapes), initial=place))
    counts = [row.count(b" ") + 1 for row in rows]
    numbers = numbers_of(rows, counts)
    if not isinstance(numbers, list) and len(numbers) and max(-numbers.min(), numbers.max()) > 2**24:  # (64 bits hold no number of such points)
        numbers = numbers.tolist()
    xs, ys = numbers[::2], numbers[1::2]
    keys = [x * WIDTH + y for x, y in zip(xs, ys)] if isinstance(numbers, list) else xs * WIDTH + ys
    return list(zip(ends_of(min, keys, [count // 2 for count in counts]), ends, ends[1:]))


def merge(jobs, answers, out):
    """The replies of one run: its contours are taken, and then all shapes come by least points."""
    write_taken(sum(job.contours for job in jobs), out)
    order = sorted((key, number, begin, end) for number, shapes in enumerate(answers) for key, begin, end in shapes)
    out.write(b"shapes %d\n" % len(order))
    texts = {}
    try:
        for number, (job, shapes) in enumerate(zip(jobs, answers)):
            if shapes:
                with open(job.answer, "rb") as told:
                    texts[number] = mmap.mmap(told.fileno(), 0, access=mmap.ACCESS_READ)
        for _, number, begin, end in order:
            out.write(texts[number][begin:end])
    finally:
        for text in texts.values():
            text.close()


def lines_of(runs, batch):
    """The lines of a batch's contours, as a text."""
    told = [f"{runs.first[k]} to {runs.last[k]}" if runs.first[k] < runs.last[k] else f"{runs.first[k]}" for k in batch]
    return ", ".join(told[:50]) + (f" and {len(told) - 50} more" if len(told) > 50 else "")


def spread_groups(options, script, folder, pool, told):
    begin = time.monotonic()
    runs, overlay = read_script(script, pool, options.limits)
    batches = pack(runs, group(runs), options.edges)
    jobs = []
    for number, batch in enumerate(batches):
        pieces = Pieces()
        for k in batch:
            pieces.add(script, runs.begin[k], runs.end[k])
        jobs.append(Job(str(folder / f"{number}.answer"), pieces, overlay, sum(runs.contours[k] for k in batch)))
    grouped = time.monotonic()
    answers = answer_all(options, jobs, pool, look_at, BatchProgress(options)) if jobs else []
    answered = time.monotonic()
    for batch, shapes in zip(batches, answers):
        if shapes is None:
            raise Refused(f"a batch was not answered, that of the contours of the lines {lines_of(runs, batch)}")
    merge(jobs, answers, told)
    told.flush()
    if options.times:
        ended = time.monotonic()
        print(
            f"{sum(runs.contours)} contours, {sum(runs.points)} edges, {len(batches)} batches: grouped in {grouped - begin:.2f} s, answered in"
            f" {answered - grouped:.2f} s, merged in {ended - answered:.2f} s{memory_told()}",
            file=sys.stderr,
        )
