"""Looking at what a tile answers, or at what was united.

A shape is final unless it stands on a border that is open, or shares a corner with such a shape, or with one that does. Shapes that are held
together so are a cluster. Of a cluster that may be united nothing is handed in but the outlines and the holes that share a corner with another
contour, loop by loop. All other holes are set aside, by the area in which they lie: nothing outside of them changes them.

Beside the answer there are left: .final, the shapes that are final, as they are answered; .held, those of each cluster; .open, the loops of
each cluster, with the number of their area; .aside, the holes that are set aside, area by area and by rising least points.
"""
import array
import dataclasses
import re
import typing

from .loops import areas_of, loops_of, way
from .script import shapes_in

PAIR = re.compile(rb"[^ ]+ [^ ]+")


@dataclasses.dataclass
class Given:
    """Whether outlines run clockwise; what was taken from all coordinates; the two x and the two y of open borders, None of one that isn't. Of what was
    united: the x and the y of the borders that were open; where its loops are, with the number of the first area of their file; and by which number areas are
    asked for that have holes set aside."""

    clockwise: bool
    move: tuple = (0, 0)
    xs: tuple = (None, None)
    ys: tuple = (None, None)
    joined: tuple = ((), ())
    loops: tuple = ()
    roots: dict = dataclasses.field(default_factory=dict)


class Looked(typing.NamedTuple):
    """How many shapes are final. Of each cluster: where its loops begin and end, how many points these have, where its shapes begin and end, its box, and its
    first area. Of each area: its cluster, where the holes that are set aside begin and end, and how many they are. For the left, right, bottom and
    top, where they are open, of each stretch there: its ends, and its area. Of areas that were asked for: which area it is now and the place of its shape in the
    cluster, or the number of its final shape."""

    shapes: int
    clusters: array.array | list
    areas: array.array | list
    stretches: list
    areas_now: dict
    places_now: dict
    shapes_now: dict


CLUSTER, AREA, STRETCH = 10, 4, 3  # numbers of each


def turned(line, place):
    """A contour with its least point at a place, 0 or 1, as if it were handed back; and that point."""
    a, b, c, d, *_ = line.split(b" ", 4)
    one, other = (int(a), int(b)), (int(c), int(d))
    if (one < other) == (place == 0):
        return line, min(one, other)
    if place == 0:
        x, y, rest = line.split(b" ", 2)
        return b"%s %s %s" % (rest, x, y), other
    rest, x, y = line.rsplit(b" ", 2)
    return b"%s %s %s" % (x, y, rest), one


def moved(line, move):
    x, y = move
    numbers = list(map(int, line.split(b" ")))
    numbers[::2] = [u + x for u in numbers[::2]]
    numbers[1::2] = [v + y for v in numbers[1::2]]
    return " ".join(map(str, numbers)).encode()


def points_of(line, clockwise):
    """The points of a contour, with what is filled on its left."""
    numbers = list(map(int, line.split(b" ")))
    points = list(zip(numbers[::2], numbers[1::2]))
    return points[::-1] if clockwise else points


def clusters_of(shapes, xs, ys):
    """The shapes of each cluster that stands on an open border, and which contours share a corner with another one: the shape, and its place there."""
    xs, ys = ({b"%d" % z for z in lines if z is not None} for lines in (xs, ys))
    touch = []
    for k, shape in enumerate(shapes):
        words = shape[0].split(b" ")
        if not xs.isdisjoint(words[::2]) or not ys.isdisjoint(words[1::2]):
            touch.append(k)
    if not touch:
        return [], set()
    seen, double = set(), set()
    for shape in shapes:
        for line in shape:
            corners = set(PAIR.findall(line))
            double |= corners & seen
            seen |= corners
    del seen
    sharing, first, parent = set(), {}, list(range(len(shapes)))

    def find(k):
        while parent[k] != k:
            parent[k] = parent[parent[k]]
            k = parent[k]
        return k

    for k, shape in enumerate(shapes if double else ()):
        for place, line in enumerate(shape):
            for corner in double.intersection(PAIR.findall(line)):
                sharing.add((k, place))
                parent[find(k)] = find(first.setdefault(corner, k))
    clusters = {find(k): [] for k in touch}
    for k in range(len(shapes)):
        if find(k) in clusters:
            clusters[find(k)].append(k)
    return sorted(clusters.values()), sharing


class Look:
    """What is made of one answer."""

    def __init__(self, given, answer):
        self.given, self.answer = given, answer
        self.places = (0, 1) if given.clockwise else (1, 0)  # of the least points of outlines and of holes
        # (coordinates that were moved may have any size)
        self.clusters, self.areas, *self.stretches = (array.array("q") if given.move == (0, 0) else [] for _ in range(6))
        self.areas_now, self.places_now, self.shapes_now = {}, {}, {}
        self.keys = self.keys_of()
        self.corners = {corner for corner, _ in self.keys}

    def keys_of(self):
        """By corners and the ways on which loops leave them: which area is asked for. A corner off the borders that were open is still one: any of them tells
        the area. Of an area that has none all corners are kept."""
        keys, told, (xs, ys) = {}, set(), self.given.joined
        for path, begin, end, base in self.given.loops if self.given.roots else ():
            with open(path, "rb") as file:
                file.seek(begin)
                for line in file.read(end - begin).splitlines():
                    area, _, loop = line.partition(b" ")
                    root = self.given.roots.get(base + int(area))
                    if root is not None and root not in told:
                        steps = list(self.steps_of(points_of(loop, False)))
                        own = next((step for step in steps if step[0][0] not in xs and step[0][1] not in ys), None)
                        if own is None:
                            keys.update((step, root) for step in steps)
                        else:
                            keys[own] = root
                            told.add(root)
        return keys

    @staticmethod
    def steps_of(points):
        return zip(points, map(way, points, points[1:] + points[:1]))

    def meet(self, points, found, number):
        """Notes by a number which areas that are asked for have this contour."""
        if not self.corners.isdisjoint(points):
            for step in self.steps_of(points):
                root = self.keys.get(step)
                if root is not None:
                    found[root] = number

    def written(self, shape):
        lines = [turned(line, self.places[k > 0])[0] for k, line in enumerate(shape)]
        return b"shape %d\n%s" % (len(lines), b"".join(b"contour %s\n" % line for line in lines))

    def look(self, shapes):
        clusters, sharing = clusters_of(shapes, self.given.xs, self.given.ys)
        clustered = {k for cluster in clusters for k in cluster}
        number = 0
        with open(f"{self.answer}.final", "wb") as final:
            for k, shape in enumerate(shapes):
                if k not in clustered:
                    final.write(self.written(shape))
                    for line in shape if self.keys else ():
                        self.meet(points_of(line, self.given.clockwise), self.shapes_now, number)
                    number += 1
        if clusters:
            with open(f"{self.answer}.held", "wb") as held, open(f"{self.answer}.open", "wb") as loops, open(f"{self.answer}.aside", "wb") as aside:
                for cluster in clusters:
                    self.take(cluster, shapes, sharing, held, loops, aside)
        return Looked(number, self.clusters, self.areas, self.stretches, self.areas_now, self.places_now, self.shapes_now)

    def take(self, cluster, shapes, sharing, held, loops, aside):
        """Leaves a cluster."""
        text = b"".join(self.written(shapes[k]) for k in cluster)
        handed, left = [], []
        for shape, k in enumerate(cluster):
            for place, line in enumerate(shapes[k]):
                is_handed = place == 0 or (k, place) in sharing
                points = points_of(line, self.given.clockwise) if is_handed or self.keys else ()
                self.meet(points, self.places_now, shape)
                if is_handed:
                    handed.append(points)
                else:
                    left.append((points, *turned(line, self.places[1])))
        handed = loops_of(handed)
        numbers, round_them, count = areas_of(handed, [least for *_, least in left])
        first = len(self.areas) // AREA
        begin, held_begin = loops.tell(), held.tell()
        held.write(text)
        for loop, area in zip(handed, numbers):
            loops.write(b"%d %s\n" % (first + area, " ".join(f"{x} {y}" for x, y in loop).encode()))
            self.reach(loop, first + area)
            self.meet(loop, self.areas_now, first + area)
        xs, ys = ([point[k] for loop in handed for point in loop] for k in (0, 1))
        box = min(xs), min(ys), max(xs), max(ys)
        self.clusters.extend((begin, loops.tell(), len(xs), held_begin, held.tell(), *box, first))
        of = [[] for _ in range(count)]
        for area, (points, line, least) in zip(round_them, left):
            of[area].append((least, line))
            self.meet(points, self.areas_now, first + area)
        for holes in of:
            place = aside.tell()
            aside.write(b"".join(b"contour %s\n" % line for _, line in sorted(holes)))
            self.areas.extend((len(self.clusters) // CLUSTER - 1, place, aside.tell(), len(holes)))

    def reach(self, loop, area):
        """Notes the stretches of a loop on open borders."""
        xs, ys = self.given.xs, self.given.ys
        for u, v in zip(loop, loop[1:] + loop[:1]):
            if u[0] == v[0]:
                if u[0] in xs:
                    self.stretches[xs.index(u[0])].extend((min(u[1], v[1]), max(u[1], v[1]), area))
            elif u[1] in ys:
                self.stretches[2 + ys.index(u[1])].extend((min(u[0], v[0]), max(u[0], v[0]), area))


def look_at(job):
    """Looks at the answer of a tile, or at what was united."""
    text = job.told()
    shapes = None if text is None else shapes_in(text, job.contours)
    if shapes is None:
        return None
    del text
    if job.given.move != (0, 0):
        shapes = [[moved(line, job.given.move) for line in shape] for shape in shapes]
    return Look(job.given, job.answer).look(shapes)
