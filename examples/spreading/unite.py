"""Uniting what tiles answer: which clusters go together, which areas are one, and in which order all shapes come.

Two clusters go together where their closed stretches on a border share a point, from whichever side and of whichever tiles along it: so do those across
a corner of four tiles. Two areas are one where stretches from both sides share more than a point. Clusters that go together are handed in
together, and of a batch that is united all pieces are of one strip, or of none: what crosses an open border straight has no corner there, and
would pass for final. A cluster alone is final where none of its borders is open any more.
"""
import array
import dataclasses
import heapq
import itertools
import pathlib

from .grid import joint_box
from .look import AREA, CLUSTER, STRETCH
from .script import LONGEST
from .split import lines_of


def find(parent, k):
    while parent[k] != k:
        parent[k] = parent[parent[k]]
        k = parent[k]
    return k


@dataclasses.dataclass
class Source:
    """What was looked at: its path, how many shapes are final, its clusters, the numbers of the first one and of the first area, and which shapes get
    holes that were set aside, with the places of these: of the final shapes, and of each cluster."""

    path: str
    shapes: int
    clusters: array.array | list
    cluster: int
    area: int
    holes: dict = dataclasses.field(default_factory=dict)
    held: dict = dataclasses.field(default_factory=dict)

    def row(self, cluster):
        """What is known of a cluster."""
        at = CLUSTER * (cluster - self.cluster)
        return self.clusters[at : at + CLUSTER]


@dataclasses.dataclass
class Batch:
    """Clusters that are handed in together, the box of all of them, and how many points they have."""

    clusters: list
    box: tuple
    points: int


class Union:
    """All clusters and areas, and which of them are one; and how wide what is united at a time may be."""

    def __init__(self, widest):
        self.widest = widest
        self.sources, self.source_of = [], array.array("q")
        self.cluster, self.area, self.cluster_of, self.is_united = (array.array("q") for _ in range(4))
        self.holes = {}  # of an area that stands for those that are one with it: files, where in them holes begin and end, and how many

    def take(self, path, looked):
        """Takes what was looked at, and gives its stretches."""
        source = Source(path, looked.shapes, looked.clusters, len(self.cluster), len(self.area))
        self.sources.append(source)
        many = len(looked.clusters) // CLUSTER
        self.source_of.extend([len(self.sources) - 1] * many)
        self.cluster.extend(range(source.cluster, source.cluster + many))
        self.is_united.extend([0] * many)
        rows = zip(*(looked.areas[k::AREA] for k in range(AREA)))
        for cluster, begin, end, count in rows:
            if count:
                self.holes[len(self.area)] = [(f"{path}.aside", begin, end, count)]
            self.area.append(len(self.area))
            self.cluster_of.append(source.cluster + cluster)
        for root, area in looked.areas_now.items():
            holes = self.holes.pop(root)
            self.holes.setdefault(source.area + area, []).extend(holes)
            source.held.setdefault(self.cluster_of[source.area + area], {}).setdefault(looked.places_now[root], []).extend(holes)
        for root, shape in looked.shapes_now.items():
            source.holes.setdefault(shape, []).extend(self.holes.pop(root))
        for stretches in looked.stretches:
            for k in range(2, len(stretches), STRETCH):
                stretches[k] += source.area
        return looked.stretches

    def join_clusters(self, one, other):
        self.cluster[find(self.cluster, other)] = find(self.cluster, one)

    def join_areas(self, one, other):
        one, other = find(self.area, one), find(self.area, other)
        if one != other:
            self.area[other] = one
            if other in self.holes:
                self.holes.setdefault(one, []).extend(self.holes.pop(other))

    def meet(self, one, other):
        """Joins what meets on a border: stretches from either side. All clusters that stand there."""
        one, other = (sorted(zip(*(stretches[k::STRETCH] for k in range(STRETCH)))) for stretches in (one, other))
        reach, last = None, None
        for least, greatest, area in heapq.merge(one, other):
            if reach is not None and least <= reach:
                self.join_clusters(self.cluster_of[last], self.cluster_of[area])
                reach = max(reach, greatest)
            else:
                reach = greatest
            last = area
        j = k = 0
        while j < len(one) and k < len(other):
            if max(one[j][0], other[k][0]) < min(one[j][1], other[k][1]):
                self.join_areas(one[j][2], other[k][2])
            if one[j][1] <= other[k][1]:
                j += 1
            else:
                k += 1
        return {self.cluster_of[area] for *_, area in itertools.chain(one, other)}

    def points(self, *borders):
        """How many points the clusters have that stand on borders."""
        clusters = {self.cluster_of[area] for stretches in borders for area in stretches[2::STRETCH]}
        return sum(self.sources[self.source_of[k]].row(k)[2] for k in clusters)

    def alone_in(self, stretches):
        """The numbers of stretches whose clusters were never united."""
        for k in range(0, len(stretches), STRETCH):
            if not self.is_united[self.cluster_of[stretches[k + 2]]]:
                yield from stretches[k : k + STRETCH]

    def groups(self, clusters):
        """The clusters that go together with others."""
        groups = {}
        for k in clusters:
            groups.setdefault(find(self.cluster, k), []).append(k)
        return [group for group in groups.values() if len(group) > 1]

    def is_too_large(self, box):
        return max(box[2] - box[0], box[3] - box[1]) > self.widest

    def batches(self, groups, edges):
        """Groups that are united together: until a batch has so many points, or is too large for the program. One that is too large alone is a batch."""
        batches = []
        for group in groups:
            rows = [self.sources[self.source_of[k]].row(k) for k in group]
            own = joint_box([row[5:9] for row in rows])
            if not batches or batches[-1].points >= edges or self.is_too_large(joint_box([batches[-1].box, own])):
                batches.append(Batch([], own, 0))
            batches[-1].clusters.extend(group)
            batches[-1].box = joint_box([batches[-1].box, own])
            batches[-1].points += sum(row[2] for row in rows)
        return batches

    def pieces(self, batch):
        """Where the loops of a batch are, with the first area of each file, and by which number areas are asked for that have holes set aside."""
        pieces, roots = [], {}
        for k in sorted(batch):
            self.is_united[k] = 1
            source = self.sources[self.source_of[k]]
            row = source.row(k)
            begin, end = row[:2]
            if pieces and pieces[-1][2:] == (begin, source.area):
                begin = pieces.pop()[1]
            pieces.append((f"{source.path}.open", begin, end, source.area))
            area = source.area + row[9]
            while area < len(self.area) and self.cluster_of[area] == k:
                root = find(self.area, area)
                if root in self.holes:
                    roots[area] = root
                area += 1
        return tuple(pieces), roots

    def alone(self):
        """The clusters that were never united, source by source: its path, where the clusters' shapes begin and end, and which get holes."""
        for source in self.sources:
            many = len(source.clusters) // CLUSTER
            clusters = [k for k in range(source.cluster, source.cluster + many) if not self.is_united[k]]
            if clusters:
                yield source.path, [(*source.row(k)[3:5], source.held.get(k, {})) for k in clusters]


def lay_batch(path, pieces, move):
    """Writes what is united: the lines of loops. How many they are, and how many bytes they have."""
    lines = []
    for file, begin, end, _ in pieces:
        with open(file, "rb") as loops:
            loops.seek(begin)
            for line in loops.read(end - begin).splitlines():
                loop = b"subject " + line.partition(b" ")[2]
                if move == (0, 0) and len(loop) <= LONGEST:
                    lines.append(loop)
                else:
                    numbers = list(map(int, loop.split(b" ")[1:]))
                    lines.extend(lines_of(b"subject", [x - move[0] for x in numbers[::2]], [y - move[1] for y in numbers[1::2]]))
    size = pathlib.Path(path).write_bytes(b"".join(b"%s\n" % line for line in lines))
    return len(lines), size


# ---- the answer


def least_of(line):
    """The least point of a contour that is turned as if it were handed back."""
    _, a, b, c, d, *_ = line.split(b" ", 5)
    return min((int(a), int(b)), (int(c), int(d)))


class Lines:
    """The lines of a file, or of a stretch of it, of which few are held at a time, and no file is."""

    def __init__(self, path, begin=0, end=None):
        self.path, self.place, self.end, self.held = path, begin, end, []

    def __iter__(self):
        return self

    def __next__(self):
        if not self.held:
            if self.place == self.end:
                raise StopIteration
            with open(self.path, "rb") as file:
                file.seek(self.place)
                # (lines are read until they have more bytes than that)
                self.held = file.readlines(16384 if self.end is None else min(16384, self.end - self.place) - 1)
            if not self.held:
                raise StopIteration
            self.place += sum(map(len, self.held))
            self.held.reverse()
        return self.held.pop()


def settle(path, rows):
    """Writes the shapes of clusters by rising least points: .more. How many they are, and which of them get holes."""
    shapes = []
    with open(f"{path}.held", "rb") as held:
        for begin, end, holes in rows:
            held.seek(begin)
            lines = iter(held.read(end - begin).splitlines(keepends=True))
            for place, head in enumerate(lines):
                contours = list(itertools.islice(lines, int(head.split(b" ")[1])))
                shapes.append((least_of(contours[0]), head + b"".join(contours), holes.get(place)))
    shapes.sort()
    pathlib.Path(f"{path}.more").write_bytes(b"".join(text for _, text, _ in shapes))
    return len(shapes), {number: holes for number, (*_, holes) in enumerate(shapes) if holes}


class Shape:
    """A shape whose lines are read as they are written: its outline, its holes by rising least points, and those that were set aside."""

    def __init__(self, lines, holes):
        self.lines, self.holes = lines, holes
        self.count = int(next(lines).split(b" ")[1])
        self.outline = next(lines)
        self.least = least_of(self.outline)

    def write(self, out):
        own = itertools.islice(self.lines, self.count - 1)
        out.write(b"shape %d\n%s" % (self.count + sum(count for *_, count in self.holes), self.outline))
        if self.holes:
            out.writelines(heapq.merge(own, *(Lines(path, begin, end) for path, begin, end, _ in self.holes), key=least_of))
        else:
            out.writelines(own)


def shapes_of(path, count, holes):
    lines = Lines(path)
    for number in range(count):
        yield Shape(lines, holes.get(number, ()))


def write_shapes(files, out):
    """All shapes by rising least points. Each file has so many, in this order, some of which get holes that were set aside."""
    for shape in heapq.merge(*(shapes_of(*file) for file in files), key=lambda shape: shape.least):
        shape.write(out)
