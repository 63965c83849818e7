"""The levels on which what tiles answer is united: first the tiles of each strip, which is a column of them, and then the strips.

On each level neighbours are united in packs: two at least, and more as long as what stands on their borders has no more points than a batch. What was united
stands on the borders of its pack alone, and all else stays behind. So what is asked at a time grows with the length of a border, and not with the number
of tiles.
"""
import array
import functools
import itertools

from .engines import Job, Pieces, answer_all
from .grid import middle_of
from .look import Given, look_at
from .script import Refused
from .unite import Union, lay_batch

LEFT, RIGHT, BOTTOM, TOP = range(4)


def answered(options, jobs, pool, progress, name):
    """What is found in all answers."""
    progress.most = max(progress.most, *(job.points for job in jobs), 0)
    found = answer_all(options, jobs, pool, look_at, progress) if jobs else []
    for job, looked in zip(jobs, found):
        if looked is None:
            raise Refused(name(job))
    progress.finish()
    return found


def name_of(job):
    """What was to be united, where it wasn't."""
    return f"what goes together {'across strips' if job.strip < 0 else f'in strip {job.strip + 1}'} was not united"


class Block:
    """A tile, or what was united: the lines of its left, right, bottom and top, None of one that isn't open, and the stretches there."""

    def __init__(self, lines, stretches):
        self.lines, self.stretches = lines, stretches


class Pack:
    """Neighbours that are united across their high borders, the strip that they are in, -1 of strips, and the name of their files."""

    def __init__(self, blocks, high, strip, name):
        self.blocks, self.strip, self.name = blocks, strip, name
        lines = [block.lines[high] for block in blocks[:-1]]
        self.joined = (lines, []) if high == RIGHT else ([], lines)
        self.lines = list(blocks[0].lines)
        self.lines[high] = blocks[-1].lines[high]
        self.united = []  # (the stretches of all that was united)


class Levels:
    """What was united so far, and the level that is next."""

    def __init__(self, options, grid, overlay, folder, pool, progress):
        self.options, self.folder, self.pool, self.progress = options, folder, pool, progress
        self.union, self.is_moved, self.level = Union(grid.widest), grid.is_moved, 0
        self.numbers = list if grid.is_moved else functools.partial(array.array, "q")
        self.is_clockwise = b" cw " in overlay
        self.again = b"overlay subject nonzero auto %s corners" % (b"cw" if self.is_clockwise else b"ccw")

    def tile(self, job, looked):
        """A tile that was looked at."""
        return Block((*job.given.xs, *job.given.ys), self.union.take(job.answer, looked))

    def unite(self, strips):
        """Unites what is in strips, each given by its tiles."""
        while any(len(strip) > 1 for strip in strips):
            strips = self.next(strips, BOTTOM, TOP)
        self.progress.begin_level(len(strips), set(range(len(strips))), set())
        row = [Block((*block.lines[:2], None, None), block.stretches) for strip in strips for block in strip]
        while len(row) > 1:
            (row,) = self.next([row], LEFT, RIGHT)

    def next(self, rows, low, high):
        """The blocks of rows, whose neighbours on a low and a high border are united in packs."""
        packed = [
            [Pack(blocks, high, number if high == TOP else -1, f"{number}-{k}") for k, blocks in enumerate(self.packs(row, low, high))]
            for number, row in enumerate(rows)
        ]
        asked = self.jobs(list(itertools.chain(*packed)), low, high)
        jobs = [job for _, job in asked]
        if high == TOP:
            ending = {number for number, row in enumerate(packed) if len(row) < 2}
            self.progress.begin_level(len(rows), ending, {job.strip for job in jobs})
        for (pack, job), looked in zip(asked, answered(self.options, jobs, self.pool, self.progress, name_of)):
            pack.united.append(self.union.take(job.answer, looked))
        return [[self.block(pack) for pack in row] for row in packed]

    def packs(self, row, low, high):
        """The blocks of each pack."""
        packs, size = [], 0
        for block in row:
            points = self.union.points(block.stretches[low], block.stretches[high])
            if packs and (len(packs[-1]) < 2 or size + points <= self.options.edges):
                packs[-1].append(block)
                size += points
            else:
                packs.append([block])
                size = points
        return packs

    def jobs(self, packs, low, high):
        """What is asked, and for which pack: its borders stay open, and of a batch all is of one pack."""
        folder = self.folder / str(self.level)
        folder.mkdir(parents=True, exist_ok=True)
        self.level += 1
        batches, paths, moves = [], [], []
        for pack in packs:
            met = set()
            for one, other in itertools.pairwise(pack.blocks):
                if one.lines[high] == other.lines[low]:
                    met |= self.union.meet(one.stretches[high], other.stretches[low])
            for number, batch in enumerate(self.union.batches(self.union.groups(sorted(met)), self.options.edges)):
                batches.append((pack, batch.points, *self.union.pieces(batch.clusters)))
                paths.append(f"{folder}/{pack.name}-{number}")
                moves.append(self.move(batch.box))
        laid = self.pool.map(lay_batch, (f"{path}.loops" for path in paths), (loops for _, _, loops, _ in batches), moves)
        jobs = []
        for (pack, points, loops, roots), path, move, (lines, size) in zip(batches, paths, moves, laid):
            asked = Pieces()
            asked.add(f"{path}.loops", 0, size)
            given = Given(self.is_clockwise, move, pack.lines[:2], pack.lines[2:], pack.joined, loops, roots)
            jobs.append((pack, Job(f"{path}.answer", asked, self.again, lines, given, points, pack.strip)))
        return jobs

    def move(self, box):
        """What is taken from the coordinates of a batch in a box before it is asked."""
        if self.union.is_too_large(box):
            raise Refused(f"what goes together from {box[0]} {box[1]} to {box[2]} {box[3]} is larger than the program takes: --cut leaves it in pieces")
        return middle_of(box) if self.is_moved else (0, 0)

    def block(self, pack):
        """What a pack is now: on its borders stands what stood there alone, and what was united."""
        stretches = []
        for border, line in enumerate(pack.lines):
            alone = [self.union.alone_in(block.stretches[border]) for block in pack.blocks if block.lines[border] == line]
            stretches.append(self.numbers(itertools.chain(*alone, *(united[border] for united in pack.united))))
        return Block(tuple(pack.lines), stretches)
