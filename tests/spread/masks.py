"""Tests of examples/spread under --tiles and --tile-edges: what is printed is what two runs print, to the second of which the answer of the first is
handed back; so it is what one run prints, with each contour turned to where it then begins."""
import collections
import random
import re
import shutil

from spreading import split
from spreading.grid import Counts, Grid
from spreading.script import NARROW, WIDE

OVERLAY = b"overlay %s %s auto %s corners\n"
RULES = (b"subject", b"clip", b"intersect", b"union", b"difference", b"inverse", b"xor")
FILLS = (b"evenodd", b"nonzero", b"positive", b"negative", b"atleast:2")


def contour(word, points):
    return word + b"".join(b" %d %d" % point for point in points) + b"\n"


def box(x, y, width, height):
    return [(x, y), (x + width, y), (x + width, y + height), (x, y + height)]


def contours_of(reply):
    """The shapes of a reply, each a list of contours, each a list of points."""
    shapes = []
    for line in reply.splitlines():
        if line.startswith(b"shape "):
            shapes.append([])
        elif line.startswith(b"contour "):
            numbers = list(map(int, line.split(b" ")[1:]))
            shapes[-1].append(list(zip(numbers[::2], numbers[1::2])))
    return shapes


def written(shapes, contours):
    told = [b"ok\n" * contours, b"shapes %d\n" % len(shapes)]
    for shape in shapes:
        told.append(b"shape %d\n" % len(shape))
        told.extend(contour(b"contour", points) for points in shape)
    return b"".join(told)


def handed_back(ask, script):
    """What two runs print: the replies to the contours, and the shapes of the second."""
    reply = ask(script)
    again = b"".join(contour(b"subject", points) for shape in contours_of(reply) for points in shape)
    direction = b"cw" if b" cw " in script else b"ccw"
    return written(contours_of(ask(again + OVERLAY % (b"subject", b"nonzero", direction))), reply.count(b"ok\n"))


def turned(ask, script):
    """What one run prints, with the least point of an outline second, and that of a hole first; under cw the other way round."""
    reply, is_clockwise = ask(script), b" cw " in script
    shapes = contours_of(reply)
    for shape in shapes:
        for number, points in enumerate(shape):
            k = points.index(min(points)) - ((number == 0) != is_clockwise)
            shape[number] = points[k:] + points[:k]
    return written(shapes, reply.count(b"ok\n"))


# ---- maps


def squares(dice, side):
    """About half of all unit squares, of which some are clips."""
    for x in range(side):
        for y in range(side):
            if dice.random() < 0.5:
                yield contour(b"clip" if dice.random() < 0.2 else b"subject", box(x, y, 1, 1))


def boxes(dice, side):
    for _ in range(dice.randint(1, 25)):
        points = box(dice.randint(0, side), dice.randint(0, side), dice.randint(1, side), dice.randint(1, side))
        yield contour(dice.choice((b"subject", b"clip")), points[:: dice.choice((1, 1, -1))])


def plate(dice, side):
    """A plate with holes, and islands."""
    yield contour(b"subject", box(0, 0, 2 * side, 2 * side))
    for _ in range(dice.randint(1, 20)):
        points = box(dice.randint(0, 2 * side - 3), dice.randint(0, 2 * side - 3), dice.randint(1, 3), dice.randint(1, 3))
        yield contour(dice.choice((b"subject", b"subject", b"clip")), points[:: dice.choice((1, -1))])


def stairs(dice, side):
    """Contours that cross and cover themselves."""
    for _ in range(dice.randint(1, 6)):
        corners = [(dice.randint(0, side), dice.randint(0, side)) for _ in range(dice.randint(2, 8))]
        ways = zip(corners, corners[1:] + corners[:1])
        yield contour(dice.choice((b"subject", b"clip")), [point for (x, y), (u, _) in ways for point in ((x, y), (u, y))])


def drawn_mask(seed):
    dice = random.Random(seed)
    lines = list((squares, boxes, plate, stairs)[seed % 4](dice, dice.choice((6, 8, 12, 20))))
    dice.shuffle(lines)
    return b"".join(lines) + OVERLAY % (RULES[seed // 4 % 7], FILLS[seed // 28 % 5], (b"ccw", b"cw")[seed // 140 % 2])


def chip(bars, rule):
    """Bars along and across, each of which meets some of the others: most of them are one shape."""
    dice, unit = random.Random(bars), 1000000 // int(bars**0.5)
    lines = []
    for k in range(bars):
        long, wide = dice.randint(unit, 4 * unit), unit // 7
        x, y = dice.randint(-500000, 500000 - long), dice.randint(-500000, 500000 - long)
        lines.append(contour(b"clip" if k % 2 else b"subject", box(x, y, wide, long) if k % 2 else box(x, y, long, wide)))
    return b"".join(lines) + OVERLAY % (rule, b"nonzero", b"ccw")


def comb(teeth):
    """A bar up the middle with teeth to either side: its outline is longer than a line may be."""
    lines = [contour(b"subject", box(-5, -10 * teeth, 10, 20 * teeth))]
    lines.extend(contour(b"subject", box(-100000, 20 * k - 10 * teeth, 200000, 10)) for k in range(teeth))
    return b"".join(lines) + OVERLAY % (b"subject", b"nonzero", b"ccw")


# ---- examples


RING = b"subject 0 0 7 0 7 7 0 7\nsubject 1 2 1 6 6 6 6 1 2 1 2 2\nsubject 2 2 3 2 3 3 2 3\n"
RING_UNITED = [[(0, 7), (0, 0), (7, 0), (7, 7)], [(1, 2), (1, 6), (6, 6), (6, 1), (2, 1), (2, 2), (3, 2), (3, 3), (2, 3), (2, 2)]]
PAIR = b"subject 0 0 10 0 10 10 0 10\nclip 5 5 15 5 15 15 5 15\n"
PAIR_UNITED = [[[(0, 10), (0, 0), (10, 0), (10, 5), (5, 5), (5, 10)]], [[(5, 15), (5, 10), (10, 10), (10, 5), (15, 5), (15, 15)]]]
PAIR_CUT = [
    [[(0, 8), (0, 0), (8, 0), (8, 5), (5, 5), (5, 8)]],
    [[(0, 10), (0, 8), (5, 8), (5, 10)]],
    [[(5, 15), (5, 10), (8, 10), (8, 15)]],
    [[(8, 5), (8, 0), (10, 0), (10, 5)]],
    [[(10, 8), (10, 5), (15, 5), (15, 8)]],
    [[(8, 15), (8, 10), (10, 10), (10, 8), (15, 8), (15, 15)]],
]
# (a point puts the borders where they are wanted: two columns or rows part its range and the map's in the middle)
EXAMPLES = (
    ("a ring, x = 5", RING + b"subject 10 0\n", b"subject", "2,1", (), [RING_UNITED]),
    ("a ring, x = 2", RING + b"subject -3 0\n", b"subject", "2,1", (), [RING_UNITED]),
    ("a ring, x = 2 and y = 2", RING + b"subject -3 -3\n", b"subject", "2,2", (), [RING_UNITED]),
    ("a square, y = -1", b"subject -2 2 0 2 0 -2 -2 -2\n", b"subject", "1,4", (), [[[(-2, 2), (-2, -2), (0, -2), (0, 2)]]]),
    ("two squares, x = 8 and y = 8", PAIR + b"clip 16 16\n", b"xor", "2,2", (), PAIR_UNITED),
    ("two squares, cut there", PAIR + b"clip 16 16\n", b"xor", "2,2", ("--cut",), PAIR_CUT),
)


def test_examples(tell, spread, program):
    for name, contours, rule, tiles, options, wanted in EXAMPLES:
        told = spread(program, contours + OVERLAY % (rule, b"nonzero", b"ccw"), "--tiles", tiles, *options)
        tell(f"tiles: {name}", told.returncode == 0 and told.stdout == written(wanted, contours.count(b"\n")))


def test_drawn(tell, spread, ask, program, compared):
    for seed in range(300):
        dice, script = random.Random(-seed), drawn_mask(seed)
        tiles = "--tiles", f"{dice.randint(1, 4)},{dice.randint(1, 4)}", "--edges", dice.choice(("1", "20", "1000"))
        if seed % 5 == 0:
            tiles = "--tile-edges", dice.choice(("5", "20", "60")), "--edges", "20"
        wanted = handed_back(ask, script)
        compared.add(script, wanted)
        tell(f"tiles: drawn mask {seed}", spread(program, script, *tiles).stdout == wanted == turned(ask, script))


# ---- sizes and checks, reckoned by unit squares


def cells_of(shapes):
    """The unit squares that shapes cover."""
    falls, cells = collections.Counter(), set()
    for points in (points for shape in shapes for points in shape):
        for (x, y), (_, v) in zip(points, points[1:] + points[:1]):
            for row in range(min(y, v), max(y, v)):
                falls[row, x] += 1 if v < y else -1
    count, before = 0, None
    for (row, x), fall in sorted(falls.items()):
        if count:
            cells.update((k, row) for k in range(before, x))
        count, before = count + fall, x
    return cells


def sized_cells(cells, amounts):
    """Those from which some in reach is there, or where the amounts sum to less than 0 all are: by rows, and then by columns."""
    for (back, on), (dx, dy) in ((amounts[:2], (1, 0)), (amounts[2:], (0, 1))):
        if back + on >= 0:
            cells = {(x + k * dx, y + k * dy) for x, y in cells for k in range(-back, on + 1)}
        else:
            places = {(x - back * dx, y - back * dy) for x, y in cells}
            cells = {(x, y) for x, y in places if all((x + k * dx, y + k * dy) in cells for k in range(back, 1 - on))}
    return cells


def uncovered(cells, side):
    """Those that no square of a side in them covers."""
    square = [(x, y) for x in range(side) for y in range(side)]
    whole = [(x, y) for x, y in cells if all((x + u, y + v) in cells for u, v in square)]
    return cells - {(x + u, y + v) for x, y in whole for u, v in square}


def outside(cells, side):
    """All others that a square of a side may cover which reaches what lies between them."""
    xs, ys = [x for x, _ in cells] or [0], [y for _, y in cells] or [0]
    return {(x, y) for x in range(min(xs) - side, max(xs) + side + 1) for y in range(min(ys) - side, max(ys) + side + 1)} - cells


def drawn_change(dice):
    """Options of a size, of two, of a width or of a space, and what they make of unit squares."""
    kind, side = dice.randrange(4), dice.randint(1, 5)
    if kind == 0:
        return [f"--width={side}"], lambda cells: uncovered(cells, side)
    if kind == 1:
        return [f"--space={side}"], lambda cells: uncovered(outside(cells, side), side)
    first, second = ([dice.randint(-3, 3) for _ in range(4)] for _ in range(2))
    second = [-amount for amount in first] if dice.random() < 0.5 else second
    told = [f"--size={','.join(map(str, amounts))}" for amounts in (first, second)]
    return told[: kind - 1], lambda cells: sized_cells(cells, first) if kind == 2 else sized_cells(sized_cells(cells, first), second)


def test_sizes(tell, spread, ask, program):
    """Masks sized and checked by tiles are those that unit squares tell, handed back."""
    filled = 0
    for seed in range(60):
        dice, script = random.Random(-seed), drawn_mask(seed)
        options, change = drawn_change(dice)
        tiles = ("--tiles", f"{dice.randint(1, 4)},{dice.randint(1, 4)}") if seed % 5 else ("--tile-edges", "20")
        direction = b"cw" if b" cw " in script else b"ccw"
        cells = change(cells_of(contours_of(ask(script))))
        squares_of = b"".join(contour(b"subject", box(x, y, 1, 1)) for x, y in sorted(cells))
        wanted = contours_of(handed_back(ask, squares_of + OVERLAY % (b"subject", b"nonzero", direction)))
        filled += bool(wanted)
        told = spread(program, script, *tiles, *options)
        tell(f"tiles: mask {seed} by {' '.join(options)}", told.stdout == written(wanted, len(script.splitlines()) - 1), told.stderr.decode())
        if seed % 20 == 0:
            far = spread(program, moved(script, 3000000, -2000000), *tiles, *options).stdout
            tell(f"tiles: mask {seed} so, beyond the range", far == moved_answer(told.stdout, 3000000, -2000000))
    tell("tiles: half of what is sized is there", filled >= 30, f"{filled}")
    script, tiles = drawn_mask(0), ("--tiles", "2,2")
    for words in (("--size", "1"), (*tiles, "--size", "1,2"), (*tiles, "--width", "0"), (*tiles, "--size", "1", "--space", "2"), (*tiles, "--size=1.0")):
        tell(f"tiles: no such call: {' '.join(words)}", spread(program, script, *words).returncode == 2)
    told = spread(program, script, *tiles, "--size", "200000")
    tell("tiles: sides that move too far", told.returncode == 1 and b"too much for the program's range" in told.stderr, told.stderr.decode())


def test_levels(tell, spread, ask, program):
    """Tiles that are united two by two, and some more together."""
    script = chip(4000, b"union")
    wanted = turned(ask, script)
    for edges in ("1", "500"):
        tell(f"tiles: united in packs of {edges}", spread(program, script, "--tiles", "6,7", "--edges", edges).stdout == wanted)


def test_counts(tell):
    """Points that are counted in parts of a map, in cells of their own, are those of all of it."""
    for seed in range(40):
        dice, counts, points = random.Random(seed), None, []
        for _ in range(dice.randint(1, 4)):
            x, y, reach = dice.randint(-(10**6), 10**6), dice.randint(-500, 500), 10 ** dice.randint(0, 6)
            part = [(x + dice.randint(0, reach), y + dice.randint(-reach, reach)) for _ in range(dice.randint(1, 40))]
            xs, ys = zip(*part)
            found = Counts.of((min(xs), min(ys), max(xs), max(ys)), xs, ys)
            counts = found if counts is None else counts.joined(found)
            points += part
        told = {(x, y): count for x, column in counts.columns() for y, count in enumerate(column, counts.bottom) if count}
        tell(f"tiles: counts {seed}", told == collections.Counter((x >> counts.shift, y >> counts.shift) for x, y in points))


def test_large(tell, spread, ask, program):
    for rule in (b"union", b"intersect"):
        script = chip(250000, rule)
        tell(f"tiles: a million edges, {rule.decode()}", spread(program, script, "--tile-edges", "60000").stdout == turned(ask, script))
    script = comb(45000)
    wanted = turned(ask, script)
    tell("tiles: the comb is longer than a line", max(map(len, wanted.splitlines())) > 1048576)
    tell("tiles: a line past the limit", spread(program, script, "--tiles", "2,4").stdout == wanted)


def moved(script, x, y):
    """A map elsewhere."""
    lines = []
    for line in script.splitlines():
        word, *numbers = line.split(b" ")
        if word in (b"subject", b"clip"):
            line = b" ".join((word, *(b"%d" % (int(number) + (y if k % 2 else x)) for k, number in enumerate(numbers))))
        lines.append(line + b"\n")
    return b"".join(lines)


def moved_answer(reply, x, y):
    """An answer elsewhere."""
    return written([[[(u + x, v + y) for u, v in c] for c in s] for s in contours_of(reply)], reply.count(b"ok\n"))


def test_range(tell, spread, ask, program):
    """Maps beyond the program's range: each tile and each batch is moved, and what is answered is moved back."""
    for seed in range(8):
        script, x, y = drawn_mask(seed), 10**9 * (seed - 3), -(10 ** (4 * seed + 2))
        wanted = moved_answer(handed_back(ask, script), x, y)
        tell(f"tiles: beyond the range, {seed}", spread(program, moved(script, x, y), "--tiles", "3,3").stdout == wanted)
    wide = b"subject 0 0 3000000 0 3000000 10 0 10\n" + OVERLAY % (b"subject", b"nonzero", b"ccw")
    told = spread(program, wide, "--tiles", "1,1")
    tell("tiles: too wide to be united", told.returncode == 1 and b"from 0 0 to 3000000 10 is larger than the program takes" in told.stderr)
    pieces = [[[(x, 10), (x, 0), (x + 10**6, 0), (x + 10**6, 10)]] for x in (0, 10**6, 2 * 10**6)]
    tell("tiles: cut, where it is too wide", spread(program, wide, "--tiles", "1,1", "--cut").stdout == written(pieces, 1))
    high = contour(b"subject", box(0, 0, 9, 10**13)) + OVERLAY % (b"subject", b"nonzero", b"ccw")
    for call in (("--tiles", "1,1"), ("--tile-edges", "9")):
        told = spread(program, high, *call)
        tell(f"tiles: too many, {call[0]}", told.returncode == 1 and b"from 0 0 to 9 10000000000000 would fall into more than 1,000,000 tiles" in told.stderr)


def test_wide(tell, spread, ask, program, folder):
    """Maps of --wide: the answer to a mask that is moved to the ends of the range, or beyond it, is moved alike; and tiles may be as wide as the range."""

    def ask_wide(script):
        return ask(script, "--wide")

    least, greatest = WIDE
    tiles = "--tiles", "3,3", "--edges", "20"
    ends = least, 2**20, greatest - 40  # (a drawn mask is from 0 to 40)
    for seed in range(9):
        script, x, y = drawn_mask(seed), ends[seed % 3], ends[seed // 3]
        far, wanted = moved(script, x, y), moved_answer(handed_back(ask, script), x, y)
        tell(f"tiles: wide, {seed}, one run", handed_back(ask_wide, far) == wanted)
        for call in (tiles, ("--tile-edges", "20")):
            tell(f"tiles: wide, {seed}, {call[0]}", spread(program, far, "--wide", *call).stdout == wanted)
        pieces = moved_answer(spread(program, script, *tiles, "--cut").stdout, x, y)
        tell(f"tiles: wide, {seed}, cut", spread(program, far, "--wide", *tiles, "--cut").stdout == pieces)
        beyond, wanted = moved(script, 10**14, x), moved_answer(handed_back(ask, script), 10**14, x)
        tell(f"tiles: beyond the wide range, {seed}", spread(program, beyond, "--wide", *tiles).stdout == wanted)
    # (without --wide these tiles are moved, and their splitting is kept)
    script, work = drawn_mask(2), ("--work", folder / "wide")
    far, wanted = moved(script, 10**7, 10**7), moved_answer(handed_back(ask, script), 10**7, 10**7)
    for words in ((), ("--wide",), ()):
        tell(f"tiles: kept of another width {words}", spread(program, far, *tiles, *work, *words).stdout == wanted)

    boxes = [box(x, y, 40, 40) for x in ends for y in ends]
    boxes += [box(least, 2**20 + 20, greatest - least, 5), box(-5, least, 10, greatest - least), box(0, 0, 2**21, 2**30)]
    whole = b"".join(contour(b"clip" if k % 4 == 3 else b"subject", points) for k, points in enumerate(boxes)) + OVERLAY % (b"xor", b"nonzero", b"ccw")
    wanted = turned(ask_wide, whole)
    for call in (("--tiles", "1,1"), ("--tiles", "4,3"), ("--tile-edges", "9")):
        tell(f"tiles: as wide as the range, {' '.join(call)}", spread(program, whole, "--wide", *call, "--edges", "20").stdout == wanted)
    tell("tiles: too many where it isn't asked for", b"would fall into more than 1,000,000 tiles" in spread(program, whole, "--tiles", "4,3").stderr)
    wide = contour(b"subject", box(0, 0, 3 * 10**11, 10)) + OVERLAY % (b"subject", b"nonzero", b"ccw")
    told = spread(program, wide, "--wide", "--tiles", "1,1")
    tell("tiles: wide, too wide", told.returncode == 1 and b"from 0 0 to 300000000000 10 is larger than the program takes" in told.stderr)
    pieces = [[[(x, 10), (x, 0), (x + 10**11, 0), (x + 10**11, 10)]] for x in (0, 10**11, 2 * 10**11)]
    tell("tiles: wide, cut, where it is too wide", spread(program, wide, "--wide", "--tiles", "1,1", "--cut").stdout == written(pieces, 1))


def test_refusals(tell, spread, program):
    square, overlay = b"subject 0 0 4 0 4 4 0 4\n", OVERLAY % (b"union", b"nonzero", b"ccw")
    slope = b"line 3 has an edge that is neither horizontal nor vertical, from 2 0 to 0 2; without --tiles such maps are spread by groups"
    rows = (
        (square + b"\nsubject 0 0 2 0 0 2\n" + overlay, slope),
        (square + overlay.replace(b"corners", b"points"), b"tiles answer corners alone"),
        (square + b"subject 1\n" + overlay, b"line 2 is neither"),
        (square + overlay + square + overlay, b"line 2 stands behind"),
        (square, b"is no overlay"),
        (b"subject 1" + b" " * 1048576 + b"\n" + overlay, b"line 1 has more than"),
    )
    for script, why in rows:
        told = spread(program, script, "--tiles", "2,2")
        tell(f"tiles: refused: {why.decode()}", told.returncode == 1 and told.stdout == b"" and why in told.stderr)
    for words in (("--tiles", "2"), ("--tiles", "0,1"), ("--tile-edges", "0"), ("--cut",), ("--tiles", "1,1", "--tile-edges", "9")):
        tell(f"tiles: no such call: {' '.join(words)}", spread(program, square + overlay, *words).returncode == 2)
    for flat in (b"", b"subject 3 3\n", b"subject 0 0 5 0\nclip 2 0 9 0\n"):
        tell("tiles: nothing is filled", spread(program, flat + overlay, "--tiles", "2,2").stdout == b"ok\n" * flat.count(b"\n") + b"shapes 0\n")
    text = (square + b"clip 1 1 9 1 9 3 1 3\n" + overlay).replace(b"\n", b"\r\n").rstrip(b"\n")
    tell("tiles: carriage returns", spread(program, text, "--tiles", "2,2").stdout == spread(program, text.replace(b"\r", b""), "--tiles", "2,2").stdout)


def test_broken_off(tell, folder):
    """What is left of a part whose splitting ended before its index was written is split anew."""
    grid = Grid([0, 4, 8], [[0, 8]] * 2, NARROW)
    one, other = folder / "one", folder / "other"
    one.write_bytes(contour(b"subject", box(1, 1, 2, 2)))
    other.write_bytes(contour(b"clip", box(5, 5, 2, 2)))
    kept, size = folder / "0.part", one.stat().st_size
    rows = split.split_part(one, 0, size, grid, "cuts", kept)
    write_kept, split.write_kept = split.write_kept, None
    try:
        split.split_part(other, 0, other.stat().st_size, grid, "cuts", kept)
    except TypeError:
        pass
    split.write_kept = write_kept
    again = split.split_part(one, 0, size, grid, "cuts", kept)
    tell("tiles: a part that was broken off", again == rows and kept.read_bytes() == one.read_bytes())


def test_faults(tell, spread, program, wrapper, folder):
    """A tile that fails for good is told, and a next call asks for what is left alone."""
    log = folder / "asked"
    counting = wrapper(folder, f'[ $# -eq 0 ] || exec {program} "$@"\necho >> {log}\nexec {program}\n')
    failing = wrapper(folder, f'[ $# -eq 0 ] || exec {program} "$@"\ntee {folder}/$$ | grep -q "^clip" && exit 1\nexec {program} < {folder}/$$\n')

    def asked():
        many = len(log.read_text().splitlines()) if log.exists() else 0
        log.unlink(missing_ok=True)
        return many

    lines = [contour(b"subject", box(10 * k, 0, 8, 8)) for k in range(8)]
    script = b"".join(lines) + contour(b"subject", box(0, 3, 78, 1)) + contour(b"clip", box(70, 3, 2, 2)) + OVERLAY % (b"xor", b"nonzero", b"ccw")
    other = script.replace(b"subject 10 0 18", b"subject 11 0 18", 1).replace(b"18 8 10 8", b"18 8 11 8", 1)
    tiles = "--tiles", "4,1"
    wanted, changed = (spread(program, asked_for, *tiles).stdout for asked_for in (script, other))
    why = b"a tile was not answered, that from 58 0 to 78 8, with the contours of the lines 7 to 10"
    for engine in ("local", "parallel") if shutil.which("parallel") else ("local",):
        call = (*tiles, "--engine", engine, "--work", folder / engine)
        told = spread(failing, script, *call)
        tell(f"tiles: one that fails is told, {engine}", told.returncode == 1 and told.stdout == b"" and why in told.stderr)
        tell(f"tiles: a next call goes on, {engine}", spread(counting, script, *call).stdout == wanted and asked() == 2)
        tell(f"tiles: answers are kept, {engine}", spread(counting, script, *call).stdout == wanted and asked() == 0)
        tell(f"tiles: what changed is asked alone, {engine}", spread(counting, other, *call).stdout == changed and asked() == 2)
    shown = spread(program, script, *tiles, "--progress").stderr
    tell("tiles: progress", b"40 of about 40 edges read, 4 of 4 tiles, 4 of 4 strips\n" in re.sub(rb" +\n", b"\n", shown))


def test_parallel(tell, spread, ask, program):
    script = chip(20000, b"union")
    if shutil.which("parallel") is not None:
        told = spread(program, script, "--engine", "parallel", "--tile-edges", "20000")
        tell("tiles: parallel", told.stdout == turned(ask, script))
        far = moved(chip(2000, b"union"), 10**10, -(10**10))
        told = spread(program, far, "--wide", "--engine", "parallel", "--tile-edges", "2000")
        tell("tiles: parallel, wide", told.stdout == turned(lambda asked: ask(asked, "--wide"), far))
