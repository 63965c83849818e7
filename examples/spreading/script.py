"""Scripts of one overlay: what their lines are, where they may be parted, and what the program replies."""
import itertools
import os
import re

try:
    import numpy
except ImportError:
    numpy = None

NARROW, WIDE = (-(2**19), 2**19 - 1), (-(2**36), 2**36 - 1)  # the least and the greatest coordinate, and those of --wide
WIDTH = 1 << 38  # points are ordered by x and then y as the numbers x * WIDTH + y are
LONGEST = 1048576
CONTOUR = re.compile(rb"(?:(?:subject|clip)(?: -?[0-9]+ -?[0-9]+)+)?\r?")
OVERLAY = re.compile(
    rb"overlay (?:subject|clip|intersect|union|difference|inverse|xor) (?:evenodd|nonzero|positive|negative|atleast:[0-9]+)"
    rb" (?:list|tree|frag|auto) (?:ccw|cw) (?:corners|points)\r?"
)
NO_NUMERAL = re.compile(rb"[+_\t\v\f]|\r(?!$)")
NUMERALS = b"0123456789- "
PLAIN = NUMERALS + b"subjectlip\n"
WORDS = frozenset((b"subject", b"clip"))
PART = 1 << 20  # bytes of the script that are read together


class Refused(Exception):
    """What is told to the user, and ends the call."""


class Wrong(Exception):
    """The number of a line that is wrong, counted from 0 in its part of the script, and why."""


def what_is_wrong(line):
    """Why a line is neither empty nor a contour in range."""
    if len(line) > LONGEST:
        return f"has more than {LONGEST:,} bytes"
    if OVERLAY.fullmatch(line):
        return "stands behind the overlay, or more follows it"
    if not CONTOUR.fullmatch(line):
        return "is neither a contour nor an overlay"
    return "has a coordinate out of range"


def numbers_of(rows, counts):
    """The numbers of all rows, in each of which so many are parted by one space each; a ValueError where some are no numerals."""
    text = b" ".join(rows)
    if numpy is None or text.translate(None, NUMERALS):
        return list(map(int, text.split(b" "))) if rows else []
    numbers = numpy.fromstring(text, dtype=numpy.int64, sep=" ")
    if len(numbers) != sum(counts):
        raise ValueError
    return numbers


def ends_of(which, numbers, counts):
    """The least of each row's numbers, or the greatest, where rows have so many numbers."""
    if not isinstance(numbers, list):
        ends = numpy.cumsum(counts)
        return (numpy.minimum if which is min else numpy.maximum).reduceat(numbers, ends - counts).tolist()
    found, at = [], 0
    for count, those in itertools.groupby(counts):
        rows = sum(1 for _ in those)
        end = at + count * rows
        if rows > count > 1:
            # (rows of as many numbers that follow each other are looked at together)
            found.extend(map(which, *(numbers[k:end:count] for k in range(at, at + count))))
        else:
            found.extend(which(numbers[k : k + count]) for k in range(at, end, count))
        at = end
    return found


def boxes_of(lines):
    """The boxes of contours, as lists of least x, least y, greatest x and greatest y, and how many points each has; None where a line may
    be wrong, or is empty."""
    parts = [line.partition(b" ") for line in lines]
    if not WORDS.issuperset({word for word, _, _ in parts}):
        return None
    rows = [row for _, _, row in parts]
    counts = [row.count(b" ") + 1 for row in rows]
    if any(count & 1 for count in counts) or max(map(len, lines), default=0) > LONGEST:
        return None
    try:
        numbers = numbers_of(rows, counts)
    except ValueError:
        return None
    points = [count // 2 for count in counts]
    return *(ends_of(which, numbers[k::2], points) for which in (min, max) for k in (0, 1)), points


def contours_of(lines, limits=None):
    """The contours among lines: the number of each one's line, the line, its word, its x and its y. A line that is wrong ends them, as one out of the
    limits does where there are some."""
    for number, line in enumerate(lines):
        if len(line) < 2:
            if line.strip(b"\r"):
                raise Wrong(number, what_is_wrong(line))
            continue
        # (`int` also takes blanks, underscores and a plus, which no numeral has)
        word, *words = line.split(b" ")
        try:
            numbers = list(map(int, words))
        except ValueError:
            raise Wrong(number, what_is_wrong(line)) from None
        xs, ys = numbers[::2], numbers[1::2]
        if word not in WORDS or len(xs) != len(ys) or not xs or len(line) > LONGEST or NO_NUMERAL.search(line, 4):
            raise Wrong(number, what_is_wrong(line))
        if limits is not None and (min(numbers) < limits[0] or max(numbers) > limits[1]):
            raise Wrong(number, what_is_wrong(line))
        yield number, line, word, xs, ys


def read_lines(lines, begin, limits):
    """Contours one by one, where some are empty or may be wrong or out of the limits: the boxes and how many points, each line's number, and where it
    begins and ends; or the number of a line that is wrong, and why."""
    places = list(itertools.accumulate((len(line) + 1 for line in lines), initial=begin))
    try:
        rows = [
            (min(xs), min(ys), max(xs), max(ys), len(xs), number, places[number], places[number + 1])
            for number, _, _, xs, ys in contours_of(lines, limits)
        ]
    except Wrong as wrong:
        return wrong.args
    return rows, None


def overlay_of(path):
    """The overlay line, which is the last that isn't empty, and where it begins."""
    with open(path, "rb") as script:
        size = script.seek(0, os.SEEK_END)
        script.seek(max(0, size - 4096))
        text = script.read().rstrip(b"\r\n")
    begin = text.rfind(b"\n") + 1
    if not OVERLAY.fullmatch(text[begin:]):
        raise Refused("the last line of the script is no overlay")
    return text[begin:], max(0, size - 4096) + begin


def parts_of(path, size):
    """Where the parts of the script up to its overlay begin and end: each has whole lines."""
    borders = [0]
    with open(path, "rb") as script:
        for place in range(PART, size, PART):
            script.seek(max(borders[-1], place))
            script.readline()
            borders.append(min(size, script.tell()))
    borders.append(size)
    return [(begin, end) for begin, end in itertools.pairwise(borders) if begin < end]


def lines_in(path, begin, end):
    """The text of a part of the script, and its lines."""
    with open(path, "rb") as script:
        script.seek(begin)
        text = script.read(end - begin)
    lines = text.split(b"\n")
    if not lines[-1]:
        lines.pop()
    return text, lines


def shapes_in(text, contours):
    """The shapes of a reply to so many contours and an overlay, each a list of its contours, as they are written; None where it isn't whole."""
    place = 3 * contours
    if text[:place] != b"ok\n" * contours or not text.endswith(b"\n"):
        return None
    head, *lines = text[place:].split(b"\n")
    lines.pop()
    shapes, at = [], 0
    try:
        while at < len(lines):
            word, count = lines[at].split(b" ")
            shape = [line[8:] for line in lines[at + 1 : at + 1 + int(count)] if line.startswith(b"contour ")]
            if word != b"shape" or len(shape) != int(count) or not shape:
                return None
            shapes.append(shape)
            at += 1 + len(shape)
    except ValueError:
        return None
    return shapes if head == b"shapes %d" % len(shapes) else None


def write_taken(contours, out):
    """The replies to so many contours."""
    for begin in range(0, contours, 65536):
        out.write(b"ok\n" * min(65536, contours - begin))
