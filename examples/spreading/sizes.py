"""What stands between a tile and the program where a mask is sized or checked.

It is run in the program's place. A script that says nothing of a tile goes to the program as it is. One of a tile has the contours, clamped into the tile grown
by all that sides move, and then

    tile X0 Y0 X1 Y1        the tile
    size L R B T            one line or more: by how much left sides go to the left, right ones to the right, bottoms down and tops up
    width W, or space W     in their place: a check
    overlay ..              the overlay that makes the mask

The mask is sized as the library does it: the vertical steps of a region that winds once are moved, the region of that is made, and then its horizontal steps are
moved. What they fill by `positive` is the mask, sized. It is clamped into the tile, and answered by the direction of the overlay. So a mask that is sized once
takes three runs and the last; a check takes them for two sizes, and the last is the difference of the mask and of what was shrunk and grown, or grown and shrunk.
"""
import pathlib
import subprocess
import sys

if __name__ == "__main__":
    sys.dont_write_bytecode = True
    sys.path.insert(0, str(pathlib.Path(__file__).resolve().parents[1]))

from spreading.script import contours_of, shapes_in  # noqa: E402
from spreading.split import lines_of, thinned  # noqa: E402


def opposite(amounts):
    return tuple(-amount for amount in amounts)


def halves(side):
    """One less than a side in two parts: those of left and right, and of bottom and top."""
    half = (side - 1) // 2
    return half, side - 1 - half, half, side - 1 - half


def sizes_of(change):
    """The amounts by which a mask is sized, one after another: those that are asked for, or those of a check."""
    if change.width or change.space:
        by = halves(change.width or change.space)
        return [opposite(by), by] if change.width else [by, opposite(by)]
    return change.sizes


class Change:
    """What becomes of a mask: it is sized by amounts, one after another, or checked for a width or a space."""

    def __init__(self, sizes=(), width=None, space=None):
        self.sizes, self.width, self.space = list(sizes), width, space

    def lines(self):
        if self.width or self.space:
            return [b"width %d" % self.width if self.width else b"space %d" % self.space]
        return [b"size %d %d %d %d" % tuple(amounts) for amounts in self.sizes]

    def reach(self):
        """How far a point may be from all that is asked of it, and how far sides move outward in all."""
        return sum(max(map(abs, amounts)) for amounts in sizes_of(self))


# ---- one tile


def moved(xs, ys, back, on):
    """The points to which the vertical steps of a contour are moved: those that run up by the one amount, those that run down back by the other."""
    found_xs, found_ys = [], []
    for x, y, v in zip(xs, ys, ys[1:] + ys[:1]):
        if y != v:
            x += on if y < v else -back
            found_xs += (x, x)
            found_ys += (y, v)
    return found_xs, found_ys


def moved_up(xs, ys, down, up):
    """The same of horizontal steps: tops run to the left, bottoms to the right."""
    found_ys, found_xs = moved(ys, xs, -up, -down)
    return found_xs, found_ys


class Tile:
    """Runs of the program for a tile."""

    def __init__(self, call):
        self.call = call

    def told(self, contours, overlay):
        """The reply to contours, each a word, its x and its y; and how many lines they were."""
        lines = [line for word, xs, ys in contours if xs for line in lines_of(word, xs, ys)]
        ran = subprocess.run(self.call, input=b"\n".join([*lines, overlay, b""]), stdout=subprocess.PIPE, check=True)
        return ran.stdout, len(lines)

    def ask(self, contours, overlay):
        """The contours that are answered."""
        shapes = shapes_in(*self.told(contours, overlay))
        if shapes is None:
            raise ValueError("an answer isn't whole")
        lines = [b"subject " + line for shape in shapes for line in shape]
        return [(xs, ys) for *_, xs, ys in contours_of(lines)]

    def region(self, contours):
        return self.ask([(b"subject", *it) for it in contours], b"overlay subject positive auto ccw corners")

    def sized(self, region, amounts):
        """Contours that fill the sized region by `positive`."""
        left, right, bottom, top = amounts
        return [moved_up(*it, bottom, top) for it in self.region([moved(*it, left, right) for it in region])]


def answer(call, contours, box, change, overlay):
    """The shapes of a tile, as the program writes them behind its replies to contours."""
    tile, words = Tile(call), overlay.split(b" ")
    mask = tile.ask([(word, xs, ys) for *_, word, xs, ys in contours_of(contours)], b" ".join([*words[:4], b"ccw", b"corners"]))
    found = mask
    for number, amounts in enumerate(sizes_of(change)):
        found = tile.sized(tile.region(found) if number else found, amounts)
    subjects, clips, rule = found, [], b"subject"
    if change.width or change.space:
        subjects, clips, rule = (mask, found, b"difference") if change.width else (found, mask, b"difference")
    x0, y0, x1, y1 = box

    def clamped(word, xs, ys):
        return word, *thinned([min(max(x, x0), x1) for x in xs], [min(max(y, y0), y1) for y in ys])

    last = [*(clamped(b"subject", *it) for it in subjects), *(clamped(b"clip", *it) for it in clips)]
    text, lines = tile.told(last, b" ".join([b"overlay", rule, b"positive", *words[3:]]))
    return text[3 * lines :]


def main(call):
    text = sys.stdin.buffer.read()
    place = text.rfind(b"\ntile ") + 1
    if not place:
        sys.exit(subprocess.run(call, input=text, check=False).returncode)
    contours = text[:place].splitlines()
    box, *asked, overlay = text[place:].splitlines()
    sizes, sides = [], {}
    for line in asked:
        word, *numbers = line.decode().split(" ")
        if word == "size":
            sizes.append(tuple(map(int, numbers)))
        else:
            sides[word] = int(numbers[0])
    found = answer(call, contours, tuple(map(int, box.split(b" ")[1:])), Change(sizes, **sides), overlay)
    sys.stdout.buffer.write(b"ok\n" * len(contours) + found)


if __name__ == "__main__":
    main(sys.argv[1:])
