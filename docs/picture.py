#!/usr/bin/env python3
"""Draws docs/overlays.svg: a polygon with a hole and a triangle, and what each overlay rule keeps of the two; docs/touching.svg:
two squares that have a corner in common, and how contours pass there; docs/masks.svg: the first answer of examples/chip.answer, and the same in tiles; and
docs/sizing.svg: a mask, what it is when it is grown and shrunk, and what of it is too narrow, or too near.

Run it in the repository's top folder: python3 docs/picture.py
"""

SUBJECT = [[(10, 20), (90, 20), (90, 90), (10, 90)], [(30, 40), (30, 70), (60, 70), (60, 40)]]
CLIP = [[(45, 5), (125, 60), (50, 80)]]
INK = "#1f3a5f"
SUBJECT_FILL = "#7fa7d6"
CLIP_FILL = "#e3a857"
KEPT = "#4f8f5b"
WRONG = "#b03a2e"
SQUARES = [[(20, 20), (70, 20), (70, 70), (20, 70)], [(70, 70), (120, 70), (120, 120), (70, 120)]]
# What passes along their edges, a little inside of them.
TOUCHING = ["M24 24 L66 24 L66 60 Q66 66 60 66 L24 66 Z", "M74 80 Q74 74 80 74 L116 74 L116 116 L74 116 Z"]
CROSSING = ["M24 24 L66 24 L66 62 L74 78 L74 116 L116 116 L116 74 L78 74 L62 66 L24 66 Z"]
GREENS = ["#4f8f5b", "#7fbf8b"]
# A wide and a narrow bar, a gap and a hole, in places of 6 by 6.
MASK = [[(1, 1), (15, 1), (15, 3), (8, 3), (8, 7), (15, 7), (15, 13), (1, 13)], [(3, 9), (3, 11), (5, 11), (5, 9)]]
PLACE = 6
COLUMNS, ROWS = [0, 100, 200, 300, 400], [0, 51, 102, 153, 204]
APART = 12


def path(contours):
    return " ".join("M" + " L".join(f"{x} {y}" for x, y in contour) + " Z" for contour in contours)


def outline(contours):
    return f'<path d="{path(contours)}" fill="none" stroke="{INK}" stroke-width="1"/>'


def filled(contours, colour, more=""):
    return f'<path d="{path(contours)}" fill="{colour}" fill-rule="evenodd" {more}/>'


def panel(column, row, name, body):
    lines = outline(SUBJECT) + outline(CLIP)
    text = f'<text x="66" y="112" text-anchor="middle" font-family="sans-serif" font-size="10" fill="{INK}">{name}</text>'
    return f'<g transform="translate({column * 140 + 8} {row * 122 + 4})">{body}{lines}{text}</g>'


def passing(column, name, ways, ink, more=""):
    lines = "".join(f'<path d="{way}" fill="none" stroke="{ink}" stroke-width="1.5" {more}/>' for way in ways)
    text = f'<text x="70" y="138" text-anchor="middle" font-family="sans-serif" font-size="10" fill="{INK}">{name}</text>'
    return f'<g transform="translate({column * 150 + 8} 0)">{filled(SQUARES, SUBJECT_FILL)}{lines}{text}</g>'


def draw_touching():
    panels = passing(0, "two contours touch", TOUCHING, INK) + "\n" + passing(1, "and never cross like this", CROSSING, WRONG, 'stroke-dasharray="4 3"')
    with open("docs/touching.svg", "w") as file:
        file.write(f'<svg xmlns="http://www.w3.org/2000/svg" viewBox="0 0 306 148" width="612" height="296">\n{panels}\n</svg>\n')


def first_answer(replies):
    """The contours of the first overlay that is answered."""
    contours = []
    for line in replies[next(k for k, line in enumerate(replies) if line.startswith("shapes ")) + 1 :]:
        word, *numbers = line.split(" ")
        if word == "contour":
            numbers = list(map(int, numbers))
            contours.append(list(zip(numbers[::2], numbers[1::2])))
        elif word != "shape":
            break
    return contours


def clamped(contours, column, row):
    """What of contours with level and upright edges is in a tile: each point goes to the tile's nearest point."""
    left, right, bottom, top = COLUMNS[column], COLUMNS[column + 1], ROWS[row], ROWS[row + 1]
    return [[(min(max(x, left), right), min(max(y, bottom), top)) for x, y in contour] for contour in contours]


def draw_masks():
    with open("examples/chip.answer") as file:
        contours = first_answer(file.read().splitlines())
    drawn = [f'<g transform="translate(8 212) scale(1 -1)">{filled(contours, KEPT)}</g>']
    for column in range(len(COLUMNS) - 1):
        for row in range(len(ROWS) - 1):
            (left, right), (bottom, top) = COLUMNS[column : column + 2], ROWS[row : row + 2]
            tile = [(left, bottom), (right, bottom), (right, top), (left, top)]
            border = f'<path d="{path([tile])}" fill="none" stroke="{INK}" stroke-width="0.5" stroke-dasharray="3 3"/>'
            body = filled(clamped(contours, column, row), GREENS[(column + row) % 2]) + border
            drawn.append(f'<g transform="translate({430 + column * APART} {248 - row * APART}) scale(1 -1)">{body}</g>')
    with open("docs/masks.svg", "w") as file:
        file.write('<svg xmlns="http://www.w3.org/2000/svg" viewBox="0 0 882 264" width="882" height="264">\n' + "\n".join(drawn) + "\n</svg>\n")


def places_of(contours):
    """The columns and rows that contours with level and upright edges fill, by parity."""
    steps = [(a, b) for contour in contours for a, b in zip(contour, contour[1:] + contour[:1]) if a[1] == b[1]]
    spans = [(min(a[0], b[0]), max(a[0], b[0]), a[1]) for a, b in steps]
    return {(x, y) for x in range(-9, 30) for y in range(-9, 30) if sum(l <= x < r and level <= y for l, r, level in spans) % 2}


def sized_places(places, left, right, bottom, top):
    """Grown by some of each window, or shrunk by all of it, in x and then in y: windows reach by the amounts."""
    across = any if left + right >= 0 else all
    up = any if bottom + top >= 0 else all
    xs, ys = sorted((-right, left)), sorted((-top, bottom))
    around = [(x, y) for x in range(-9, 30) for y in range(-9, 30)]
    wide = {(x, y) for x, y in around if across((x + d, y) in places for d in range(xs[0], xs[1] + 1))}
    return {(x, y) for x, y in around if up((x, y + d) in wide for d in range(ys[0], ys[1] + 1))}


def drawn_places(places, colour):
    squares = " ".join(f"M{x * PLACE} {y * PLACE} h{PLACE} v{PLACE} h-{PLACE} Z" for x, y in sorted(places))
    return f'<path d="{squares}" fill="{colour}" stroke="{colour}" stroke-width="0.2"/>'


def draw_sizing():
    mask = places_of(MASK)
    edges = outline([[(x * PLACE, y * PLACE) for x, y in contour] for contour in MASK])
    shrunk, grown = sized_places(mask, -1, -1, -1, -1), sized_places(mask, 1, 1, 1, 1)
    opened, closed = sized_places(shrunk, 1, 1, 1, 1), sized_places(grown, -1, -1, -1, -1)
    panels = [
        ("grown by 1", drawn_places(grown, SUBJECT_FILL)),
        ("shrunk by 1", drawn_places(shrunk, SUBJECT_FILL)),
        ("narrower than 3", drawn_places(mask, SUBJECT_FILL) + drawn_places(mask - opened, WRONG)),
        ("nearer than 3", drawn_places(mask, SUBJECT_FILL) + drawn_places(closed - mask, WRONG)),
    ]
    drawn = []
    for column, (name, body) in enumerate(panels):
        text = f'<text x="{column * 110 + 56}" y="110" text-anchor="middle" font-family="sans-serif" font-size="10" fill="{INK}">{name}</text>'
        drawn.append(f'<g transform="translate({column * 110 + 8} 92) scale(1 -1)">{body}{edges}</g>{text}')
    with open("docs/sizing.svg", "w") as file:
        file.write('<svg xmlns="http://www.w3.org/2000/svg" viewBox="0 0 448 120" width="896" height="240">\n' + "\n".join(drawn) + "\n</svg>\n")


def main():
    draw_touching()
    draw_masks()
    draw_sizing()
    inside_clip = 'clip-path="url(#clip)"'
    off_clip = 'mask="url(#off-clip)"'
    off_subject = 'mask="url(#off-subject)"'
    panels = [
        ("two inputs", filled(SUBJECT, SUBJECT_FILL) + filled(CLIP, CLIP_FILL, 'fill-opacity="0.7"')),
        ("union", filled(SUBJECT, KEPT) + filled(CLIP, KEPT)),
        ("intersect", filled(SUBJECT, KEPT, inside_clip)),
        ("difference", filled(SUBJECT, KEPT, off_clip)),
        ("inverse", filled(CLIP, KEPT, off_subject)),
        ("xor", filled(SUBJECT, KEPT, off_clip) + filled(CLIP, KEPT, off_subject)),
    ]
    defs = (
        f'<clipPath id="clip"><path d="{path(CLIP)}"/></clipPath>'
        f'<mask id="off-clip"><rect width="140" height="120" fill="white"/>{filled(CLIP, "black")}</mask>'
        f'<mask id="off-subject"><rect width="140" height="120" fill="white"/>{filled(SUBJECT, "black")}</mask>'
    )
    drawn = "\n".join(panel(i % 3, i // 3, name, body) for i, (name, body) in enumerate(panels))
    with open("docs/overlays.svg", "w") as file:
        file.write(
            '<svg xmlns="http://www.w3.org/2000/svg" viewBox="0 0 428 246" width="856" height="492">\n'
            f"<defs>{defs}</defs>\n{drawn}\n</svg>\n"
        )


if __name__ == "__main__":
    main()
