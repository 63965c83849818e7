"""Loops: the boundary of a region of horizontal and vertical edges, each place of which has one filled area on its left.

Where two filled squares touch in a corner, four edges meet, and contours may pass there from the border of one area to that of another. A loop
doesn't: it turns left there and stays with its area. So loops with the area on the left outside and loops round what isn't filled tell areas apart,
in whatever way contours pass their corners.
"""
import bisect

STEPS = ((1, 0), (0, 1), (-1, 0), (0, -1))  # east, north, west, south


def way(u, v):
    """The direction of a step from u to v."""
    if u[1] == v[1]:
        return 0 if u[0] < v[0] else 2
    return 1 if u[1] < v[1] else 3


def loops_of(contours):
    """The loops of contours of corners alone, which have what is filled on their left."""
    seen, double = set(), set()
    for contour in contours:
        corners = set(contour)
        if len(corners) < len(contour):
            once = set()
            double.update(p for p in contour if p in once or once.add(p))
        double |= corners & seen
        seen |= corners
    if not double:
        return contours
    loops, steps = [], {}
    for contour in contours:
        if double.isdisjoint(contour):
            loops.append(contour)
        else:
            for u, v in zip(contour, contour[1:] + contour[:1]):
                steps.setdefault(u, {})[way(u, v)] = v
    while steps:
        u, left = next(iter(steps.items()))
        at = next(iter(left))
        loop = []
        while u in steps and at in steps[u]:
            v = steps[u].pop(at)
            if not steps[u]:
                del steps[u]
            loop.append(u)
            u, at = v, (at + 1) % 4 if v in double else next(iter(steps.get(v, (0,))))
        loops.append(loop)
    return loops


def is_outer(loop):
    """Whether the area is inside of the loop."""
    k = loop.index(min(loop))
    return way(loop[k], loop[(k + 1) % len(loop)]) == 0


def areas_of(loops, points):
    """The number of the area at each loop, and of that round each of some points, which are the least ones of contours that run round what isn't
    filled; and how many areas there are."""
    numbers, count = [], 0
    for loop in loops:
        numbers.append(count if is_outer(loop) else None)
        count += numbers[-1] is not None
    if count == 1:
        return [0] * len(loops), [0] * len(points), 1
    # What runs round what isn't filled is met by rising least points. Its area is that above the next edge below, whose loop has a lesser one.
    events = [(*min(loop), k) for k, loop in enumerate(loops) if numbers[k] is None]
    events = [(x, 2, y, k) for x, y, k in (*events, *((*point, len(loops) + k) for k, point in enumerate(points)))]
    for k, loop in enumerate(loops):
        for u, v in zip(loop, loop[1:] + loop[:1]):
            if way(u, v) == 0:
                events.append((u[0], 1, u[1], k))
                events.append((v[0], 0, u[1], k))
    found, live = [None] * len(points), []  # (edges with what is filled above, over the sweep's column)
    for _, kind, y, k in sorted(events):
        if kind == 0:
            del live[bisect.bisect_left(live, (y, k))]
        elif kind == 1:
            bisect.insort(live, (y, k))
        else:
            area = numbers[live[bisect.bisect_left(live, (y, -1)) - 1][1]]
            if k < len(loops):
                numbers[k] = area
            else:
                found[k - len(loops)] = area
    return numbers, found, count
