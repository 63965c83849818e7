"""How coordinates are made whole, and come back.

The engine reckons with whole numbers from -68719476736 to 68719476735. A `Grid` moves coordinates and multiplies them, so that they reach as far of that as
they can: the finer its steps, the less a crossing moves that is rounded to one. A narrow grid reaches from -524288 to 524287 alone, where the engine is faster.
"""
from __future__ import annotations

from decimal import ROUND_HALF_EVEN, Context, Decimal, Inexact
from typing import Iterable, Optional, Sequence, Tuple, Union

from ._arrays import GREATEST, LEAST, NARROW_GREATEST, NARROW_LEAST
from ._library import OutOfRange, RANGE, RANGE64

Number = Union[int, float, Decimal]
# As exact as decimals of 60 digits are: few values have so many that a wider context is wanted.
CONTEXT = Context(prec=60)
# The least and the greatest step of a grid, and of a narrow one.
RANGES = ((LEAST, GREATEST), (NARROW_LEAST, NARROW_GREATEST))


def decimal_of(value) -> Optional[Decimal]:
    """A number as it is written: a text's, or the shortest that a double is told by. None where it is no number, or above 1e301 or below 1e-300 in size."""
    try:
        found = Decimal(value if isinstance(value, (str, int, Decimal)) else repr(float(value)))
    except (ArithmeticError, TypeError, ValueError):
        return None
    return None if not found.is_finite() or found and abs(found.adjusted()) > 300 else found


def plain(value: Decimal) -> str:
    """A number in plain decimals, without zeros at the end."""
    text = format(value, "f")
    text = text.rstrip("0").rstrip(".") if "." in text else text
    return "0" if text in ("", "-0") else text


def greatest_factor(ends: Iterable[Tuple[Decimal, Decimal]], narrow: bool = False) -> Decimal:
    """The greatest of 1, 2 and 5 times a power of ten by which what lies between any two of these ends is in range (of a narrow grid), once it is moved there.
    No steps are taken that doubles can't tell apart, but where those of a narrow grid are such.

    Numbers that span nothing take a factor by which they are whole.
    """
    ends = list(ends)
    span = max([CONTEXT.subtract(greatest, least) for least, greatest in ends], default=Decimal(0))
    if not span:
        places = max([-int(it.normalize(CONTEXT).as_tuple().exponent) for both in ends for it in both], default=0)
        return Decimal(10) ** min(max(places, 0), 300)
    found = _greatest_factor(ends, span, RANGES[True])
    reach = max(abs(it) for both in ends for it in both)
    # (a double has 53 digits, the first of which tells no step from the next)
    return found if narrow else max(found, _greatest_factor(ends, span, RANGES[False], reach))


def _greatest_factor(ends: Sequence[Tuple[Decimal, Decimal]], span: Decimal, range_of_steps: Tuple[int, int], reach: Decimal = Decimal(0)) -> Decimal:
    """The greatest by which the ends, which span this, are in range, and what reaches so far is at most 2^52 steps away."""
    steps = range_of_steps[1] - range_of_steps[0]
    power = Decimal(10) ** (len(str(steps)) - span.adjusted())
    while True:
        for factor in (5 * power, 2 * power, power):
            # (that of the widest tells quickly of most factors that they are too large)
            is_near = CONTEXT.multiply(span, factor) <= steps + 1 and CONTEXT.multiply(reach, factor) <= 2**52
            if is_near and all(_steps(greatest, factor) - _steps(least, factor) <= steps for least, greatest in ends):
                return factor
        power /= 10


def middle(least: int, greatest: int) -> int:
    """What is taken from numbers between these, so that they are in range if they can be."""
    return (least + greatest + 1) // 2


class Grid:
    """Steps of one width that cover given points.

    Arguments:
        points: pairs of numbers. Floats count as the shortest decimals that tell them.
        factor: how many steps a unit has. Where none is given, it is the greatest of 1, 2 and 5 times a power of ten by which all points are in range: so a
            step is a short decimal, and coordinates of an answer, given again, lie on steps.
        narrow: coordinates are from -524288 to 524287, and not from -68719476736 to 68719476735: more is rounded, and the engine is faster.

    It has its `factor`, its `step` (1 by the factor), its `origin` (where its step 0, 0 lies), and tells what was rounded: `count` coordinates were made
    whole, `rounded` of them by moving them, and by `most` at most.
    """

    def __init__(self, points: Iterable[Sequence[Number]], factor: Optional[Number] = None, *, narrow: bool = False) -> None:
        ends = [(min(values), max(values)) for values in zip(*(map(_number, point[:2]) for point in points))]
        self.narrow = narrow
        self.factor = greatest_factor(ends, narrow) if factor is None else _number(factor)
        if self.factor <= 0:
            raise ValueError(f"a factor is above 0, and not {factor}")
        self.step = CONTEXT.divide(Decimal(1), self.factor)
        self.count, self.rounded, self.most = 0, 0, Decimal(0)
        steps = [[_steps(end, self.factor) for end in both] for both in ends]
        least, greatest = RANGES[narrow]
        are_in_range = all(least <= it <= greatest for both in steps for it in both)
        # (what is out of range is moved by the middle of the box that holds it)
        self._moved = (0, 0) if are_in_range else (middle(*steps[0]), middle(*steps[1]))
        self.origin: Tuple[Decimal, Decimal] = self.place((0, 0))

    def whole(self, point: Sequence[Number]) -> Tuple[int, int]:
        """The nearest step to a point, by its numbers, halves to even ones. Raises `OutOfRange`."""
        x, y = (steps - moved for steps, moved in zip(self.steps(point), self._moved))
        least, greatest = RANGES[self.narrow]
        for value, found in zip(point, (x, y)):
            if not least <= found <= greatest:
                status = RANGE if self.narrow else RANGE64
                raise OutOfRange(status, f"{value} by the factor {plain(self.factor)} is not from {least} to {greatest}")
        return x, y

    def steps(self, point: Sequence[Number]) -> Tuple[int, int]:
        """The nearest step, counted from where 0, 0 lies, in range or not."""
        return self._steps(point[0]), self._steps(point[1])

    def _steps(self, value: Number) -> int:
        exact = self._exact(value if isinstance(value, Decimal) else _number(value))
        whole = _whole(exact)
        self.count += 1
        if whole != exact:
            self.rounded += 1
            self.most = max(self.most, CONTEXT.divide(abs(whole - exact), self.factor))
        return int(whole)

    def _exact(self, value: Decimal) -> Decimal:
        """A value by the factor. Few have so many digits that a wider context is wanted."""
        CONTEXT.clear_flags()
        found = CONTEXT.multiply(value, self.factor)
        if CONTEXT.flags[Inexact]:
            found = Context(prec=len(value.as_tuple().digits) + len(self.factor.as_tuple().digits)).multiply(value, self.factor)
        return found

    def place(self, point: Sequence[int]) -> Tuple[Decimal, Decimal]:
        """Where a step of `whole` lies."""
        return self._place(point[0] + self._moved[0]), self._place(point[1] + self._moved[1])

    def _place(self, steps: int) -> Decimal:
        return CONTEXT.divide(Decimal(steps), self.factor)

    def tell(self) -> str:
        """A line on the grid and what it rounded."""
        origin = "" if not any(self.origin) else f", origin {plain(self.origin[0])} {plain(self.origin[1])}"
        given = f"{self.rounded} of {self.count} coordinates were rounded, by up to {float(self.most):.3g}" if self.rounded else "nothing given was rounded"
        return f"factor {plain(self.factor)}, step {short(self.step)}{origin}: {given}; crossings are, to whole steps"


def short(value: Decimal) -> str:
    """A number of few digits: where the factor is no power of ten, the one nearest to it that a double is."""
    return plain(value) if len(plain(value)) <= 17 else plain(Decimal(repr(float(value))))


def _number(value: Number) -> Decimal:
    found = value if isinstance(value, Decimal) else decimal_of(value)
    if found is None:
        raise ValueError(f"a coordinate is a number from 1e-300 to 1e301 in size or 0, and not {value!r}")
    return found


def _steps(value: Decimal, factor: Decimal) -> int:
    return int(_whole(CONTEXT.multiply(value, factor)))


def _whole(value: Decimal) -> Decimal:
    return value.to_integral_value(ROUND_HALF_EVEN)
