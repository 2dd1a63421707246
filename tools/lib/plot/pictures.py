"""What tools/plot draws, on whatever it draws it: lines, points, their axes and ticks."""

import functools
import math
import re
import textwrap
from collections import namedtuple

from lib.tool import size_text

MOST_LINES = 7
SIZE = "cache size in bytes"
BY_WAYS = "block", "traffic"  # pictures that fix the ways; others fix the block size or nothing
NARROW = 72  # in fewer letters a legend has no room beside its picture
UNIT = re.compile(r" in (per cent|bytes|cycles \(AMAT\))$")
# of Okabe and Ito, except for a pale yellow: all people can tell them apart, also the colour-blind
COLOURS = ("#0072b2", "#d55e00", "#009e73", "#cc79a7", "#e69f00", "#56b4e9", "#000000")
# areas of a stack, above the two lowest: shades that differ in lightness too
STACK = ("#feedde", "#fdbe85", "#fd8d3c", "#d94701", "#8c2d04", "#6baed6", "#08306b")
GREYS = ("#f4f4f4", "#dcdcdc", "#c0c0c0", "#a2a2a2", "#848484", "#606060", "#202020")
# the digits that have a tick in each decade, and the part of a decade that the nearest are apart
DIGITS = ((0.0457, "123456789"), (0.1461, "12357"), (0.176, "1235"), (0.301, "125"), (0.477, "13"))
CELLS = {"curve": (1000, 500), "dots": (400, 200)}  # columns and rows of what can be seen
PALE, FRONT, BLACK = "#bbbbbb", "#d55e00", "#000000"
# a cache in a picture: its place, a function of what is said of it and its label, which few of a
# million are asked for, and how far the least and the greatest of several seeds are below and above
Point = namedtuple("Point", "x y told below above", defaults=(0, 0))
# a line of a picture: its name in the legend, its points, with None where it is cut, and a style:
# `marks`; `curve` has no marks, `dots` nothing else; a `front` goes in steps, as do the `steps` of
# several tables, and has a `tail`; an `area` lies on the earlier ones, and a `bar` stands on them
Line = namedtuple("Line", "name points style", defaults=("marks",))


class Measure(namedtuple("Measure", "up name is_percent is_linear",
                         defaults=("miss ratio in per cent", "Miss ratio", True, False))):
    """The vertical axis: its name there and above pictures, if it is per cent, and whether it must
    begin at 0."""

    @property
    def least(self):
        """The title of the Pareto front."""
        if self.name == "Miss ratio":
            return "The smallest caches that miss least"
        return f"The smallest caches with the least {UNIT.sub('', self.up)}"


class Picture(namedtuple("Picture", "name fixed title across legend lines labels names choices",
                         defaults=("", (), None))):
    """A picture of some caches: the block size, or the ways, that all have, its title, the name of
    its horizontal axis, the title of its legend, its lines, what the labels of a front are, the
    names of bars, and the pictures that a page offers instead, by what they fix. A front is the
    second line, after all caches."""

    @property
    def offered(self):
        return self.choices or {self.fixed: self}

    @property
    def points(self):
        return [point for line in self.lines for point in line.points if point]

    @property
    def front(self):
        """The caches that may have a label, in the order in which they get one: first that which
        misses least, then sizes that are powers of two."""
        front = self.lines[1].points if self.lines[0].style == "dots" else []
        return sorted(front, key=lambda one: one != front[-1] and 1 + (one.x & (one.x - 1) != 0))

    def title_lines(self, columns):
        """The title in lines of so many letters. In a long one what is fixed, and what labels are,
        have their own."""
        labels = f"({self.labels})" * bool(self.labels)
        whole = f"{self.title} {labels}".strip()
        parts = [whole] if len(whole) <= columns else [*self.title.split(": ", 1), labels]
        return [line for part in parts for line in textwrap.wrap(part, max(columns, 9))]

    def coloured(self, mono):
        """Each line with its colour. The two lowest areas are always the same."""
        colours = [BLACK] * MOST_LINES if mono else COLOURS
        if self.lines[0].style == "area":
            shades = GREYS if mono else STACK
            colours = [*shades[:len(self.lines) - 2], *shades[-2:]]
        elif self.lines[0].style == "dots":
            colours = PALE, *[BLACK if mono else FRONT] * 2
        elif self.names and mono:
            colours = GREYS[1::2]
        return list(zip(self.lines, colours))


def front_of(every, front, name):
    """The lines of a Pareto front before all caches. It goes on to the largest of these."""
    end = front[-1]._replace(x=max(point.x for point in every))
    return [Line("all caches", every, "dots"), Line(name, front, "front"),
            Line("", [front[-1], end], "tail")]


class Axis(namedtuple("Axis", "low high log ticks foot", defaults=(0.0,))):
    """An axis: its ends, whether it is logarithmic, ticks with their texts, and where 0 is."""

    def fractions(self, values):
        """How far along the axis some values stand: 0 at its low end, 1 at the high one."""
        measure = math.log if self.log else float
        low, high = measure(self.low), measure(self.high)
        return [(measure(value or self.foot) - low) / (high - low) for value in values]


def printable(words):
    """A title or a name in one line."""
    return "".join(letter if letter.isprintable() else " " for letter in words)


def short(size):
    """A size as axes and legends have it: 32K."""
    return size_text(size).upper()


def counted(number, what, text=str):
    """A number of some things: 1 way, 2 ways."""
    return f"1 {what}" if number == 1 else f"{text(number)} {what}s"


ways_text = functools.partial(counted, what="way")
bytes_text = functools.partial(counted, what="byte", text=short)


def nearest(values, wanted):
    """Of some numbers the one nearest to the wanted one by their ratio."""
    return min(values, key=lambda value: (abs(math.log(value / wanted)), value))


def handful(values, most=MOST_LINES):
    """Some numbers in order: all if they are few, else several powers of two; or evenly thinned."""
    values = sorted(set(values))
    powers = [value for value in values if value & (value - 1) == 0]
    return evenly(powers if len(values) > most and len(powers) > 2 else values, most)


def evenly(values, most=MOST_LINES):
    """At most so many of some values in even steps, and always the last one."""
    chosen = values[:: math.ceil(len(values) / most)]
    return chosen if chosen[-1] == values[-1] else [*chosen[: most - 1], values[-1]]


def number_text(value):
    """A number in few letters: 0.05, 2000, 20M."""
    for unit, letter in ((1e12, "T"), (1e9, "G"), (1e6, "M"), (1e3, "k")):
        if unit <= abs(value) < 1e15:
            return f"{value / unit:.6g}{letter}"
    return f"{value:.6g}".replace("e-0", "e-").replace("e+", "e")


def linear_axis(least, greatest, closest, most):
    """An axis from 0, or a tick at or below a value below 0, to a bit above a value, or to 0. Its
    ticks are at least `closest` of it apart."""
    low, high = 1.05 * min(least, 0), 1.05 * max(greatest, 0)
    high = high or (0.0 if low else 1.0)
    gap = (high - low) * closest
    power = 10.0 ** math.floor(math.log10(gap))
    step = next(step * power for step in (1, 2, 5, 10, 20) if step * power >= gap)
    lowest = math.floor(min(least, 0) / step)
    values = [step * count for count in range(lowest, int(high / step) + 1)]
    return Axis(min(low, lowest * step), high, False,
                [(value, number_text(value)) for value in values if value <= most])


def log_ticks(low, high, closest):
    """The most ticks for an axis between two values that are at least a part `closest` apart."""
    decades = range(math.floor(math.log10(low)), math.ceil(math.log10(high)) + 1)
    least = closest * math.log10(high / low)
    digits = next((digits for apart, digits in DIGITS if apart >= least), "1")
    return [float(f"{digit}e{decade}") for decade in decades[::max(1, math.ceil(least))]
            for digit in digits]


def log_axis(values, closest, most):
    """A logarithmic axis around some values. A 0 among them stands at its foot, and no tick between
    this and the least."""
    least, greatest = min(value for value in values if value), max(values)
    span = greatest / least
    foot = least / span ** 0.12 if 0 in values else 0.0
    low, high = (foot or least) / span ** 0.12, greatest * span ** 0.05
    above = max(0.999 * least, foot * (high / low) ** closest) if foot else low
    return Axis(low, high, True, [(foot, "0")] * bool(foot) + [
        (value, number_text(value)) for value in log_ticks(low, high, closest)
        if above <= value <= min(high, most)], foot)


def value_axis(pictures, measure, closest):
    """The axis of the measure: logarithmic if the greatest is at least five times the least."""
    values = [value for picture in pictures for point in picture.points
              for value in (point.y, point.y - point.below, point.y + point.above)]
    for picture in pictures:
        if picture.names:
            values += map(sum, zip(*([point.y for point in line.points] for line in picture.lines)))
    above = [value for value in values if value]
    most = 100 if measure.is_percent and max(values) <= 100 else math.inf
    is_wide = bool(above) and min(values) >= 0 and max(above) >= 5 * min(above)
    if is_wide and not measure.is_linear:
        return log_axis(values, closest, most)
    return linear_axis(min(values), max(values), 1.5 * closest, most)


def size_axis(picture, closest):
    """An axis of bytes, logarithmic, with ticks at powers of two; or the places of bars."""
    if picture.names:
        step = math.ceil(closest * len(picture.names))
        return Axis(-0.5, len(picture.names) - 0.5, False, list(enumerate(picture.names))[::step])
    sizes = [point.x for point in picture.points]
    least, greatest = min(sizes), max(sizes)
    if least == greatest:
        return Axis(least / 2, least * 2, True, [(least, short(least))])
    span = math.log2(greatest / least)
    step = math.ceil(closest * span * 1.08)
    powers = range(math.ceil(math.log2(least)), math.floor(math.log2(greatest)) + 1, step)
    return Axis(least / 2 ** (0.04 * span), greatest * 2 ** (0.04 * span), True, [
        (value, short(value)) for value in [2 ** power for power in powers] or (least, greatest)])


def is_broad(picture):
    """Whether its axis has more than one size: else its points stand in a column."""
    return len({point.x for point in picture.points}) > 1


def seen(line, across, up):
    """A line with no more points than can be seen: the last in each cell of the picture."""
    if line.style not in CELLS:
        return line
    columns, rows = CELLS[line.style]
    right = across.fractions(point.x for point in line.points)
    high = up.fractions(point.y for point in line.points)
    return line._replace(points=list({
        (round(columns * x), round(rows * y)): point
        for x, y, point in zip(right, high, line.points)}.values()))


def standing(line, up):
    """A line whose zeros are at the foot of a logarithmic axis."""
    return line if not up.foot else line._replace(points=[point and point._replace(
        y=point.y or up.foot, below=min(point.below, (point.y or up.foot) - up.foot))
        for point in line.points])
