"""The pictures of tools/plot as text, for a terminal."""

import shutil

from lib.plot import pictures
from lib.plot.pictures import NARROW

STROKES, MARKS = "*#$%@&=", "ABCDEFG"


def looks_of(picture):
    """Each line with the letters for its strokes and its marks, which may be none."""
    for line, stroke, mark in zip(picture.lines, STROKES, MARKS):
        own = {"dots": ("", "."), "front": ("-", "o"), "tail": ("-", ""), "curve": (stroke, "")}
        yield (line, *own.get(line.style, (stroke, mark)))


def legend_of(picture, columns):
    """The lines of a legend: beside the picture one for each name; above it several in each."""
    names = [f"{mark if picture.front else stroke * 3 + mark + stroke * 3} {line.name}"
             for line, stroke, mark in looks_of(picture) if line.name]
    title = [picture.legend] * bool(picture.legend)
    if columns >= NARROW and not picture.front:
        return title + names
    broadest = max(map(len, names), default=0) + 2
    beside = max(1, (columns - 8) // broadest)
    return title + ["".join(name.ljust(broadest) for name in names[at:at + beside])
                    for at in range(0, len(names), beside)]


def cells_of(picture, place, high):
    """The letters of a picture by their column and row, which are less than `high`: all lines, then
    their marks, and the labels that have room."""
    cells = {}
    for line, stroke, _ in looks_of(picture):
        for point, after in zip(line.points, line.points[1:] if stroke else []):
            if point and after:
                (left, top), (right, bottom) = place(point), place(after)
                steps = max(abs(right - left), abs(bottom - top), 1)
                for step in range(steps + 1):
                    part = int(step == steps) if line.style in ("front", "steps") else step / steps
                    cells[left + round((right - left) * step / steps),
                          top + round((bottom - top) * part)] = stroke
    for line, _, mark in looks_of(picture):
        cells.update({place(point): mark for point in line.points if point and mark})
    for point in picture.front:
        (column, row), label = place(point), point.told()[1]
        start = column - len(label)
        below = {cells.get((at, row + 1), " ") for at in range(start - 1, column + 1)}
        if start > 0 and row + 1 < high and below <= {" ", "."}:
            cells.update({(start + at, row + 1): letter for at, letter in enumerate(label)})
            cells[column, row] = "O"
    return cells


def page(picture, measure, title, columns, lines):
    """A picture in so many columns and lines: titles, what the axes are, and what is drawn."""
    legend = legend_of(picture, columns)
    is_beside = columns >= NARROW and not picture.front
    head = [words.center(columns) for words in (
        *[title[:columns]] * bool(title), *picture.title_lines(columns))]
    head += [measure.up] + [" " * 4 + line for line in legend] * (not is_beside)
    high = lines - len(head) - 3
    up = pictures.value_axis([picture], measure, 1.3 / high)
    left = max(len(words) for _, words in up.ticks)
    broad = columns - left - 4 - (max(map(len, legend), default=0) + 2 if is_beside else 0)
    across = pictures.size_axis(picture, 5.5 / broad)

    def column(x):
        return round(across.fractions([x])[0] * (broad - 1))

    def row(y):
        return round((1 - up.fractions([y])[0]) * (high - 1))

    cells = cells_of(picture, lambda point: (column(point.x), row(point.y)), high)
    rows = ("".join(cells.get((at, row), " ") for at in range(broad)) for row in range(high))
    ticks = {row(value): words for value, words in up.ticks}
    beside = legend * is_beside + [""] * high
    below = ""
    for value, words in across.ticks:
        start = left + 2 + column(value) - len(words) // 2
        below = below.ljust(start) + words if start >= len(below) else below
    return [*head, *(f"{ticks.get(at, ''):>{left}} |{letters}  {beside[at]}"
                     for at, letters in enumerate(rows)),
            " " * (left + 1) + "+" + "-" * broad, below,
            (" " * left + picture.across.center(broad))]


def lines(drawn, title):
    """The lines of all pictures, each as large as the terminal, with an empty one between them."""
    terminal = shutil.get_terminal_size()
    columns = max(terminal.columns, 40)
    high = max(terminal.lines - 1, 16 if columns >= NARROW else 24)
    for number, picture in enumerate(drawn.pictures):
        yield from [""] * bool(number)
        yield from (line.rstrip() for line in page(picture, drawn.measure, title, columns, high))
