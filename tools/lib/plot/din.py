"""The pictures of tables of din-table: by cache size, with a line for each of the other values."""

import functools
import re
from collections import namedtuple

from lib import costs
from lib.plot import pictures
from lib.plot.pictures import (MOST_LINES, Line, Measure, Picture, Point, bytes_text, counted,
                               evenly, short, ways_text)
from lib.table import pareto
from lib.table_din import NUMBERS, WORDS, cache, kind, read_table, usual_measure
from lib.tool import fail, warn

ACROSS = {"size": pictures.SIZE, "sets": "sets", "bsize": "block size in bytes",
          "assoc": "ways"}
TEXTS = {"size": bytes_text, "sets": lambda sets: counted(sets, "set", short),
         "bsize": lambda size: f"blocks of {short(size)}", "assoc": ways_text}
GLOBAL = "-global"  # in a column's name: misses by the references to the first level

# a table that is drawn, the option on its horizontal axis, and its file
View = namedtuple("View", "table across file")


def varied(table):
    """The options of which there are several values."""
    return [option for at, option in enumerate(table.options)
            if len({case.given[at] for case in table.cases}) > 1]


def across_of(wanted, table, file):
    """The option on the horizontal axis: the wanted one, else the last size or number that varies.
    """
    numbers = [option for option in table.options if kind(option) in NUMBERS]
    if wanted:
        return wanted if wanted in numbers else fail(
            f"{file}: no option {wanted} with numbers; there are {', '.join(numbers)}")
    among = varied(table) or table.options
    sizes, others = ([option for option in among if kind(option) in kinds]
                     for kinds in (("size", "sets"), NUMBERS))
    return (sizes or others or numbers)[-1]


def measure_of(views):
    """How the measure is called. Where tables have other ones each, it is the miss ratio."""
    table = views[0].table
    if len({view.table.measure for view in views}) > 1:
        return Measure()
    if not table.measure.endswith("-percent"):
        own = re.fullmatch("(l[12]-[diu])-(.*)", table.measure)
        name = f"{own[2].replace('-', ' ')} of {own[1]}" if own else table.measure.replace("-", " ")
        return Measure(name, name[0].upper() + name[1:], False)
    own = table.measure.removesuffix("-percent")
    caches = {cache(option) for option in table.options}
    of = f" of {own.removesuffix(GLOBAL)}" if len(caches) > 1 else ""
    # that of a second level is by the references to this level or to the first
    is_local = own.startswith("l2-") and any(one.startswith("l1-") for one in caches)
    which = "global " if own.endswith(GLOBAL) else "local " * is_local
    name = f"{which}miss ratio{of}"
    return Measure(f"{name} in per cent", f"{name[0].upper()}{name[1:]}")


def label(pairs, has_caches):
    """Options with their values as a legend has them, with their caches where there are several."""
    texts = []
    for option, value in pairs:
        word = kind(option)
        if value:
            text = WORDS[word].get(value, value) if word in WORDS else TEXTS[word](int(value))
            texts.append(f"{cache(option)} {text}" if has_caches else text)
    return ", ".join(texts)


def told(table, lines, has_caches, case):
    """What is said of a case, and its label. Options that other tables have are empty."""
    given = dict(zip(table.options, case.given))
    texts = [f"{option} {value}" for option, value in given.items() if value]
    return ("\n".join([*texts, f"size {case.size}"]),
            label([(option, given[option]) for option in lines], has_caches))


def points(cases, x, *about):
    """Some cases as points, each with the least and the greatest of several seeds."""
    return [Point(x(case), float(case.measured), functools.partial(told, *about, case),
                  float(case.measured - min(case.values)), float(max(case.values) - case.measured))
            for case in cases]


def fixed(asked, table, across, lines, file):
    """The table with one associativity or block size where these are asked for, of the cache on the
    horizontal axis, or where there would be too many lines; and the options that are fixed so, each
    with its value."""
    found = []
    for word, wanted, usual in (("assoc", asked.ways, 4), ("bsize", asked.bsize, 64)):
        for option in [one for one in table.options if kind(one) == word and one != across]:
            is_asked = wanted is not None and cache(option) == cache(across)
            if is_asked or (option in lines and len(groups(table, lines)) > MOST_LINES):
                at = table.options.index(option)
                values = sorted({int(case.given[at]) for case in table.cases})
                value = wanted if is_asked else pictures.nearest(values, usual)
                if value not in values:
                    there = ", ".join(map(str, values))
                    fail(f"{file}: no run has {option} {wanted}; there are {there}")
                table = table._replace(cases=[case for case in table.cases
                                              if int(case.given[at]) == value])
                found.append((option, value))
    return table, found


def groups(table, lines):
    """The cases of each line, by the values that they share."""
    places = [table.options.index(option) for option in lines]
    found = {}
    for case in table.cases:
        found.setdefault(tuple(case.given[at] for at in places), []).append(case)
    return found


def by_across(asked, view, measure):
    """The measure by the option on the horizontal axis; a line for each value of the others that
    change the measure: those of its own cache alone, if that is in level 1."""
    table, across, file = view
    at = table.options.index(across)
    cases = [case for case in table.cases if case.given[at]]
    if len(cases) < len(table.cases):
        warn(f"{file}: {len(table.cases) - len(cases)} of {len(table.cases)} caches have no "
             f"{across}, and are left out")
        table = table._replace(cases=cases)
    is_first = table.measure.startswith("l1-")
    lines = [option for option in varied(table) if option != across
             and (not is_first or table.measure.startswith(f"{cache(option)}-"))]
    has_caches = len({cache(option) for option in [across, *lines]}) > 1
    table, values = fixed(asked, table, across, lines, file)
    lines = [option for option in lines if option in varied(table)]
    found, shown = groups(table, lines), []
    for given in evenly(list(found)):
        cases = {int(case.given[at]): case for case in reversed(found[given])}
        shown.append(Line(label(zip(lines, given), has_caches), points(
            [cases[x] for x in sorted(cases)], lambda case: int(case.given[at]),
            table, lines, has_caches)))
    what = ACROSS[kind(across)]
    remarks = [label(values, has_caches)] * bool(values)
    remarks += [f"{len(shown)} of {len(found)} lines"] * (len(shown) < len(found))
    title = f"{measure.name} by {what.removesuffix(' in bytes')}"
    title = ": ".join([title, *[", ".join(remarks)] * bool(remarks)])
    return Picture("size", 0, title, what + f" ({cache(across)})" * has_caches, "", shown)


def by_front(table, measure):
    """The cases of which none as small is as good, by the size of all caches, before all others."""
    sizes = [option for option in table.options if kind(option) in ("size", "sets")]
    lines = [option for option in varied(table) if kind(option) != "size" or len(sizes) > 1]
    has_caches = len({cache(option) for option in lines}) > 1
    every, front = (points(cases, lambda case: case.size, table, lines, has_caches)
                    for cases in (table.cases, pareto(table.cases)))
    words = "size of all caches in bytes" if len(sizes) > 1 else pictures.SIZE
    return Picture("pareto", 0, measure.least, words, "",
                   pictures.front_of(every, front, "least up to this size"))


def of_all(asked, tables, views, measure):
    """The picture of some tables, with the lines of each."""
    drawn = [by_across(asked, view, measure) for view in views]
    has_own = len({view.table.measure for view in views}) > 1
    found = []
    for given, view, picture in zip(tables, views, drawn):
        name = given.name + f" ({cache(view.across)})" * has_own
        found += [line._replace(name=", ".join(filter(None, (name, line.name))))
                  for line in picture.lines]
    lines = evenly(found)
    remarks = [f"{len(lines)} of {len(found)} lines"] * (len(lines) < len(found))
    titles, axes = ({getattr(picture, name) for picture in drawn} for name in ("title", "across"))
    title = drawn[0].title if len(titles) == 1 else drawn[0].title.split(": ")[0]
    across = drawn[0].across if len(axes) == 1 else ACROSS[kind(views[0].across)]
    return drawn[0]._replace(title=": ".join([title, *remarks]), across=across, lines=lines)


def read(asked, given, first=None):
    """A table with its measure and the option on its axis: those that are asked for, or of the
    first table, where this one has them; else its own, as of a split cache beside a unified one."""
    table, columns = read_table(given.lines, given.shown), given.lines[0].strip().split(",")
    as_first = first.across if first and first.across in table.options else None
    across = across_of(asked.across or as_first, table, given.file)
    if first and kind(across) != kind(first.across):
        across_of(first.across, table, given.file)  # which fails
    # without a measure it is the miss ratio of the cache on the horizontal axis
    usual = first and first.table.measure, f"{cache(across)}-percent", usual_measure(columns)
    measure = asked.measure or next(name for name in usual if name in columns)
    if measure != table.measure:
        table = read_table(given.lines, given.shown, measure)
    if table.left_out:
        warn(table.left_out)
    return View(table, across, given.file)


def drawn(asked, tables):
    """The picture that is asked for, its measure, and what a page says of a single table. The axes
    are by the first."""
    costs.refuse_din(asked)
    first = read(asked, tables[0])
    views = [first, *(read(asked, given, first) for given in tables[1:])]
    measures = {view.table.measure for view in views}
    if len(measures) > 1 and not all(measure.endswith("-percent") for measure in measures):
        fail("the tables have no measure in common: name one by --measure")
    measure = measure_of(views)
    runs = sum(len(case.values) for case in first.table.cases)
    counts = f"{counted(runs, 'run', '{:,}'.format)}, {first.table.references:,} references"
    if asked.only == "pareto" and len(tables) == 1:
        return [by_front(first.table, measure)], measure, counts
    if asked.only not in (None, "size"):
        fail("several tables of din have the picture size alone" if len(tables) > 1 else
             f"{first.file}: a table of din has the pictures size and pareto")
    return [of_all(asked, tables, views, measure)], measure, counts
