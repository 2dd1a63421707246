"""A table of `din-table`, for the tools that read it. Rows that differ in the seed are one case."""

import functools
import math
import re
from collections import namedtuple
from fractions import Fraction

from lib.table import (ANY, OPTION, PERHAPS, BadTable, column_of, judge_end, number_of, rows_of)
from lib.tool import MOST

# a count of the report, or what din-table makes of these: it has a share of the references
COUNT = re.compile("l[12]-[diu]-.+|memory-(reads|writes)|bypassed")
REFERENCES = re.compile(".*-references|bypassed")
NUMBERS = ("size", "sets", "bsize", "assoc")
WORDS = {
    "repl": {"l": "LRU", "f": "FIFO", "r": "random"},
    "walloc": {"a": "write-allocate", "n": "no write-allocate"},
    "wback": {"a": "write-back", "n": "write-through"},
}


class Case(namedtuple("Case", "given size values wholes ties")):
    """A combination of values: the texts of its options, the bytes of all its caches; for each seed
    the measure, and what is shown of it as 100; and its place. Where no cache replaces at random,
    all seeds are one run."""

    @functools.cached_property
    def measured(self):
        """What cases are compared by: the mean over the seeds."""
        several = len(self.values)
        return Fraction(sum(self.values), several) if several > 1 else self.values[0]

    @property
    def share(self):
        """The mean of what is shown, to 200 binary digits and not above: the exact sum of fractions
        with a hundred thousand denominators would take hours."""
        one = 1 << 200
        parts = (100 * one * value // whole if whole else 0
                 for value, whole in zip(self.values, self.wholes))
        return Fraction(sum(parts), one * len(self.values))


class Table(namedtuple("Table", "options measure references cases left_out")):
    """The options, those of a cache alone, the measure, the trace's references, the cases, and what
    is to be told of rows that have no cache of the measure."""

    @property
    def is_count(self):
        """Whether the measure is a count of references, which has a share of them."""
        return bool(COUNT.fullmatch(self.measure))


def kind(option):
    return OPTION.fullmatch(option)[2]


def cache(option):
    return OPTION.fullmatch(option)[1]


def usual_measure(columns):
    """The misses of the last cache."""
    return next((column for column in reversed(columns)
                 if column.endswith("-misses") and column.count("-") == 2), None)


def whole_of(columns, measure):
    """The column of what a measure is a share of: what a cache counts of its own references; or
    None, for other counts, of the trace's. What is no count, such as cycles, is shown in its own
    unit."""
    own = "-".join(measure.split("-")[:2]) + "-references"
    return columns.index(own) if own in columns else None


def factors_of(columns):
    """For each cache where the numbers stand whose product is its size: the size itself, or the
    sets, block size and ways."""
    found = {}
    for words in ("sets", "bsize", "assoc"), ("size",):
        for option in columns:
            if OPTION.fullmatch(option) and kind(option) == words[0]:
                names = [cache(option) + word for word in words if cache(option) + word in columns]
                found[cache(option)] = [columns.index(name) for name in names]
    return list(found.values())


def size_of(fields, factors):
    """The bytes of all caches of a row, or 0 where a number is missing. A row of several tables
    that were joined has empty fields for the caches of others."""
    size = 0
    for numbers in factors:
        texts = [fields[at] for at in numbers]
        if "" not in texts:
            size += math.prod(map(int, texts))
        elif any(texts):
            return 0
    return size


def read_rows(lines, name, columns, options):
    """The fields of each row, its place, the bytes of its caches, and the references of the trace:
    those of the first level and those bypassed, which are as many in each row."""
    what, factors, first = "a table of din", factors_of(columns), None
    sizes = [columns.index(option) for option in options if kind(option) in NUMBERS]
    counts = [at for at, word in enumerate(columns) if REFERENCES.fullmatch(word)]
    counted = [at for at in counts if not columns[at].startswith("l2-")]
    forms = [PERHAPS if at in {*sizes, *counts} else ANY for at in range(len(columns))]
    for number, fields in rows_of(lines, name, columns, forms, what):
        place, size = f"{name}: line {number}", size_of(fields, factors)
        if not size or not all(0 < int(fields[at]) <= MOST for at in sizes if fields[at]):
            raise BadTable(f"{place}: no row of {what}")
        references = sum(int(fields[at]) for at in counted if fields[at])
        first = references if first is None else first
        if references != first:
            raise BadTable(f"{place}: the rows are not of one trace: {first} references in the"
                           f" first row, {references} here")
        yield place, fields, size, references


def cases_of(found, options):
    """The cases, given the values of each combination by the seed. Without random replacement all
    seeds are one run."""
    policies = [at for at, option in enumerate(options) if kind(option) == "repl"]
    for case in found:
        is_random = any(case.given[at] == "r" for at in policies) or len({*case.values}) > 1
        if len(case.values) > 1 and not is_random:
            case = case._replace(values=case.values[:1], wholes=case.wholes[:1])
        yield case


def read_table(lines, name, measure=None):
    """The table that some lines are. Without a measure it is of the misses of the last cache."""
    judge_end(lines, name)
    columns = lines[0].rstrip("\r\n").split(",")
    options = [column for column in columns if OPTION.fullmatch(column)]
    measure = measure or usual_measure(columns)
    if not measure or not factors_of(columns):
        raise BadTable(f"{name}: no table of din: a cache's size or misses are not among its "
                       "columns")
    measured, whole = column_of(columns, measure, name), whole_of(columns, measure)
    is_share = COUNT.fullmatch(measure) and not measure.endswith("-percent")
    places = [columns.index(option) for option in options]
    seeds = [at for at, column in enumerate(columns) if column == "seed"][:1]
    own = [at for at in places if measure.startswith(f"{cache(columns[at])}-")]
    found, seen, references, empty = {}, set(), None, 0
    for place, fields, size, references in read_rows(lines, name, columns, options):
        given = tuple(fields[at] for at in places)
        named = (given, *(fields[at] for at in seeds))
        if named in seen:
            raise BadTable(f"{place}: a second row of the same options")
        seen.add(named)
        if own and not fields[measured] and not any(fields[at] for at in own):
            empty += 1
            continue
        if given not in found:
            found[given] = Case(given, size, [], [], len(found))
        found[given].values.append(number_of(fields[measured], measure, place))
        found[given].wholes.append(100 if not is_share else references if whole is None
                                   else int(fields[whole] or 0))
    if not found:
        raise BadTable(f"{name}: a table without {f'any {measure}' if empty else 'a row'}")
    left_out = f"{name}: {empty} of {len(seen)} rows have no {measure}, and are left out"
    cases = list(cases_of(found.values(), options))
    return Table(options, measure, references, cases, left_out if empty else "")
